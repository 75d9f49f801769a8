//! Document 02's P2 as written, by plain means: a month of samples judged, and its ledger.

use crate::pages::{over, Refusal};
use crate::paper::{self, Limits, LIMITS, LONGEST_TRAIL};
use crate::sheet::Sheet;

/// The most samples that a month may have.
pub const MOST: usize = 4_096;

/// A trail with room on every sheet, which is lent to each search.
const TRAIL: [u32; LONGEST_TRAIL] = [0; LONGEST_TRAIL];

/// A month as it is handed over: a sheet with the words of an index, the samples' points, kinds and values, the permits, and how
/// many words are lent of each table that is written.
#[derive(Clone, Debug, Default)]
pub struct Month {
    pub sheet: Sheet,
    pub index: Vec<u32>,
    pub points: Vec<i32>,
    pub kinds: Vec<u32>,
    pub values: Vec<f64>,
    pub permits: Vec<f64>,
    pub room: Room,
}

/// How many words are lent of each table that a month writes.
#[derive(Clone, Copy, Debug, Default, PartialEq, Eq)]
pub struct Room {
    pub boundary: usize,
    pub off: usize,
    pub results: usize,
    pub means: usize,
}

/// The tables that a month writes, the means by their bits; each may have words past those that are lent.
#[derive(Clone, Debug, PartialEq, Eq)]
pub struct Lent {
    pub boundary: Vec<u32>,
    pub off: Vec<u32>,
    pub results: Vec<u32>,
    pub means: Vec<u64>,
}

/// A reading: measured with a value, below detection with the detection limit it was below, not taken, or none of the three.
#[derive(Clone, Copy, Debug, PartialEq)]
pub enum Reading {
    NotTaken,
    Measured(f64),
    BelowDetection(f64),
    Unknown,
}

/// Where the search over the lent words finds a point: in a zone, on an edge or a vertex, turned away by 20, or refused 22.
#[derive(Clone, Copy, Debug, PartialEq, Eq)]
pub enum Place {
    Zone(usize),
    Boundary,
    Off,
    Damaged,
}

/// What a month comes to in one zone: its readings, those below detection, and the mean where anything was taken.
#[derive(Clone, Copy, Debug, PartialEq)]
pub struct Entry {
    pub count: u32,
    pub below: u32,
    pub mean: Option<f64>,
    pub over: bool,
}

/// A good month: what each zone comes to, and the taken samples that enter none.
#[derive(Clone, Debug, PartialEq)]
pub struct Ledger {
    pub zones: Vec<Entry>,
    pub boundary: Vec<u32>,
    pub off: Vec<u32>,
}

/// Greater than 0 and at most 1,000 mg/L; not-a-number is neither.
pub fn in_range(value: f64) -> bool {
    value > 0.0 && value <= 1_000.0
}

impl Reading {
    /// The value that enters the mean: a reading below detection enters at its own limit.
    pub fn value(self) -> Option<f64> {
        match self {
            Reading::Measured(value) | Reading::BelowDetection(value) => Some(value),
            Reading::NotTaken | Reading::Unknown => None,
        }
    }
}

impl Month {
    /// The number of zones.
    fn zones(&self) -> usize {
        self.sheet.zones as usize
    }

    /// The reading of a sample.
    pub fn reading(&self, sample: usize) -> Reading {
        match self.kinds[sample] {
            0 => Reading::NotTaken,
            1 => Reading::Measured(self.values[sample]),
            2 => Reading::BelowDetection(self.values[sample]),
            _ => Reading::Unknown,
        }
    }

    /// Where the point of a sample is found.
    pub fn place(&self, sample: usize) -> Place {
        self.place_under(&LIMITS, sample)
    }

    /// Where the point of a sample is found under limits.
    fn place_under(&self, l: &Limits, sample: usize) -> Place {
        let (x, y) = (self.points[2 * sample], self.points[2 * sample + 1]);
        match paper::search_under(l, &self.sheet, &self.index, x, y, &TRAIL).out {
            [3, zone, ..] => Place::Zone(zone as usize),
            [0, 20, ..] => Place::Off,
            [0, 22, ..] => Place::Damaged,
            [0, number, ..] => panic!("a month that {number} refuses"),
            _ => Place::Boundary,
        }
    }

    /// The limit and the detection floor of a zone.
    pub fn permit(&self, zone: usize) -> (f64, f64) {
        (self.permits[2 * zone], self.permits[2 * zone + 1])
    }
}

/// Says whether something is wrong with a month.
type Fault = fn(&Month) -> bool;

/// What refusal 43 is given for.
pub const SHORTAGES: [(&str, Fault); 8] = [
    ("more than 4,096 samples", |m| m.kinds.len() > MOST),
    ("points that are not two words for each kind", |m| m.points.len() != 2 * m.kinds.len()),
    ("values that are not one for each kind", |m| m.values.len() != m.kinds.len()),
    ("a boundary list shorter than the samples", |m| m.room.boundary < m.kinds.len()),
    ("an off-sheet list shorter than the samples", |m| m.room.off < m.kinds.len()),
    ("permits fewer than n", |m| m.permits.len() < 2 * m.zones()),
    ("zone results fewer than n", |m| m.room.results < 3 * m.zones()),
    ("means fewer than n", |m| m.room.means < m.zones()),
];

/// Refusals 1, 2 and 3, which a search gives whatever its point is.
fn tables_refused(l: &Limits, m: &Month) -> Option<Refusal> {
    match paper::search_under(l, &m.sheet, &m.index, 0, 0, &TRAIL).out {
        [0, number, item, ..] if number <= 3 => Some((number, item)),
        _ => None,
    }
}

/// The item of a refusal that is about one zone (42) or one sample (40, 22, 41), the lowest for which it is given.
fn lowest(l: &Limits, m: &Month, number: u32) -> Option<usize> {
    let mut samples = 0..m.kinds.len();
    let taken = |sample: usize| m.reading(sample).value().is_some();
    match number {
        42 => (0..m.zones()).find(|&zone| !in_range(m.permit(zone).0) || !in_range(m.permit(zone).1)),
        40 => samples.find(|&sample| match m.reading(sample) {
            Reading::NotTaken => false,
            Reading::Unknown => true,
            Reading::Measured(value) | Reading::BelowDetection(value) => !in_range(value),
        }),
        22 => samples.find(|&sample| taken(sample) && m.place_under(l, sample) == Place::Damaged),
        _ => samples.find(|&sample| match (m.reading(sample), m.place_under(l, sample)) {
            (Reading::BelowDetection(limit), Place::Zone(zone)) => limit > m.permit(zone).1,
            _ => false,
        }),
    }
}

/// The refusals of a month under limits in their order, of which the first is given; 1, 2, 3 and 43 stand alone, since no sample can be
/// read.
fn refusals_under(l: &Limits, m: &Month) -> Vec<Refusal> {
    let short = || SHORTAGES.iter().any(|(_, applies)| applies(m)).then_some((43, 0));
    if let Some(refusal) = tables_refused(l, m).or_else(short) {
        return vec![refusal];
    }
    [42, 40, 22, 41].iter().filter_map(|&number| Some((number, lowest(l, m, number)? as u32))).collect()
}

/// The refusals of a month.
pub fn refusals(m: &Month) -> Vec<Refusal> {
    refusals_under(&LIMITS, m)
}

/// What a zone comes to: the sum runs in sample order from the first value, then one division by the count.
fn entry(readings: &[Reading], limit: f64) -> Entry {
    let sum = readings.iter().filter_map(|reading| reading.value()).reduce(|sum, value| sum + value);
    let mean = sum.map(|sum| sum / readings.len() as f64);
    let below = readings.iter().filter(|reading| matches!(reading, Reading::BelowDetection(_))).count();
    Entry { count: readings.len() as u32, below: below as u32, mean, over: mean.is_some_and(|mean| mean > limit) }
}

/// Keeps a month.
pub fn keep(m: &Month) -> Result<Ledger, Refusal> {
    keep_under(&LIMITS, m)
}

/// Keeps a month under limits: its first refusal, or its ledger.
fn keep_under(l: &Limits, m: &Month) -> Result<Ledger, Refusal> {
    if let Some(&refusal) = refusals_under(l, m).first() {
        return Err(refusal);
    }
    let (mut readings, mut boundary, mut off) = (vec![vec![]; m.zones()], vec![], vec![]);
    for sample in (0..m.kinds.len()).filter(|&sample| m.reading(sample) != Reading::NotTaken) {
        match m.place_under(l, sample) {
            Place::Zone(zone) => readings[zone].push(m.reading(sample)),
            Place::Boundary => boundary.push(sample as u32),
            Place::Off => off.push(sample as u32),
            Place::Damaged => panic!("sample {sample} is refused 22"),
        }
    }
    let zones = readings.iter().enumerate().map(|(zone, readings)| entry(readings, m.permit(zone).0)).collect();
    Ok(Ledger { zones, boundary, off })
}

/// The three words of a zone's result: its readings, those below detection, and 0 for no mean, 1 within the limit, 2 over it.
fn words(entry: &Entry) -> [u32; 3] {
    let verdict = match entry.mean {
        None => 0,
        Some(_) => 1 + entry.over as u32,
    };
    [entry.count, entry.below, verdict]
}

/// Keeps a month in lent tables.
pub fn month(m: &Month, lent: &Lent) -> ([u32; 4], Lent) {
    month_under(&LIMITS, m, lent)
}

/// Keeps a month under limits in lent tables: refusal and item, how many samples are on a boundary and off the sheet; and every lent word
/// afterwards. A refusal writes nothing, and a zone with nothing taken leaves its place among the means as it was.
pub fn month_under(l: &Limits, m: &Month, lent: &Lent) -> ([u32; 4], Lent) {
    let Ledger { zones, boundary, off } = match keep_under(l, m) {
        Ok(ledger) => ledger,
        Err((number, item)) => return ([number, item, 0, 0], lent.clone()),
    };
    let results: Vec<u32> = zones.iter().flat_map(words).collect();
    let means: Vec<u64> = zones.iter().zip(&lent.means).map(|(zone, &before)| zone.mean.map_or(before, f64::to_bits)).collect();
    let written = Lent {
        boundary: over(&boundary, &lent.boundary),
        off: over(&off, &lent.off),
        results: over(&results, &lent.results),
        means: over(&means, &lent.means),
    };
    ([0, 0, boundary.len() as u32, off.len() as u32], written)
}
