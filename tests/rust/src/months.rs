//! Months: random samples, readings and permits on random sheets, and faults in them, aimed at each refusal of document 02's P2.
use crate::ledger::{self, in_range, Month, Place, Room, MOST};
use crate::paper::{self, LIMITS, LONGEST_TRAIL};
use crate::sheets::{self, Sheet};
use crate::{damage, faults, Random};

/// A value in the range: at its ends, a simple number, one of any size, or any.
pub fn value(r: &mut Random) -> f64 {
    let last = 1_000_f64.to_bits();
    match r.below(8) {
        0 => r.one(&[f64::from_bits(1), f64::MIN_POSITIVE, 1_000_f64.next_down(), 1_000.0]),
        1 => r.one(&[0.1, 0.2, 0.3, 1.0 / 3.0, 1.0, 9.0]),
        2 => f64::from_bits(1 + r.next() % last),
        3 => r.between(1, 1_000) as f64,
        _ => 1_000.0 * (1 + r.below(1 << 40)) as f64 / (1_u64 << 40) as f64,
    }
}

/// A float that is not in the range: a zero, below it, above it, without end, or not-a-number by any of its bits.
pub fn wrong_value(r: &mut Random) -> f64 {
    let large = [1_000_f64.next_up(), 1_001.0, f64::MAX, f64::INFINITY];
    match r.below(6) {
        0 => r.one(&[0.0, -0.0]),
        1 => r.one(&large),
        2 => -r.one(&large),
        3 => -value(r),
        4 => r.one(&[f64::NAN, -f64::NAN]),
        _ => f64::from_bits(r.one(&[0x7FF0 << 48, 0xFFF0 << 48]) | (1 + r.below(1 << 51))),
    }
}

/// A float that is not looked at: often one that is not in the range.
fn unread_value(r: &mut Random) -> f64 {
    if r.below(4) == 0 { value(r) } else { wrong_value(r) }
}

/// A point for one more sample: that of an earlier one, one off the sheet, or one on it.
fn point(r: &mut Random, s: &Sheet, earlier: &[i32]) -> [i32; 2] {
    match r.below(8) {
        0 => sheets::outside(r, s).into(),
        1..=3 if !earlier.is_empty() => {
            let at = 2 * r.below(earlier.len() as u64 / 2) as usize;
            [earlier[at], earlier[at + 1]]
        }
        _ => sheets::inside(r, s).into(),
    }
}

/// A month of so many samples on any sheet with any index words, its points around this accepted sheet; room and permits are
/// enough, and every value that is read is in the range.
pub fn any(r: &mut Random, around: &Sheet, sheet: &Sheet, index: &[u32], samples: usize) -> Month {
    let zones = sheet.zones.min(LIMITS.zones + 100) as usize;
    let mut m = Month { sheet: sheet.clone(), index: index.to_vec(), ..Month::default() };
    let quiet = r.below(2) == 0;
    for _ in 0..samples {
        let point = point(r, around, &m.points);
        m.points.extend(point);
        m.kinds.push(r.one(&[0, 1, 1, 1, 2, 2]));
        m.values.push(if m.kinds.last() == Some(&0) { unread_value(r) } else { value(r) });
    }
    for _ in 0..zones {
        let (limit, floor) = (value(r), if quiet { 1_000.0 } else { value(r) });
        m.permits.extend([limit, floor]);
    }
    (0..r.below(4)).for_each(|_| m.permits.push(unread_value(r)));
    let mut more = || r.one(&[0, 0, 1, 2]);
    m.room = Room { boundary: samples + more(), off: samples + more(), results: 3 * zones + more(), means: zones + more() };
    m
}

/// A good month of so many samples on an accepted sheet with its index: no detection limit is above its zone's floor, many are equal
/// to it, and many limits are at the mean or beside it.
pub fn sound(r: &mut Random, s: &Sheet, index: &[u32], samples: usize) -> Month {
    let mut m = any(r, s, s, index, samples);
    for sample in (0..samples).filter(|&sample| m.kinds[sample] == 2).collect::<Vec<_>>() {
        if let Place::Zone(zone) = m.place(sample) {
            m.values[sample] = m.values[sample].min(m.permit(zone).1);
        }
    }
    let ledger = ledger::keep(&m).expect("a good month");
    for (zone, mean) in ledger.zones.iter().enumerate().filter_map(|(zone, entry)| Some((zone, entry.mean?))) {
        let near = [mean, mean.next_up(), mean.next_down()];
        m.permits[2 * zone] = Some(r.one(&near)).filter(|&limit| in_range(limit)).unwrap_or(mean);
        if r.below(4) == 0 {
            m.permits[2 * zone] = value(r);
        }
    }
    m
}

/// How many samples a random month has: none, one, or some tens.
pub fn samples(r: &mut Random) -> usize {
    match r.below(16) {
        0 => r.below(2) as usize,
        _ => 2 + r.below(40) as usize,
    }
}

/// Makes one thing wrong with a month, and says whether that could be.
type Fault = fn(&mut Random, &mut Month) -> bool;

/// What can be wrong with a good month, in the order of the refusals that it leads to.
pub const FAULTS: [(&str, u32, Fault); 25] = [
    ("counts beyond the limits", 1, |r, m| sheet_fault(r, m, 1)),
    ("margins out of range", 2, |r, m| sheet_fault(r, m, 2)),
    ("an index one word short", 3, |_, m| shorten(&mut m.index, m.sheet.need() - 1)),
    ("more than 4,096 samples", 43, |r, m| lengthen(m, MOST + r.one(&[1, 1, 2, 900]))),
    ("point words too few", 43, |r, m| shorten(&mut m.points, (2 * m.kinds.len()).saturating_sub(r.one(&[1, 2])))),
    ("point words too many", 43, |r, m| (0..r.one(&[1, 2])).map(|_| m.points.push(m.sheet.west)).count() > 0),
    ("kinds too few", 43, |_, m| m.kinds.pop().is_some()),
    ("kinds too many", 43, one_kind_more),
    ("values too few", 43, |_, m| m.values.pop().is_some()),
    ("values too many", 43, |r, m| push(&mut m.values, r.one(&[1.0, f64::NAN]))),
    ("a boundary list one word short", 43, |_, m| lower(&mut m.room.boundary, m.kinds.len())),
    ("a boundary list of no words", 43, |_, m| lower(&mut m.room.boundary, m.kinds.len().min(1))),
    ("an off-sheet list one word short", 43, |_, m| lower(&mut m.room.off, m.kinds.len())),
    ("an off-sheet list of no words", 43, |_, m| lower(&mut m.room.off, m.kinds.len().min(1))),
    ("permits one or two values short", 43, |r, m| shorten(&mut m.permits, 2 * m.sheet.zones as usize - r.one(&[1, 2]))),
    ("results one to three words short", 43, |r, m| lower(&mut m.room.results, 3 * m.sheet.zones as usize - r.below(3) as usize)),
    ("means one short", 43, |_, m| lower(&mut m.room.means, m.sheet.zones as usize)),
    ("a limit that is not in the range", 42, |r, m| permit_fault(r, m, 0)),
    ("a floor that is not in the range", 42, |r, m| permit_fault(r, m, 1)),
    ("a measured value that is not in the range", 40, |r, m| reading_fault(r, m, 1, None)),
    ("a detection limit that is not in the range", 40, |r, m| reading_fault(r, m, 2, None)),
    ("a value on a boundary that is not in the range", 40, |r, m| reading_fault(r, m, 1, Some(Place::Boundary))),
    ("a value off the sheet that is not in the range", 40, |r, m| reading_fault(r, m, 1, Some(Place::Off))),
    ("an unknown kind", 40, kind_fault),
    ("a detection limit above its zone's floor", 41, floor_fault),
];

/// Breaks the counts or the margins of the sheet.
fn sheet_fault(r: &mut Random, m: &mut Month, number: u32) -> bool {
    m.sheet = faults::faulty(r, &m.sheet, &[number]);
    paper::judge(&m.sheet).is_some_and(|refusal| refusal.0 == number)
}

/// Cuts a table to a length below its own.
fn shorten<T>(table: &mut Vec<T>, length: usize) -> bool {
    let cut = length < table.len();
    table.truncate(length);
    cut
}

/// Puts one thing more into a table.
fn push<T>(table: &mut Vec<T>, more: T) -> bool {
    table.push(more);
    true
}

/// Makes a room one less than what is needed, if anything is.
fn lower(room: &mut usize, need: usize) -> bool {
    *room = need.saturating_sub(1);
    need > 0
}

/// Repeats the samples until there are so many, with room for them.
pub fn lengthen(m: &mut Month, samples: usize) -> bool {
    m.points = m.points.iter().copied().cycle().take(2 * samples).collect();
    m.kinds = m.kinds.iter().copied().cycle().take(samples).collect();
    m.values = m.values.iter().copied().cycle().take(samples).collect();
    (m.room.boundary, m.room.off) = (samples, samples);
    m.kinds.len() == samples
}

/// One kind more, with room in both lists for it.
fn one_kind_more(r: &mut Random, m: &mut Month) -> bool {
    m.kinds.push(r.below(4) as u32);
    (m.room.boundary, m.room.off) = (m.kinds.len(), m.kinds.len());
    true
}

/// Puts a limit (0) or a floor (1) of a zone or two out of the range.
fn permit_fault(r: &mut Random, m: &mut Month, which: usize) -> bool {
    for _ in 0..r.one(&[1, 1, 2]) {
        let zone = r.below(m.sheet.zones as u64) as usize;
        m.permits[2 * zone + which] = wrong_value(r);
    }
    true
}

/// Gives one or two taken samples a reading of this kind with a value out of the range; all of them at one place where that is said.
fn reading_fault(r: &mut Random, m: &mut Month, kind: u32, place: Option<Place>) -> bool {
    let there = |&sample: &usize| m.kinds[sample] != 0 && place.is_none_or(|place| m.place(sample) == place);
    let list: Vec<usize> = (0..m.kinds.len()).filter(there).collect();
    for _ in 0..r.one(&[1, 1, 2]).min(list.len()) {
        let sample = r.one(&list);
        (m.kinds[sample], m.values[sample]) = (kind, wrong_value(r));
    }
    !list.is_empty()
}

/// Gives a sample a kind of reading that there is not.
fn kind_fault(r: &mut Random, m: &mut Month) -> bool {
    if m.kinds.is_empty() {
        return false;
    }
    let sample = r.below(m.kinds.len() as u64) as usize;
    m.kinds[sample] = r.one(&[3, 4, 256, 257, 258, 1 << 16, 1 << 31, u32::MAX]);
    true
}

/// Brings floors below the detection limits of one or two samples in zones, often by the least that there is.
fn floor_fault(r: &mut Random, m: &mut Month) -> bool {
    let taken = (0..m.kinds.len()).filter(|&sample| m.kinds[sample] != 0);
    let list: Vec<(usize, usize)> = taken.filter_map(|sample| Some((sample, zone(m.place(sample))?))).collect();
    for _ in 0..r.one(&[1, 1, 2]).min(list.len()) {
        let (sample, zone) = r.one(&list);
        let floor = value(r).min(999.0);
        let limit = if r.below(2) == 0 { floor.next_up() } else { value(r).max(floor.next_up()) };
        (m.kinds[sample], m.values[sample], m.permits[2 * zone + 1]) = (2, limit, floor);
    }
    !list.is_empty()
}

/// The zone of a place that is one.
fn zone(place: Place) -> Option<usize> {
    match place {
        Place::Zone(zone) => Some(zone),
        _ => None,
    }
}

/// Makes words wrong in the index and the tables under it, aimed at a sample; gives none where no sample is on the sheet.
pub fn damaged(r: &mut Random, m: &Month) -> Option<Month> {
    let mut bad = m.clone();
    let sample = r.below(m.kinds.len().max(1) as u64) as usize;
    let point = m.points.get(2 * sample..2 * sample + 2)?;
    let found = paper::search(&m.sheet, &m.index, point[0], point[1], &[0; LONGEST_TRAIL]);
    if found.out[0] == 0 {
        return None;
    }
    damage::damage(r, &mut bad.sheet, &mut bad.index, &found);
    Some(bad)
}
