//! A month on the lens sheet of document 01: the sheet is opened, the month is kept, and its ledger printed.
use thawweasel_tests::ledger::{Lent, Month, Room};
use thawweasel_tests::{month, open, sheets::lens};

/// The samples, each a point, a kind (0 not taken, 1 measured, 2 below detection) and a value in mg/L.
const SAMPLES: [(i32, i32, u32, f64); 19] = [
    (2, 0, 1, 0.31),
    (0, 0, 1, 0.28),
    (1, 5, 1, 2.5),
    (1, 1, 2, 0.05),
    (2, 1, 2, 0.05),
    (2, 2, 1, 0.9),
    (3, 1, 1, 0.7),
    (5, 0, 1, 0.2),
    (3, 4, 1, 3.25),
    (4, 0, 2, 0.1),
    (3, -1, 1, 0.4),
    (3, -2, 0, 0.0),
    (2, -2, 1, 0.6),
    (1, 0, 1, 0.44),
    (-1, 0, 1, 0.3),
    (1, -1, 2, 0.05),
    (2, 1_000_000_001, 1, 0.2),
    (2, -1, 2, 0.08),
    (0, 7, 2, 0.1),
];

/// The limit and the detection floor of each zone in mg/L.
const PERMITS: [f64; 6] = [0.5, 0.1, 0.5, 0.1, 1.5, 0.2];

/// The month as it is handed over, on this opened sheet.
fn lens_month(index: Vec<u32>) -> Month {
    let samples = SAMPLES.len();
    Month {
        sheet: lens(),
        index,
        points: SAMPLES.iter().flat_map(|&(x, y, ..)| [x, y]).collect(),
        kinds: SAMPLES.iter().map(|sample| sample.2).collect(),
        values: SAMPLES.iter().map(|sample| sample.3).collect(),
        permits: PERMITS.to_vec(),
        room: Room { boundary: samples, off: samples, results: 9, means: 3 },
    }
}

/// The numbers of samples with their points.
fn listed(samples: &[u32]) -> String {
    let point = |sample: u32| (SAMPLES[sample as usize].0, SAMPLES[sample as usize].1);
    samples.iter().map(|&sample| format!("{sample} at {:?}", point(sample))).collect::<Vec<_>>().join(", ")
}

fn main() {
    let mut index = vec![0; lens().need()];
    let [number, item] = open(&lens(), &mut index);
    if number != 0 {
        return println!("refused {number} {item}");
    }
    let m = lens_month(index);
    let mut lent = Lent { boundary: vec![0; m.room.boundary], off: vec![0; m.room.off], results: vec![0; 9], means: vec![0; 3] };
    let [number, item, boundary, off] = month(&m, &mut lent);
    if number != 0 {
        return println!("refused {number} {item}");
    }
    let untaken = m.kinds.iter().filter(|&&kind| kind == 0).count();
    println!("a month of {} samples on the lens sheet, {untaken} of them not taken", SAMPLES.len());
    println!("on a boundary: {}", listed(&lent.boundary[..boundary as usize]));
    println!("off the sheet: {}", listed(&lent.off[..off as usize]));
    println!("{} samples lie on boundaries or off the sheet and entered no zone", boundary + off);
    for (zone, result) in lent.results.chunks(3).enumerate() {
        let (mean, limit) = (f64::from_bits(lent.means[zone]), PERMITS[2 * zone]);
        let said = match result[2] {
            0 => format!("no mean, limit {limit} mg/L"),
            verdict => format!("mean {mean} mg/L, limit {limit} mg/L, {}", ["within", "over"][verdict as usize - 1]),
        };
        println!("zone {zone}: {} readings, {} below detection, {said}", result[0], result[1]);
    }
}
