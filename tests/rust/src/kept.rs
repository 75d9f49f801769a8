//! Months kept both ways, by the proved call and by plain means, which have to agree on every answer, every lent word and every bit.
use crate::ledger::{self, Lent, Month, Room};
use crate::sheets::{self, Sheet};
use crate::{lent, month, months, open, Random};

/// How many words past those that are lent have to stay as they were.
pub const PAST: usize = 3;

/// The tables of a month before it is kept, with some words past those that are lent.
pub fn tables(room: Room) -> Lent {
    let other = |words: usize| lent(words).iter().map(|word| !word).collect();
    let means = lent(room.means + PAST).iter().map(|&word| u64::from(word) << 32 | u64::from(!word)).collect();
    Lent { boundary: lent(room.boundary + PAST), off: other(room.off + PAST), results: lent(room.results + PAST), means }
}

/// A month as it is shown where a comparison fails: its numbers of samples and zones, and its first words.
pub fn shown(m: &Month) -> String {
    format!("of {} samples in {} zones: {:.6000}", m.kinds.len(), m.sheet.zones, format!("{m:?}"))
}

/// Keeps a month both ways: what is said, and every word afterwards.
pub fn keep(m: &Month) -> ([u32; 4], Lent) {
    let before = tables(m.room);
    let mut after = before.clone();
    let said = month(m, &mut after);
    let (expected, left) = ledger::month(m, &before);
    assert_eq!(said, expected, "a month {}", shown(m));
    assert_eq!(after, left, "the words after a month {}", shown(m));
    (said, after)
}

/// The index that opening leaves for an accepted sheet, and words past it.
pub fn opened(r: &mut Random, s: &Sheet) -> Vec<u32> {
    let mut index = lent(s.need() + r.below(3) as usize);
    assert_eq!(open(s, &mut index), [0, 0], "{s:?}");
    index
}

/// A good month on a random accepted sheet with its index.
pub fn good(r: &mut Random) -> Month {
    let s = sheets::any(r);
    let (index, samples) = (opened(r, &s), months::samples(r));
    months::sound(r, &s, &index, samples)
}

/// The lens sheet with its index and these samples, each a point, a kind and a value; every limit is 10 and every floor 1.
pub fn lens_month(samples: &[(i32, i32, u32, f64)]) -> Month {
    let mut m = Month { sheet: sheets::lens(), index: vec![0, 1, 2, 0, 1, 2, 0, 0, 2, 4, 2, 3, 0, 1], ..Month::default() };
    for &(x, y, kind, value) in samples {
        m.points.extend([x, y]);
        m.kinds.push(kind);
        m.values.push(value);
    }
    m.permits = [10.0, 1.0].repeat(3);
    m.room = Room { boundary: samples.len(), off: samples.len(), results: 9, means: 3 };
    m
}
