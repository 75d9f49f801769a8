//! Damage: words made wrong in an index and in the tables under it, aimed at each cause of refusal 22, and too little room.
use crate::faults::record;
use crate::paper::{Searched, LIMITS};
use crate::sheets::Sheet;
use crate::Random;

/// A word that may stand where another stood: a limit, an extreme, a neighbour, or anything.
fn other_word(r: &mut Random, s: &Sheet, word: u32) -> u32 {
    let (n, m) = (s.zones, s.edges.len() as u32 / 4);
    match r.below(10) {
        0 => 0,
        1 => m,
        2 => m + 1,
        3 => n,
        4 => u32::MAX,
        5 => word.wrapping_add(1),
        6 => word.wrapping_sub(1),
        7 => r.below(n as u64) as u32,
        8 => r.below(m as u64 + 1) as u32,
        _ => r.next() as u32,
    }
}

/// Changes a word of one part of the index: places, zones, starts or entries.
fn damage_part(r: &mut Random, s: &Sheet, index: &mut [u32]) {
    let (n, m) = (s.zones as usize, s.edges.len() / 4);
    let (from, words) = r.one(&[(0, n), (n, n), (2 * n, n + 1), (3 * n + 1, m)]);
    if words > 0 {
        let at = from + r.below(words as u64) as usize;
        index[at] = other_word(r, s, index[at]);
    }
}

/// Changes a word that a search reads late: the zone word of its answer, or the place of a zone beside the last edge of its trail.
fn damage_found(r: &mut Random, s: &Sheet, found: &Searched, index: &mut [u32]) {
    let n = s.zones as usize;
    let [kind, number, _, examined, _] = found.out;
    if kind == 3 && r.below(4) == 0 || examined == 0 {
        let place = index[number as usize] as usize % n;
        index[n + place] = other_word(r, s, index[n + place]);
        return;
    }
    let e = found.trail[examined as usize - 1] as usize;
    let beside = s.edges[4 * e + 2 + r.below(2) as usize] as usize;
    index[beside] = r.below(n as u64) as u32;
}

/// Changes a table, so that a record may be at fault under 4, 6 or 7 though the sheet was opened; counts and margins still stand.
fn damage_tables(r: &mut Random, s: &mut Sheet) {
    if s.edges.is_empty() {
        return;
    }
    let (e, at) = (record(r, s.edges.len(), 4), r.below(s.vertices.len() as u64) as usize);
    let (word, vertices) = (e + r.below(4) as usize, s.vertices.len() as u32 / 2);
    match r.below(6) {
        0 => {
            let (far, near) = (LIMITS.reach, s.vertices[at].saturating_add(1));
            s.vertices[at] = r.one(&[far, far + 1, -far - 1, i32::MAX, i32::MIN, near]);
        }
        1 => s.edges.swap(e, e + 1),
        2 => s.edges[e] = s.edges[e + 1],
        3 => s.edges[word] = r.one(&[vertices, s.zones, u32::MAX, s.edges[word].saturating_add(1)]),
        4 if s.west + 1 < s.east => s.west += 1,
        _ if s.west + 1 < s.east => s.east -= 1,
        _ => {}
    }
}

/// Makes one to three words wrong in the tables and the index, some that the search which found this reads late.
pub fn damage(r: &mut Random, s: &mut Sheet, index: &mut [u32], found: &Searched) {
    let sound = s.clone();
    for _ in 0..=r.below(3) {
        match r.below(5) {
            0 => damage_tables(r, s),
            1 | 2 => damage_found(r, &sound, found, index),
            _ => damage_part(r, &sound, index),
        }
    }
}

/// How many words to lend where so many are needed: as many, a few more, or too few.
pub fn room(r: &mut Random, need: usize) -> usize {
    match r.below(12) {
        0 => need.saturating_sub(1),
        1 => r.below(need as u64 + 1) as usize,
        _ => need + r.below(3) as usize,
    }
}

/// How many index words to lend for a sheet with faults, whose counts may be far beyond the limits.
pub fn index_room(r: &mut Random, s: &Sheet) -> usize {
    let most = 3 * LIMITS.zones as usize + LIMITS.edges + 1;
    room(r, s.need().min(most + 100))
}
