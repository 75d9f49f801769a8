//! The quick search over any words, with several refusals at once, at the limits, and where only one zone is left to judge.
use thawweasel_tests::{enough, lent, open, paper, read, search, sheets, sheets::lens, sheets::Sheet, Random, Trials};

/// Searches over so many lent trail words: what it said and the counted entries; every other word must be as it was lent.
fn searched(s: &Sheet, index: &[u32], (x, y): (i32, i32), room: usize) -> ([u32; 5], Vec<u32>) {
    let lent = lent(room);
    let mut trail = lent.clone();
    let said = search(s, index, x, y, &mut trail);
    let counted = said[3] as usize;
    assert!(counted <= room, "{counted} edges in {room} words: ({x}, {y}) of {s:?}");
    assert_eq!(trail[counted..], lent[counted..], "a trail word that is not counted was written: ({x}, {y}) of {s:?}");
    trail.truncate(counted);
    (said, trail)
}

/// Index words below the limits of their part, the starts in order, or one time in four any words below one limit.
fn any_words(r: &mut Random, s: &Sheet) -> Vec<u32> {
    let (n, m) = (s.zones as u64, s.edges.len() as u64 / 4);
    if r.below(4) == 0 {
        let limit = r.one(&[2, n, m + 1, 1 << 32]);
        return (0..s.need()).map(|_| r.below(limit) as u32).collect();
    }
    let mut part = |words: u64, limit: u64| (0..words).map(|_| r.below(limit) as u32).collect::<Vec<u32>>();
    let (places, zones, mut starts, entries) = (part(n, n), part(n, n), part(n + 1, m + 1), part(m, m));
    starts.sort_unstable();
    [places, zones, starts, entries].concat()
}

#[test]
fn any_words_in_an_index_are_answered_or_refused() {
    let (mut r, trials) = (Random::new("any words", 16), Trials::new(10_000));
    let mut given = [0; 2];
    for _ in 0..trials.count {
        let s = sheets::tiny(&mut r);
        let (index, p) = (any_words(&mut r, &s), sheets::inside(&mut r, &s));
        let room = paper::bits(s.zones - 1) as usize + r.below(3) as usize;
        let (said, trail) = searched(&s, &index, p, room);
        let expected = paper::search(&s, &index, p.0, p.1, &vec![0; room]);
        assert_eq!((said, &trail[..]), (expected.out, &expected.trail[..trail.len()]), "{p:?} over {index:?} of {s:?}");
        given[(said[0] == 0) as usize] += 1;
    }
    trials.enough(&[("answered", given[0]), ("refused", given[1])]);
}

/// Sheets like the lens sheet that refusal 1 names.
fn uncountable() -> Vec<Sheet> {
    let vertices = [9, 8_194].map(|words| Sheet { vertices: vec![0; words], ..lens() });
    let edges = [17, 18, 19, 32_772].map(|words| Sheet { edges: vec![0; words], ..lens() });
    let zones = [0, 4_097, u32::MAX].map(|zones| Sheet { zones, ..lens() });
    [&vertices[..], &edges[..], &zones[..]].concat()
}

/// Margins for the lens sheet, sound ones first, then some that refusal 2 names.
const MARGINS: [(i32, i32); 6] = [(0, 4), (4, 4), (5, 4), (-1_000_000_001, 4), (0, 1_000_000_001), (i32::MIN, i32::MAX)];

/// A point, and where it is on the lens sheet its answer with both counts and its trail.
type Case = ((i32, i32), Option<([u32; 5], &'static [u32])>);

/// The points of the lens sheet with their answers in document 01, two at the limits of the heights, then some off it.
const POINTS: [Case; 14] = [
    ((2, 0), Some(([3, 1, 0, 2, 2], &[1, 3]))),
    ((2, 2), Some(([1, 1, 0, 1, 1], &[1]))),
    ((1, 1), Some(([2, 0, 0, 1, 2], &[0]))),
    ((4, 0), Some(([1, 3, 0, 1, 1], &[1]))),
    ((0, 0), Some(([1, 0, 0, 1, 2], &[0]))),
    ((1, 5), Some(([3, 2, 0, 1, 2], &[0]))),
    ((3, -2), Some(([3, 0, 0, 2, 2], &[1, 3]))),
    ((2, 1_000_000_000), Some(([3, 2, 0, 1, 1], &[1]))),
    ((2, -1_000_000_000), Some(([3, 0, 0, 2, 2], &[1, 3]))),
    ((-1, 0), None),
    ((5, 0), None),
    ((2, 1_000_000_001), None),
    ((2, -1_000_000_001), None),
    ((i32::MIN, i32::MAX), None),
];

/// The index of the lens sheet, then two at fault: every word beyond its limit, and every chain empty.
const WORDS: [[u32; 14]; 3] = [[0, 1, 2, 0, 1, 2, 0, 0, 2, 4, 2, 3, 0, 1], [7; 14], [0; 14]];

/// Searches with each choice of margins, point and words, over short and long indexes and trails; `countable` says that
/// refusal 1 is not given.
fn first_refusals(tables: &Sheet, countable: bool, given: &mut [usize; 23]) {
    for (m, &(west, east)) in MARGINS.iter().enumerate() {
        let s = Sheet { west, east, ..tables.clone() };
        for ((point, found), words) in POINTS.iter().flat_map(|case| [0, 1, 2].map(|words| (case, words))) {
            let mut index = WORDS[words].to_vec();
            index.extend_from_slice(&[9, 9, 9]);
            for (length, room) in (0..25).map(|c| ([14, 15, 17, 13, 0][c / 5], [2, 3, 10, 1, 0][c % 5])) {
                let faults = [(1, !countable), (2, m > 0), (3, length < 14), (20, found.is_none()), (21, room < 2), (22, words > 0)];
                let first = faults.iter().find(|f| f.1).map_or(0, |f| f.0);
                let (out, trail) = if first == 0 { found.unwrap() } else { ([0, first, 0, 0, 0], &[][..]) };
                let said = searched(&s, &index[..length], *point, room);
                assert_eq!(said, (out, trail.to_vec()), "{point:?}, {length} words, {room} places, of {s:?}");
                given[first as usize] += 1;
            }
        }
    }
}

#[test]
fn of_several_refusals_the_first_is_given() {
    println!("first refusals on the lens sheet:");
    let mut given = [0; 23];
    first_refusals(&lens(), true, &mut given);
    uncountable().iter().for_each(|s| first_refusals(s, false, &mut given));
    let named = [("none", 0), ("1", 1), ("2", 2), ("3", 3), ("20", 20), ("21", 21), ("22", 22)];
    enough(&named.map(|(name, number)| (name, given[number])));
}

#[test]
fn twelve_places_for_the_most_zones() {
    let mut r = Random::new("places", 24);
    for s in [sheets::largest(&mut r), sheets::largest_fan()] {
        let mut index = vec![0; s.need()];
        assert_eq!((open(&s, &mut index), s.zones), ([0, 0], 4_096));
        for p in (0..400).map(|_| sheets::inside(&mut r, &s)) {
            assert_eq!(searched(&s, &index, p, 11), ([0, 21, 0, 0, 0], vec![]), "a trail of 11 places");
            let (said, trail) = searched(&s, &index, p, 12);
            let expected = paper::search(&s, &index, p.0, p.1, &[0; 12]);
            assert_eq!((said, &trail[..]), (expected.out, &expected.trail[..trail.len()]), "{p:?}");
        }
    }
}

#[test]
fn twelve_edges_examined_on_the_way_through_the_largest_fan() {
    let s = sheets::largest_fan();
    let mut index = vec![0; s.need()];
    assert_eq!(open(&s, &mut index), [0, 0]);
    let (said, trail) = searched(&s, &index, (1_000, -1_000_000_000), 12);
    assert_eq!(said, [3, 0, 0, 12, 12], "one edge in each chain");
    assert_eq!(trail, [2047, 1023, 511, 255, 127, 63, 31, 15, 7, 3, 1, 0]);
    assert_eq!(read(&s, 1_000, -1_000_000_000), [3, 0, 0]);
}

#[test]
fn the_only_zone_is_still_judged() {
    let blank = sheets::blank();
    assert_eq!(search(&blank, &[0, 0, 0, 0], -7, 3, &mut []), [3, 0, 0, 0, 0]);
    assert_eq!(search(&blank, &[5, 0, 6, 7], 9, 3, &mut []), [3, 0, 0, 0, 0], "the zone word alone is read");
    assert_eq!(search(&blank, &[0, 1, 0, 0], -7, 3, &mut []), [0, 22, 0, 0, 0]);
    assert_eq!(search(&blank, &[0, 0, 0], -7, 3, &mut []), [0, 3, 0, 0, 0]);
}
