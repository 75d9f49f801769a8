//! The benchmarks' plain Rust beside document 01 by brute force: it makes the same checks and gives the same refusals.
use thawweasel_tests::paper::{self, Searched};
use thawweasel_tests::{damage, faults, plain::Tables, sheets, sheets::Sheet, Random, Trials};

/// The refusals at which faults are aimed.
const AIMS: [u32; 12] = [1, 2, 4, 5, 6, 7, 8, 9, 10, 11, 12, 13];

/// Opens a sheet and reads a point of it both ways, and gives the index as it is left.
fn opened(s: &Sheet, words: usize, (x, y): (i32, i32)) -> ([u32; 2], Vec<u32>) {
    let mut index = vec![7; words];
    let (said, left) = paper::open(s, &index);
    let t = Tables::from(s);
    assert_eq!((t.open(&mut index), &index), (said, &left), "{s:?}");
    assert_eq!(t.read(x, y), paper::read(s, x, y).values(), "({x}, {y}) of {s:?}");
    if said[0] != 1 {
        assert_eq!(t.repeat_by_pairs(), t.repeat(), "{s:?}");
    }
    (said, left)
}

/// Searches for a point both ways.
fn searched(s: &Sheet, index: &[u32], (x, y): (i32, i32), room: usize) -> Searched {
    let mut trail = vec![7; room];
    let expected = paper::search(s, index, x, y, &trail);
    assert_eq!((Tables::from(s).search(index, x, y, &mut trail), &trail), (expected.out, &expected.trail), "({x}, {y}) of {s:?}");
    expected
}

/// How often each refusal came: of openings, and of searches.
#[derive(Default)]
struct Given {
    openings: [usize; 14],
    searches: [usize; 23],
}

/// Makes all calls on an accepted sheet, on damaged words and tables, and on sheets with faults.
fn compare(r: &mut Random, given: &mut Given, s: &Sheet) {
    let p = sheets::inside(r, s);
    let (_, index) = opened(s, s.need() + 1, p);
    let room = paper::bits(s.zones - 1) as usize;
    let found = searched(s, &index, p, room);
    let (mut bad, mut words) = (s.clone(), index.clone());
    damage::damage(r, &mut bad, &mut words, &found);
    let mut wrong = vec![(bad, words)];
    for bad in [faults::faulty(r, s, &AIMS), faults::faulty(r, s, &AIMS[7..]), faults::misnamed(r, 0), faults::misnamed(r, 2)] {
        let lent = damage::index_room(r, &bad);
        given.openings[opened(&bad, lent, p).0[0] as usize] += 1;
        wrong.push((bad, index.clone()));
    }
    for (bad, words) in wrong {
        let lent = damage::room(r, words.len() - 1).min(words.len());
        let p = if r.below(4) == 0 { sheets::outside(r, s) } else { p };
        let out = searched(&bad, &words[..lent], p, damage::room(r, room)).out;
        given.searches[if out[0] == 0 { out[1] as usize } else { 0 }] += 1;
    }
}

#[test]
fn the_plain_rust_of_the_benchmarks_makes_the_same_checks() {
    let (mut r, trials) = (Random::new("yardstick", 22), Trials::new(2_000));
    let mut given = Given::default();
    for _ in 0..trials.count {
        let s = sheets::any(&mut r);
        compare(&mut r, &mut given, &s);
    }
    let s = sheets::largest(&mut r);
    compare(&mut r, &mut given, &s);
    let openings = (1..14).map(|n| (format!("opening refused {n}"), given.openings[n]));
    let searches = [1, 2, 3, 20, 21, 22].map(|n| (format!("search refused {n}"), given.searches[n]));
    let counts: Vec<(String, usize)> = openings.chain(searches).collect();
    trials.enough(&counts.iter().map(|(name, count)| (&name[..], *count)).collect::<Vec<_>>());
}
