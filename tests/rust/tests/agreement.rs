//! Random calls of opening, plain reading and quick search beside document 01 by brute force: both agree on every word.
use thawweasel_tests::faults::{self, MISNAMED};
use thawweasel_tests::paper::{self, Searched, CAUSES, EARLIER, LIMITS};
use thawweasel_tests::{damage, lent, open, read, search, sheets, sheets::Sheet, Random, Tally, Trials};

/// The refusals at which faults are aimed, 0 for what goes to a limit.
const ALL: [u32; 13] = [0, 1, 2, 4, 5, 6, 7, 8, 9, 10, 11, 12, 13];

/// The last refusals, which come to light only where nothing else is wrong.
const LATE: [u32; 5] = [9, 10, 11, 12, 13];

/// What makes a sheet rich, and whether this accepted one has it.
fn structure(s: &Sheet) -> [(&'static str, bool); 9] {
    let points: Vec<(i32, i32)> = s.vertices.chunks_exact(2).map(|v| (v[0], v[1])).collect();
    let edges = || s.edges.chunks_exact(4);
    let fan = |end: usize| (0..points.len()).any(|v| edges().filter(|e| e[end] as usize == v).count() > 2);
    let passes = |e: &[u32]| points.iter().any(|p| points[e[0] as usize].0 < p.0 && p.0 < points[e[1] as usize].0);
    let shares = |x: i32| x != s.west && x != s.east && s.vertices_on(x) > 1;
    [
        ("several vertices on one abscissa between the margins", points.iter().any(|p| shares(p.0))),
        ("more than two edges on one side of a vertex", fan(0) || fan(1)),
        ("an edge past the abscissa of a vertex", edges().any(passes)),
        ("more than two vertices on W", s.vertices_on(s.west) > 2),
        ("more than two vertices on E", s.vertices_on(s.east) > 2),
        ("a zone in several pieces", s.pieces() > s.zones as usize),
        ("a coordinate at a limit", s.vertices.iter().any(|c| c.abs() == LIMITS.reach)),
        ("a coordinate past the earlier limits", s.vertices.iter().any(|&c| !EARLIER.in_range(c))),
        ("a width of one unit", s.west + 1 == s.east),
    ]
}

/// The cases that have to come, in the order in which they are printed.
fn cases() -> Vec<String> {
    let kinds = ["vertex", "edge", "zone", "at W", "at E"];
    let mut list = vec!["opening: opened".to_string()];
    list.extend((1..14).map(|n| format!("opening: refused {n}")));
    list.extend((1..13).map(|n| format!("opening: refused {n} before a later fault")));
    list.extend(kinds.map(|kind| format!("reading: {kind}")));
    list.extend([1, 2].into_iter().chain(4..14).chain([20]).map(|n| format!("reading: refused {n}")));
    list.push("reading: a refused sheet, and a point off it".to_string());
    list.extend(kinds.map(|kind| format!("search: {kind}")));
    list.extend([1, 2, 3, 20, 21, 22].map(|n| format!("search: refused {n}")));
    list.extend(CAUSES.map(|cause| format!("search: 22, {cause}")));
    list.extend(MISNAMED.map(|(what, number)| format!("sheet refused {number} for {what}")));
    list.extend(structure(&sheets::lens()).map(|(name, _)| format!("sheet accepted with {name}")));
    list
}

/// Calls made both ways, and how often each case came.
struct Calls {
    made: usize,
    came: Tally,
}

impl Calls {
    /// Counts a case, which has to be one of `cases`.
    fn count(&mut self, case: String) {
        self.came.count(&case);
    }

    /// Counts the answer of a reading or a search, and its point where that is at a margin of the sheet.
    fn count_answer(&mut self, call: &str, s: &Sheet, x: i32, out: &[u32]) {
        self.made += 1;
        match out[0] {
            0 => return self.count(format!("{call}: refused {}", out[1])),
            kind => self.count(format!("{call}: {}", ["vertex", "edge", "zone"][kind as usize - 1])),
        }
        if x == s.west {
            self.count(format!("{call}: at W"));
        }
        if x == s.east {
            self.count(format!("{call}: at E"));
        }
    }

    /// Opens a sheet with so many words lent, and gives them as they are afterwards.
    fn open(&mut self, s: &Sheet, words: usize) -> Vec<u32> {
        let lent = lent(words);
        let mut index = lent.clone();
        let said = open(s, &mut index);
        let (expected, left) = paper::open(s, &lent);
        assert_eq!(said, expected, "opening with {words} words lent of {s:?}");
        assert_eq!(index, left, "the words after opening {s:?}");
        self.made += 1;
        match said[0] {
            0 => self.count("opening: opened".to_string()),
            first => {
                self.count(format!("opening: refused {first}"));
                if paper::faults(s, words).iter().any(|&number| number > first) {
                    self.count(format!("opening: refused {first} before a later fault"));
                }
            }
        }
        index
    }

    /// Reads a point.
    fn read(&mut self, s: &Sheet, (x, y): (i32, i32)) {
        let said = read(s, x, y);
        assert_eq!(said, paper::read(s, x, y).values(), "reading ({x}, {y}) of {s:?}");
        self.count_answer("reading", s, x, &said);
        if said[0] == 0 && said[1] < 20 && (x < s.west || x > s.east || !LIMITS.in_range(y)) {
            self.count("reading: a refused sheet, and a point off it".to_string());
        }
    }

    /// Searches for a point with so many trail words lent.
    fn search(&mut self, s: &Sheet, index: &[u32], (x, y): (i32, i32), words: usize) -> Searched {
        let lent = lent(words);
        let mut trail = lent.clone();
        let said = search(s, index, x, y, &mut trail);
        let expected = paper::search(s, index, x, y, &lent);
        assert_eq!(said, expected.out, "searching ({x}, {y}) with {words} places lent, over {index:?} of {s:?}");
        assert_eq!(trail, expected.trail, "the trail to ({x}, {y}) over {index:?} of {s:?}");
        self.count_answer("search", s, x, &said);
        if let Some(cause) = expected.cause {
            self.count(format!("search: 22, {}", CAUSES[cause as usize]));
        }
        expected
    }
}

/// The places that a trail of this sheet needs: bits(n - 1).
fn places(s: &Sheet) -> usize {
    paper::bits(s.zones.saturating_sub(1)) as usize
}

/// A point on the sheet, or one time in eight off it.
fn point(r: &mut Random, s: &Sheet) -> (i32, i32) {
    match r.below(8) {
        0 => sheets::outside(r, s),
        _ => sheets::inside(r, s),
    }
}

/// Opens an accepted sheet, reads points of it and searches for others; gives its index and words past it.
fn sound(r: &mut Random, c: &mut Calls, s: &Sheet, reads: usize, searches: usize) -> Vec<u32> {
    let index = c.open(s, s.need() + r.below(3) as usize);
    structure(s).iter().filter(|has| has.1).for_each(|has| c.count(format!("sheet accepted with {}", has.0)));
    for _ in 0..reads {
        let p = point(r, s);
        c.read(s, p);
    }
    for _ in 0..searches {
        let (p, words, places) = (point(r, s), damage::room(r, s.need()), damage::room(r, places(s)));
        c.search(s, &index[..words.min(index.len())], p, places);
    }
    index
}

/// Opens, reads and searches a sheet with faults; the index is that of a sound sheet, with other words where more are needed.
fn faulty(r: &mut Random, c: &mut Calls, s: &Sheet, index: &[u32], p: (i32, i32)) {
    let words = damage::index_room(r, s);
    c.open(s, words);
    c.read(s, p);
    let mut index = index.to_vec();
    index.resize_with(damage::index_room(r, s), || r.below(1 + s.zones as u64) as u32);
    c.search(s, &index, p, damage::room(r, places(s)));
}

/// Sheets with faults, made of this accepted one and of one that has nothing wrong but names; each with a point.
fn faulty_sheets(r: &mut Random, c: &mut Calls, s: &Sheet) -> Vec<(Sheet, (i32, i32))> {
    let what = r.below(MISNAMED.len() as u64) as usize;
    let misnamed = faults::misnamed(r, what);
    if paper::judge(&misnamed).is_some_and(|(number, _)| number == MISNAMED[what].1) {
        c.count(format!("sheet refused {} for {}", MISNAMED[what].1, MISNAMED[what].0));
    }
    let mut list = vec![(misnamed.clone(), point(r, &misnamed))];
    for (s, refusals) in [(s, &ALL[..]), (s, &ALL), (s, &ALL), (s, &LATE), (&misnamed, &LATE)] {
        list.push((faults::faulty(r, s, refusals), point(r, s)));
    }
    list
}

/// Searches over damaged tables and words, for the point that the damage is aimed at and for others.
fn damaged(r: &mut Random, c: &mut Calls, s: &Sheet, index: &[u32]) {
    let aim = sheets::inside(r, s);
    let found = c.search(s, index, aim, places(s));
    let (mut s, mut index) = (s.clone(), index.to_vec());
    let others = [0; 3].map(|_| sheets::inside(r, &s));
    damage::damage(r, &mut s, &mut index, &found);
    for (x, y) in [aim].into_iter().chain(others) {
        c.search(&s, &index, (x.clamp(s.west, s.east), y), places(&s) + r.below(3) as usize);
    }
}

/// All calls on an accepted sheet, on sheets with faults, and over damaged words.
fn run(r: &mut Random, c: &mut Calls, s: &Sheet, searches: usize) {
    let index = sound(r, c, s, 4, searches);
    for (bad, p) in faulty_sheets(r, c, s) {
        faulty(r, c, &bad, &index, p);
    }
    (0..3).for_each(|_| damaged(r, c, s, &index));
}

/// Fewer calls on a sheet that takes long by brute force.
fn run_large(r: &mut Random, c: &mut Calls, s: &Sheet) {
    let index = sound(r, c, s, 1, 200);
    let (bad, p) = (faults::faulty(r, s, &LATE), point(r, s));
    faulty(r, c, &bad, &index, p);
    (0..20).for_each(|_| damaged(r, c, s, &index));
}

#[test]
fn random_calls_agree_on_every_word() {
    let (mut r, trials) = (Random::new("agreement", 17), Trials::new(4_000));
    let mut c = Calls { made: 0, came: Tally::new(cases()) };
    for _ in 0..trials.count {
        let s = sheets::any(&mut r);
        run(&mut r, &mut c, &s, 8);
    }
    for (wide, tall) in [(2, 512), (7, 25), (20, 10), (32, 32), (1024, 1)] {
        let s = sheets::woven(&mut r, wide, tall);
        run(&mut r, &mut c, &s, 60);
    }
    let large = [sheets::largest(&mut r), sheets::largest_fan(), sheets::woven(&mut r, 64, 64)];
    large.iter().for_each(|s| run_large(&mut r, &mut c, s));
    println!("agreement: {} calls", c.made);
    trials.enough(&c.came.counts());
    assert!(!trials.are_enough() || c.made >= 20_000, "{} calls", c.made);
}
