//! How long the three calls, the look for repeated points and the look for circles take, beside the same in plain safe Rust and beside
//! brute force: one run, medians of rounds in which each takes its turn, and the medians of the rounds' ratios, as three tables.
use std::{hint::black_box, time::Instant};
use thawweasel_tests::{circles::Steps, first_repeat, open, paper, plain::Tables, read, search, sheets, sheets::Sheet, Random};

/// How often each way takes its turn, and how often where one turn takes long.
const ROUNDS: [usize; 2] = [31, 11];

/// With more edges than this a turn takes long, and is one opening or one reading instead of four.
const MANY: usize = 4_096;

/// How far from 0 the coordinates of the sheets reach, before P5 and since.
const REACHES: [i32; 2] = [1_000_000, 1_000_000_000];

/// A way of doing one piece of work.
type Way<'a> = Box<dyn FnMut() + 'a>;

/// The middle one of some numbers.
fn median(mut numbers: Vec<f64>) -> f64 {
    numbers.sort_by(f64::total_cmp);
    numbers[numbers.len() / 2]
}

/// A time in the unit that suits it.
fn shown(seconds: f64) -> String {
    match seconds {
        s if s < 1e-6 => format!("{:.0} ns", s * 1e9),
        s if s < 1e-3 => format!("{:.1} µs", s * 1e6),
        s => format!("{:.2} ms", s * 1e3),
    }
}

/// Whether a sheet has many edges.
fn is_large(s: &Sheet) -> bool {
    s.edges.len() / 4 > MANY
}

/// A sheet as a row names it: its number of edges, and the power of ten that its coordinates keep within.
fn named(s: &Sheet) -> String {
    let far = s.vertices.iter().map(|c| c.unsigned_abs()).max().expect("a vertex");
    format!("{} | 10^{}", s.edges.len() / 4, (far - 1).ilog10() + 1)
}

/// Times the proved way, the plain one and brute force in turn, each with the number of calls that it makes, and prints a row.
fn row(name: &str, rounds: usize, mut ways: [(usize, Way); 3]) {
    let mut times = [const { Vec::new() }; 3];
    for round in 0..=rounds {
        for (way, (calls, run)) in ways.iter_mut().enumerate() {
            let start = Instant::now();
            run();
            if round > 0 {
                times[way].push(start.elapsed().as_secs_f64() / *calls as f64);
            }
        }
    }
    let ratio = |other: &[f64]| median(times[0].iter().zip(other).map(|(a, b)| a / b).collect());
    let (to_plain, to_brute) = (ratio(&times[1]), ratio(&times[2]));
    let [proved, plain, brute] = times.map(|t| shown(median(t)));
    println!("| {name} | {proved} | {plain} | {brute} | {to_plain:.2} | {to_brute:.4} |");
}

/// Words cleared where that is asked for.
fn ready(words: &mut [u32], cleared: bool) -> &mut [u32] {
    if cleared {
        words.fill(0);
    }
    words
}

/// How the lent words are before each call.
fn words(cleared: bool) -> &'static str {
    if cleared {
        "cleared"
    } else {
        "as left"
    }
}

/// Times opening.
fn opening(s: &Sheet, cleared: bool) {
    let t = Tables::from(s);
    let mut index = [vec![0; s.need()], vec![0; s.need()]];
    assert_eq!((open(s, &mut index[0]), t.open(&mut index[1])), ([0, 0], [0, 0]));
    assert_eq!(index[0], index[1]);
    assert_eq!(index[0], paper::index(s));
    let (lent, calls) = (vec![0; s.need()], if is_large(s) { 1 } else { 4 });
    let [ours, theirs] = &mut index;
    let name = format!("open | {} | | {}", named(s), words(cleared));
    row(&name, ROUNDS[is_large(s) as usize], [
        (calls, Box::new(|| (0..calls).for_each(|_| assert_eq!(black_box(open(s, ready(ours, cleared))), [0, 0])))),
        (calls, Box::new(|| (0..calls).for_each(|_| assert_eq!(black_box(t.open(ready(theirs, cleared))), [0, 0])))),
        (1, Box::new(|| assert_eq!(black_box(paper::open(s, &lent)).0, [0, 0]))),
    ]);
}

/// Makes a call for each point, and keeps what it gives from being left out.
fn each<T>(points: &[(i32, i32)], mut call: impl FnMut(i32, i32) -> T) {
    for &(x, y) in points {
        black_box(call(x, y));
    }
}

/// Times the plain reading of points.
fn reading(s: &Sheet, kind: &str, points: &[(i32, i32)]) {
    let t = Tables::from(s);
    each(points, |x, y| assert_eq!(read(s, x, y), t.read(x, y)));
    let (few, one) = (&points[..if is_large(s) { 1 } else { 4 }], &points[..1]);
    let name = format!("read | {} | {kind} | none", named(s));
    row(&name, ROUNDS[is_large(s) as usize], [
        (few.len(), Box::new(|| each(few, |x, y| read(s, x, y)))),
        (few.len(), Box::new(|| each(few, |x, y| t.read(x, y)))),
        (one.len(), Box::new(|| each(one, |x, y| paper::read(s, x, y)))),
    ]);
}

/// Times the quick search of points.
fn searching(s: &Sheet, kind: &str, points: &[(i32, i32)], cleared: bool) {
    let t = Tables::from(s);
    let mut index = vec![0; s.need()];
    assert_eq!(open(s, &mut index), [0, 0]);
    let first = index[s.zones as usize];
    let mut trails = [[0; paper::LONGEST_TRAIL]; 2];
    each(points, |x, y| {
        let out = search(s, &index, x, y, &mut trails[0]);
        assert_eq!(out, t.search(&index, x, y, &mut trails[1]));
        assert_eq!(trails[0], trails[1]);
        assert_eq!(out[..3], t.place(first, x as i64, y as i64));
    });
    let [ours, theirs] = &mut trails;
    let few = &points[..50];
    let name = format!("search | {} | {kind} | {}", named(s), words(cleared));
    row(&name, ROUNDS[0], [
        (points.len(), Box::new(|| each(points, |x, y| search(s, &index, x, y, ready(ours, cleared))))),
        (points.len(), Box::new(|| each(points, |x, y| t.search(&index, x, y, ready(theirs, cleared))))),
        (few.len(), Box::new(|| each(few, |x, y| t.place(first, x as i64, y as i64)))),
    ]);
}

/// Points anywhere between the margins, and as high as the vertices.
fn anywhere(r: &mut Random, s: &Sheet, count: usize) -> Vec<(i32, i32)> {
    let tops = s.vertices.chunks(2).map(|v| v[1] as i64);
    let (low, high) = (tops.clone().min().unwrap(), tops.max().unwrap());
    (0..count).map(|_| (r.between(s.west as i64, s.east as i64) as i32, r.between(low, high) as i32)).collect()
}

/// Points of a walk from west to east in short steps.
fn walk(r: &mut Random, s: &Sheet, count: usize) -> Vec<(i32, i32)> {
    let ends = anywhere(r, s, 2);
    let along = |from: i32, to: i32, k: usize| (from as i64 + (to as i64 - from as i64) * k as i64 / count as i64) as i32;
    (0..count).map(|k| (along(s.west, s.east, k), along(ends[0].1, ends[1].1, k))).collect()
}

/// Times the look for repeated points on points of which no two are the same.
fn repeats(kind: &str, points: &[(i32, i32)]) {
    let vertices: Vec<i32> = points.iter().flat_map(|&(x, y)| [x, y]).collect();
    let s = Sheet { west: 0, east: 1, vertices, edges: vec![], zones: 1 };
    let (t, all) = (Tables::from(&s), Some(points.len() as u32));
    assert_eq!((first_repeat(&s.vertices), t.repeat(), t.repeat_by_pairs()), (all, None, None));
    row(&format!("{} | {kind}", points.len()), ROUNDS[0], [
        (20, Box::new(|| (0..20).for_each(|_| assert_eq!(first_repeat(black_box(&s.vertices)), all)))),
        (20, Box::new(|| (0..20).for_each(|_| assert_eq!(black_box(&t).repeat(), None)))),
        (4, Box::new(|| (0..4).for_each(|_| assert_eq!(black_box(&t).repeat_by_pairs(), None)))),
    ]);
}

/// Points in order, put so that every merge of halves takes one of each in turn.
fn interleaved(points: &[(i32, i32)]) -> Vec<(i32, i32)> {
    if points.len() < 2 {
        return points.to_vec();
    }
    let every_other = |from: usize| interleaved(&points.iter().skip(from).step_by(2).copied().collect::<Vec<_>>());
    [every_other(0), every_other(1)].concat()
}

/// Times the look for repeated points on so many of them in several orders.
fn repeats_in_orders(r: &mut Random, count: i32, reach: i32) {
    let step = 2 * reach / count;
    let mut heights: Vec<i32> = (0..count).map(|k| step * (k - count / 2) + r.below(step as u64) as i32).collect();
    (1..heights.len()).for_each(|k| heights.swap(k, r.below(k as u64 + 1) as usize));
    let random: Vec<_> = heights.iter().map(|&y| (r.between(-reach as i64, reach as i64) as i32, y)).collect();
    let mut sorted = random.clone();
    sorted.sort();
    let reversed: Vec<_> = sorted.iter().rev().copied().collect();
    let one_abscissa: Vec<_> = heights.iter().map(|&y| (0, y)).collect();
    let mut upward = one_abscissa.clone();
    upward.sort();
    repeats("in any order", &random);
    repeats("sorted", &sorted);
    repeats("reversed", &reversed);
    repeats("interleaved", &interleaved(&sorted));
    repeats("on one abscissa, in any order", &one_abscissa);
    repeats("on one abscissa, sorted", &upward);
}

/// Times opening where it refuses 13 after a long look for circles, beside opening where the same edges have no circle, and beside the
/// closure of all steps.
fn circles() {
    let (s, alike) = (sheets::circle_at_the_top(1_024), sheets::circle_undone(1_024));
    let (bad, good) = (Tables::from(&s), Tables::from(&alike));
    let (mut index, named) = (vec![0; s.need()], Steps::of(&s.edges, s.zones).named().expect("a circle"));
    assert_eq!((open(&s, &mut index), bad.open(&mut index)), ([13, named], [13, named]));
    assert_eq!((open(&alike, &mut index), good.open(&mut index)), ([0, 0], [0, 0]));
    let ((zone, steps), n, m) = (bad.lowest_on_circle(), s.zones as usize, s.edges.len() / 4);
    assert_eq!(zone, Some(named));
    println!("\n| {n} zones, {m} edges | refused 13 | accepted alike | closure of all steps | refused / accepted | refused / closure |");
    println!("|---|---|---|---|---|---|");
    let (mut ours, mut theirs) = (index.clone(), index.clone());
    let closure = || assert_eq!(black_box(Steps::of(&s.edges, s.zones)).named(), Some(named));
    row("open, proved", ROUNDS[0], [
        (4, Box::new(|| (0..4).for_each(|_| assert_eq!(black_box(open(&s, &mut ours))[0], 13)))),
        (4, Box::new(|| (0..4).for_each(|_| assert_eq!(black_box(open(&alike, &mut theirs)), [0, 0])))),
        (1, Box::new(closure)),
    ]);
    let (mut ours, mut theirs) = (index.clone(), index);
    row("open, plain Rust", ROUNDS[0], [
        (4, Box::new(|| (0..4).for_each(|_| assert_eq!(black_box(bad.open(&mut ours))[0], 13)))),
        (4, Box::new(|| (0..4).for_each(|_| assert_eq!(black_box(good.open(&mut theirs)), [0, 0])))),
        (1, Box::new(closure)),
    ]);
    let share = steps as f64 / (n * m) as f64;
    println!("\nThe look for circles takes {steps} steps there (zones gone through, and edges over them), {share:.2} of n x m.");
}

/// Times the three calls on a sheet, at points anywhere and at points of a walk.
fn calls(r: &mut Random, s: &Sheet) {
    let (random, coherent) = (anywhere(r, s, 1_000), walk(r, s, 1_000));
    for (kind, points) in [("random", &random), ("coherent", &coherent)] {
        searching(s, kind, points, false);
        searching(s, kind, points, true);
    }
    for (kind, points) in [("random", &random[..20]), ("coherent", &coherent[..20])] {
        reading(s, kind, points);
    }
    opening(s, false);
    opening(s, true);
}

fn main() {
    let mut r = Random::new("bench", 21);
    println!("| call | edges | reach | points | lent words | proved | plain Rust | brute force | proved / plain | proved / brute |");
    println!("|---|---|---|---|---|---|---|---|---|---|");
    calls(&mut r, &sheets::lens());
    for (size, reach) in [(128, REACHES[0]), (1_024, REACHES[0]), (4_000, REACHES[0]), (4_000, REACHES[1])] {
        let s = sheets::spread(&mut r, reach, size);
        calls(&mut r, &s);
    }
    println!("\n| points | order | proved | plain Rust | all pairs | proved / plain | proved / all pairs |");
    println!("|---|---|---|---|---|---|---|");
    repeats_in_orders(&mut r, 1_024, REACHES[0]);
    repeats_in_orders(&mut r, 4_096, REACHES[1]);
    circles();
}
