//! Demands 2 and 3 of document 01 at every whole point of small accepted sheets.
use thawweasel_tests::paper::{self, bits, Answer, Found};
use thawweasel_tests::{open, read, search, sheets, sheets::Sheet, Random, Trials};

/// An opened sheet: its line of rule 7 by brute force, and the words that opening wrote with others past them.
struct Opened {
    sheet: Sheet,
    line: Vec<u32>,
    index: Vec<u32>,
}

/// Opens an accepted sheet over words that may hold anything.
fn opened(r: &mut Random, sheet: Sheet) -> Opened {
    assert_eq!(paper::judge(&sheet), None, "{sheet:?}");
    let mut index: Vec<u32> = (0..sheet.need() + r.below(4) as usize).map(|_| r.next() as u32).collect();
    assert_eq!(open(&sheet, &mut index), [0, 0], "{sheet:?}");
    Opened { line: paper::line(&sheet), sheet, index }
}

/// Demand 2: the point is in or on one thing only, the plain reading answers it, and every reading of a zone agrees.
fn second(o: &Opened, x: i32, y: i32) -> Answer {
    let Opened { sheet: s, line, .. } = o;
    let things = paper::things(s, line, x, y);
    assert_eq!(things.len(), 1, "({x}, {y}) is in {things:?} of {s:?}");
    assert_eq!(read(s, x, y), things[0].values(), "reading ({x}, {y}) of {s:?}");
    if let Answer::Zone(zone) = things[0] {
        let readings = paper::readings(s, line, x, y);
        let expected = if s.west < x && x < s.east { 4 } else { 2 };
        assert_eq!(readings, vec![zone; expected], "the readings of ({x}, {y}) of {s:?}");
    }
    things[0]
}

/// Demand 3: the search answers as the plain reading does, by the edges and the probes of the published descent, within the bounds.
fn third(r: &mut Random, o: &Opened, x: i32, y: i32, answer: Answer) {
    let Opened { sheet: s, line, index } = o;
    let (n, m) = (s.zones, s.edges.len() as u32 / 4);
    let published = paper::published(s, line, x, y);
    let mut trail = vec![u32::MAX; bits(n - 1) as usize + r.below(3) as usize];
    let [kind, number, item, examined, probes] = search(s, index, x, y, &mut trail);
    let (listed, past) = trail.split_at(examined as usize);
    assert_eq!([kind, number, item], answer.values(), "searching ({x}, {y}) of {s:?}");
    assert!(past.iter().all(|&w| w == u32::MAX), "a word past the trail to ({x}, {y}) of {s:?}");
    assert!((1..listed.len()).all(|p| !listed[..p].contains(&listed[p])), "{listed:?} to ({x}, {y}) of {s:?}");
    assert!(examined <= bits(n - 1) && probes <= bits(n - 1) * bits(m), "{examined} and {probes} to ({x}, {y}) of {s:?}");
    assert_eq!(Found { answer, trail: listed.to_vec(), probes }, published, "the published descent to ({x}, {y}) of {s:?}");
}

#[test]
fn every_whole_point_of_small_sheets_keeps_demands_two_and_three() {
    let (mut r, trials) = (Random::new("demands", 18), Trials::new(600));
    let (mut points, mut pieces, mut corners, mut kinds, mut margins) = (0, 0, 0, [0; 4], [0; 2]);
    for _ in 0..trials.count {
        let s = sheets::tiny(&mut r);
        let o = opened(&mut r, s);
        let heights = || o.sheet.vertices.iter().skip(1).step_by(2).copied();
        let (lowest, highest) = (heights().min().unwrap(), heights().max().unwrap());
        for (x, y) in (o.sheet.west..=o.sheet.east).flat_map(|x| (lowest - 1..=highest + 1).map(move |y| (x, y))) {
            let answer = second(&o, x, y);
            third(&mut r, &o, x, y, answer);
            points += 1;
            kinds[answer.values()[0] as usize] += 1;
            margins[0] += (x == o.sheet.west) as usize;
            margins[1] += (x == o.sheet.east) as usize;
        }
        pieces += (o.sheet.pieces() > o.sheet.zones as usize) as usize;
        corners += (o.sheet.west.abs() > 999_999_000 && lowest.abs() > 999_999_000) as usize;
    }
    println!("demands 2 and 3: {} sheets, every whole point, {points} points", trials.count);
    let [_, vertices, edges, zones] = kinds;
    trials.enough(&[("vertices", vertices), ("edges", edges), ("zones", zones), ("at W", margins[0]), ("at E", margins[1])]);
    trials.enough(&[("sheets with a zone in several pieces", pieces), ("sheets in a corner of the range", corners)]);
}
