//! Months by the proved call and by document 02 by plain means, those of the outside vectors, random ones and ones with faults: both
//! agree on every answer, every lent word and every bit.
use std::{fs, path::Path};
use thawweasel_tests::json::Json;
use thawweasel_tests::kept::{good, keep, lens_month, opened, shown, tables, PAST};
use thawweasel_tests::ledger::{self, in_range, Lent, Month, Place, Reading, Room, MOST, SHORTAGES};
use thawweasel_tests::months::{self, FAULTS};
use thawweasel_tests::{amended, damage, faults, month, sheets, sheets::Sheet, vectors::LENT, Random, Tally, Trials};

/// The refusals of a month in their order.
const ORDER: [u32; 8] = [1, 2, 3, 43, 42, 40, 22, 41];

/// The bits of a float of the outside vectors.
fn bits(value: &Json) -> u64 {
    u64::from_str_radix(value.text(), 16).expect("16 hexadecimal digits")
}

/// The month of a line of the outside vectors; the value of a sample not taken is not-a-number.
fn vector(line: &Json) -> Month {
    let [west, east] = ["W", "E"].map(|name| line.get(name).number());
    let (vertices, edges) = (line.get("vertices").numbers(), line.get("edges").numbers());
    let [boundary, off, zones] = ["boundary_len", "off_len", "results_len"].map(|name| line.get(name).number::<usize>());
    let mut m = Month {
        sheet: Sheet { west, east, zones: line.get("n").number(), vertices, edges },
        index: line.get("index").numbers(),
        permits: line.get("permits").list().iter().flat_map(Json::list).map(|value| f64::from_bits(bits(value))).collect(),
        room: Room { boundary, off, results: 3 * zones, means: zones },
        ..Month::default()
    };
    for sample in line.get("samples").list().iter().map(Json::list) {
        let reading = sample[2].list();
        m.points.extend(sample[..2].iter().map(Json::number::<i32>));
        m.kinds.push(["not taken", "measured", "below"].iter().position(|kind| *kind == reading[0].text()).expect("a kind") as u32);
        m.values.push(reading.get(1).map_or(f64::NAN, |value| f64::from_bits(bits(value))));
    }
    m
}

/// What a line of the outside vectors says, and the tables that it leaves of these.
fn answer(result: &Json, before: &Lent) -> ([u32; 4], Lent) {
    let (result, mut left) = (result.list(), before.clone());
    if result[0].text() == "refused" {
        return ([result[1].number(), result[2].number(), 0, 0], left);
    }
    for (zone, entry) in result[1].list().iter().map(Json::list).enumerate() {
        let verdict = match (&entry[2], &entry[3]) {
            (Json::Null, Json::Truth(false)) => 0,
            (Json::Text(_), Json::Truth(over)) => 1 + *over as u32,
            other => panic!("no verdict: {other:?}"),
        };
        left.results[3 * zone..3 * zone + 3].copy_from_slice(&[entry[0].number(), entry[1].number(), verdict]);
        if verdict > 0 {
            left.means[zone] = bits(&entry[2]);
        }
    }
    let lists: [Vec<u32>; 2] = [result[2].numbers(), result[3].numbers()];
    left.boundary[..lists[0].len()].copy_from_slice(&lists[0]);
    left.off[..lists[1].len()].copy_from_slice(&lists[1]);
    ([0, 0, lists[0].len() as u32, lists[1].len() as u32], left)
}

#[test]
fn every_month_of_the_outside_vectors_is_kept_as_its_line_says() {
    let path = Path::new(env!("CARGO_MANIFEST_DIR")).join("../vectors/months.jsonl");
    let text = fs::read_to_string(path).unwrap();
    let (mut kept, mut refused, mut moved) = (0, 0, 0);
    for line in text.lines() {
        let read = Json::read(line);
        let m = vector(&read);
        let words = |words: usize| vec![LENT; words + PAST];
        let (boundary, off, results) = (words(m.room.boundary), words(m.room.off), words(m.room.results));
        let before = Lent { boundary, off, results, means: vec![u64::from(LENT) << 32 | u64::from(!LENT); m.room.means + PAST] };
        let amended = amended::keep(&m, &before, &answer(read.get("result"), &before));
        let mut after = before.clone();
        assert_eq!((month(&m, &mut after), after), amended.now, "{line}");
        if amended.now.0[0] == 0 { kept += 1 } else { refused += 1 }
        moved += amended.differs() as usize;
    }
    println!("months: {} lines of tests/vectors/months.jsonl, {kept} kept and {refused} refused", kept + refused);
    println!("  {moved} of them otherwise than under the earlier limits");
    assert_eq!(kept + refused, text.lines().count());
    assert!(kept > 0 && refused > 0 && moved > 0, "no line of a kind was run");
}

/// Makes the fault of this refusal in the month of the test below; for 43, the one at this place of `FAULTS`.
fn make(r: &mut Random, m: &mut Month, number: u32, shortage: usize) {
    match number {
        1 => m.sheet.vertices.push(0),
        2 => m.sheet.west = 4,
        3 => m.index.truncate(13),
        43 => assert!(FAULTS[shortage].2(r, m), "{}", FAULTS[shortage].0),
        42 => (m.permits[2], m.permits[5]) = (f64::NAN, 0.0),
        40 => (m.values[1], m.values[4]) = (-0.0, f64::INFINITY),
        22 => m.index[4..6].fill(3),
        _ => m.values[3] = 1_f64.next_up(),
    }
}

#[test]
fn of_several_refusals_the_first_is_given() {
    let mut r = Random::new("first refusals of a month", 40);
    let sound = lens_month(&[(1, 5, 0, 0.0), (1, 1, 1, 2.0), (2, 0, 1, 2.0), (3, -2, 2, 1.0), (5, 0, 1, 3.0)]);
    let items = [0, 0, 0, 0, 1, 1, 2, 3];
    let mut given = [0; ORDER.len() + 1];
    for shortage in (0..FAULTS.len()).filter(|&fault| FAULTS[fault].1 == 43) {
        for chosen in 0..1_usize << ORDER.len() {
            let mut m = sound.clone();
            let made = |at: &usize| chosen >> at & 1 == 1;
            (0..ORDER.len()).rev().filter(made).for_each(|at| make(&mut r, &mut m, ORDER[at], shortage));
            let first = (0..ORDER.len()).find(made);
            let expected = first.map_or([0, 0, 1, 1], |at| [ORDER[at], items[at], 0, 0]);
            assert_eq!(keep(&m).0, expected, "{} of {m:?}", FAULTS[shortage].0);
            given[first.map_or(0, |at| at + 1)] += 1;
        }
    }
    println!("  none given: {}", given[0]);
    ORDER.iter().zip(&given[1..]).for_each(|(number, count)| println!("  {number} given: {count}"));
    assert!(given.iter().all(|&count| count > 0), "a refusal was never the first");
}

/// What a good month has, each with how often, out of the samples and the tables that it leaves.
fn contents(m: &Month, said: [u32; 4], after: &Lent) -> Vec<(&'static str, usize)> {
    let zones = m.sheet.zones as usize;
    let results = || after.results[..3 * zones].chunks(3);
    let verdicts = |verdict: u32| results().filter(|zone| zone[2] == verdict).count();
    let means = |verdict: u32, of: fn(f64) -> f64| {
        let there = |zone: &usize| after.results[3 * zone + 2] == verdict && after.means[*zone] == of(m.permit(*zone).0).to_bits();
        (0..zones).filter(there).count()
    };
    let samples = || (0..m.kinds.len()).map(|sample| (m.reading(sample), m.place(sample)));
    let at_floor = |sample: &(Reading, Place)| match *sample {
        (Reading::BelowDetection(limit), Place::Zone(zone)) => limit == m.permit(zone).1,
        _ => false,
    };
    let above_floors = |sample: &(Reading, Place)| match *sample {
        (Reading::BelowDetection(limit), Place::Boundary | Place::Off) => (0..zones).all(|zone| m.permit(zone).1 < limit),
        _ => false,
    };
    let unsearched = |sample: &(Reading, Place)| *sample == (Reading::NotTaken, Place::Damaged);
    let unread = |&sample: &usize| m.kinds[sample] == 0 && !in_range(m.values[sample]);
    let exact = Room { boundary: m.kinds.len(), off: m.kinds.len(), results: 3 * zones, means: zones };
    vec![
        ("a good month", 1),
        ("no sample", m.kinds.is_empty() as usize),
        ("a sample on a boundary", said[2] as usize),
        ("a sample off the sheet", said[3] as usize),
        ("a zone with no mean", verdicts(0)),
        ("a zone within its limit", verdicts(1)),
        ("a zone over its limit", verdicts(2)),
        ("a mean equal to its limit", means(1, |limit| limit)),
        ("a mean next above its limit", means(2, f64::next_up)),
        ("a zone with one reading", results().filter(|zone| zone[0] == 1).count()),
        ("a zone with several readings", results().filter(|zone| zone[0] > 1).count()),
        ("a zone with readings below detection and others", results().filter(|zone| zone[1] > 0 && zone[0] > zone[1]).count()),
        ("a detection limit equal to its zone's floor", samples().filter(at_floor).count()),
        ("a detection limit in no zone, above every floor", samples().filter(above_floors).count()),
        ("a sample not taken, its value not in the range", (0..m.kinds.len()).filter(unread).count()),
        ("a permit past n that is not in the range", m.permits[2 * zones..].iter().filter(|&&value| !in_range(value)).count()),
        ("a sample not taken that 22 would refuse", samples().filter(unsearched).count()),
        ("exactly enough room", (m.room == exact) as usize),
    ]
}

/// The cases that have to come, in the order in which they are printed.
fn cases() -> Vec<String> {
    let nothing = Month::default();
    let mut list: Vec<String> = contents(&nothing, [0; 4], &tables(nothing.room)).iter().map(|has| has.0.to_string()).collect();
    list.extend(FAULTS.iter().map(|(what, number, _)| format!("refused {number} for {what}")));
    list.extend(SHORTAGES.iter().map(|(cause, _)| format!("refused 43 for nothing but {cause}")));
    list.extend(ORDER[..6].iter().map(|number| format!("refused {number}, with more wrong")));
    let both = [(42, 40), (42, 22), (42, 41), (40, 22), (40, 41), (22, 41)];
    list.extend(both.map(|(first, other)| format!("refused {first}, not {other}")));
    let damaged = ["a good month", "refused 22", "refused 22, past a sample not taken that it would refuse"];
    list.extend(damaged.map(|what| format!("over damaged words: {what}")));
    list.extend(["a good month", "refused 22"].map(|what| format!("over another sheet's words: {what}")));
    list.extend(["a good month", "refused"].map(|what| format!("on a sheet with faults: {what}")));
    list
}

/// Keeps a month, counts what a good one has, and counts which refusals a refused one has besides the one given.
fn kept(came: &mut Tally, m: &Month) -> [u32; 4] {
    let (said, after) = keep(m);
    if said[0] == 0 {
        for (has, times) in contents(m, said, &after) {
            (0..times).for_each(|_| came.count(has));
        }
    } else {
        ledger::refusals(m)[1..].iter().for_each(|other| came.count(&format!("refused {}, not {}", said[0], other.0)));
    }
    said
}

/// Keeps a good month with one thing wrong.
fn faulty(r: &mut Random, came: &mut Tally, m: &Month) {
    let (what, number, make) = r.one(&FAULTS);
    let mut bad = m.clone();
    if !make(r, &mut bad) {
        return;
    }
    let said = kept(came, &bad);
    assert_eq!(said[0], number, "{what} of {}", shown(&bad));
    came.count(&format!("refused {number} for {what}"));
    if number == 43 {
        let causes: Vec<&str> = SHORTAGES.iter().filter(|(_, applies)| applies(&bad)).map(|cause| cause.0).collect();
        if let [cause] = causes[..] {
            came.count(&format!("refused 43 for nothing but {cause}"));
        }
    }
}

/// Keeps a good month with several things wrong, damaged words among them; what needs sound tables is done first.
fn several(r: &mut Random, came: &mut Tally, m: &Month) {
    let mut bad = months::damaged(r, m).filter(|_| r.below(2) == 0).unwrap_or(m.clone());
    let mut list: Vec<usize> = (0..2 + r.below(3)).map(|_| r.below(FAULTS.len() as u64) as usize).collect();
    if r.below(2) == 0 {
        list.retain(|&fault| FAULTS[fault].1 < 43 && FAULTS[fault].1 > 3);
    }
    list.sort_unstable();
    let made = list.iter().rev().filter(|&&fault| FAULTS[fault].2(r, &mut bad)).count();
    let said = kept(came, &bad);
    if ORDER[..6].contains(&said[0]) && made > 1 {
        came.count(&format!("refused {}, with more wrong", said[0]));
    }
}

/// Keeps a month over damaged words and tables.
fn damaged(r: &mut Random, came: &mut Tally, m: &Month) {
    let Some(bad) = months::damaged(r, m) else { return };
    let said = kept(came, &bad);
    let passed = |sample: usize| bad.kinds[sample] == 0 && bad.place(sample) == Place::Damaged;
    match said[0] {
        0 => came.count("over damaged words: a good month"),
        22 => {
            came.count("over damaged words: refused 22");
            if (0..said[1] as usize).any(passed) {
                came.count("over damaged words: refused 22, past a sample not taken that it would refuse");
            }
        }
        number => assert_eq!(number, 41, "{}", shown(&bad)),
    }
}

/// Keeps months of this sheet over the words of another sheet, and of a sheet with faults over these words.
fn strange(r: &mut Random, came: &mut Tally, m: &Month) {
    let s = &m.sheet;
    let other = sheets::any(r);
    let mut words = opened(r, &other);
    words.resize_with(s.need() + r.below(2) as usize, || r.below(1 + s.zones as u64) as u32);
    let samples = r.below(6) as usize;
    match kept(came, &months::any(r, s, s, &words, samples))[0] {
        0 => came.count("over another sheet's words: a good month"),
        22 => came.count("over another sheet's words: refused 22"),
        _ => {}
    }
    let bad = faults::faulty(r, s, &[0, 1, 2, 4, 5, 6, 7, 8, 9, 10, 11, 12, 13]);
    let mut words = m.index.clone();
    words.resize_with(damage::index_room(r, &bad), || r.below(1 + s.zones as u64) as u32);
    let said = kept(came, &months::any(r, s, &bad, &words, samples));
    came.count(if said[0] == 0 { "on a sheet with faults: a good month" } else { "on a sheet with faults: refused" });
}

#[test]
fn random_months_agree_in_every_word() {
    let (mut r, trials) = (Random::new("months", 41), Trials::new(3_000));
    let mut came = Tally::new(cases());
    for _ in 0..trials.count {
        let m = good(&mut r);
        assert_eq!(kept(&mut came, &m)[..2], [0, 0], "{}", shown(&m));
        (0..4).for_each(|_| faulty(&mut r, &mut came, &m));
        (0..2).for_each(|_| several(&mut r, &mut came, &m));
        (0..2).for_each(|_| damaged(&mut r, &mut came, &m));
        strange(&mut r, &mut came, &m);
    }
    trials.enough(&came.counts());
}

#[test]
fn as_many_samples_as_there_may_be_and_one_more() {
    let mut r = Random::new("long months", 42);
    let (mut kept, mut refused) = (0, 0);
    let drawn = [sheets::woven(&mut r, 64, 64), sheets::largest(&mut r), sheets::any(&mut r)];
    for s in [sheets::lens(), sheets::blank(), sheets::largest_fan()].into_iter().chain(drawn) {
        let index = opened(&mut r, &s);
        for samples in [MOST - 1, MOST] {
            let m = months::sound(&mut r, &s, &index, samples);
            assert_eq!(keep(&m).0[0], 0, "{samples} samples");
            kept += 1;
        }
        let mut m = months::sound(&mut r, &s, &index, 40);
        assert!(months::lengthen(&mut m, MOST + 1));
        assert_eq!(keep(&m).0, [43, 0, 0, 0]);
        m.kinds.fill(0);
        assert_eq!(keep(&m).0, [43, 0, 0, 0], "none of them taken");
        months::lengthen(&mut m, MOST);
        assert_eq!(keep(&m).0, [0, 0, 0, 0], "none of them taken");
        m.room.boundary -= 1;
        assert_eq!(keep(&m).0, [43, 0, 0, 0], "a list as long as the taken samples");
        refused += 3;
    }
    println!("  months of 4,095 and 4,096 samples: {kept}, refused 43 at 4,096 and 4,097: {refused}");
    assert!(kept > 0 && refused > 0);
}
