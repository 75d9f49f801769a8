//! Pages read, written and placed by the proved calls and by document 02 by plain means: both agree on every answer, and on every
//! word and byte that was lent.
use std::{fs, path::Path};
use thawweasel_tests::amended::{self, refused};
use thawweasel_tests::paged::{needs, place, read, round_trip, shown, text, ANY};
use thawweasel_tests::pages::{self, Page, Refusal, HELD, LONGEST, ROOM};
use thawweasel_tests::texts::{self, DAMAGES};
use thawweasel_tests::{sheets, Random, Tally, Trials};

/// The outside pages with their answers as they are given now, and how many of these are others under the earlier limits.
fn outside() -> (Vec<(String, Vec<u8>, String)>, usize) {
    let (mut list, mut moved) = (vec![], 0);
    for (name, page, said) in kept("tests/vectors/pages") {
        let answer = amended::place(&page, &said);
        moved += answer.differs() as usize;
        list.push((name, page, answer.now));
    }
    (list, moved)
}

/// The pages kept in a folder: the name, the page, and the answer beside it.
fn kept(folder: &str) -> Vec<(String, Vec<u8>, String)> {
    let folder = Path::new(env!("CARGO_MANIFEST_DIR")).join("../..").join(folder);
    let mut paths: Vec<_> = fs::read_dir(&folder).unwrap().map(|entry| entry.unwrap().path()).collect();
    paths.retain(|path| path.extension().is_some_and(|end| end == "page"));
    assert!(!paths.is_empty(), "no page in {}", folder.display());
    let answer = |path: &Path| fs::read_to_string(path.with_extension("out")).unwrap();
    paths.iter().map(|path| (path.display().to_string(), fs::read(path).unwrap(), answer(path))).collect()
}

/// The refusal of a page to the reader, 0 0 where it is good.
fn to_reader(page: &[u8]) -> [u64; 2] {
    let (number, line) = pages::refusals(page).first().copied().unwrap_or((0, 0));
    [number.into(), line.into()]
}

/// Reads and places a kept page; the reader refuses as the answer says, but may have room for what is more than the program holds.
fn compare(name: &str, page: &[u8], answer: &str) {
    assert_eq!(place(page, ROOM).1, answer, "{name}");
    let (number, line) = refused(answer).filter(|(number, _)| [1, 30, 31, 32].contains(number)).unwrap_or((0, 0));
    let more_than_held = number == 1 && to_reader(page) != [1, 0];
    let expected = if more_than_held { to_reader(page) } else { [number.into(), line.into()] };
    assert_eq!(read(page, ANY)[..2], expected, "{name}");
}

#[test]
fn every_kept_page_is_read_and_placed_as_its_answer_says() {
    let (outside, moved) = outside();
    for (folder, list) in [("tests/vectors/pages", outside), ("tests/pages", kept("tests/pages")), ("examples", kept("examples"))] {
        list.iter().for_each(|(name, page, answer)| compare(name, page, answer));
        println!("pages: {} of {folder}", list.len());
    }
    println!("  {moved} outside pages otherwise than under the earlier limits");
    assert!(moved > 0, "no outside page is at the earlier limits");
}

#[test]
fn what_is_written_is_read_back() {
    let (mut r, trials) = (Random::new("round trips", 31), Trials::new(4_000));
    let names = ["no vertex", "no edge", "no point", "vertices, edges and points", "exactly enough room", "more room"];
    let mut came = Tally::new(names.map(String::from).to_vec());
    for _ in 0..trials.count {
        let (page, more) = (texts::any(&mut r), r.below(3) as usize);
        round_trip(&page, more);
        let none = needs(&page).map(|words| words == 0);
        let has = [none[0], none[1], none[2], !none.contains(&true), more == 0, more > 0];
        names.iter().zip(has).filter(|case| case.1).for_each(|case| came.count(case.0));
    }
    for sheet in [sheets::largest(&mut r), sheets::largest_fan(), sheets::blank()] {
        for below in [1, 40, 9_000] {
            let points = texts::points(&mut r, &sheet, below);
            round_trip(&Page { sheet: sheet.clone(), points }, 0);
        }
    }
    trials.enough(&came.counts());
}

/// The cases of damage that have to come, in the order in which they are printed.
fn damages() -> Vec<String> {
    let mut list: Vec<String> = DAMAGES.iter().map(|(what, _)| format!("refused with {what}")).collect();
    for number in [30, 31, 32] {
        list.extend(["the first", "a middle", "the last"].map(|line| format!("refused {number} at {line} line")));
    }
    list.push("refused 30 and not 31 in one line".to_string());
    list.extend([30, 31, 1].map(|number| format!("refused {number}, with a later line at fault")));
    list.extend([1, 30, 31, 32].map(|number| format!("refused {number} and not 33")));
    list.extend(["refused 33", "read"].map(String::from));
    list.extend(["read", "otherwise to the reader"].map(|reader| format!("refused 1 to the program, {reader}")));
    list
}

/// Counts the refusal of a damaged page that had so many lines, and what else there was to refuse.
fn count_refusal(came: &mut Tally, page: &[u8], (number, line): Refusal, lines: usize) {
    let position = match line as usize {
        0 => "the first",
        line if line + 1 < lines => "a middle",
        _ => "the last",
    };
    if number != 1 {
        came.count(&format!("refused {number} at {position} line"));
    }
    let all = pages::refusals(page);
    if all.iter().any(|other| other.1 > line) {
        came.count(&format!("refused {number}, with a later line at fault"));
    }
    if all.starts_with(&[(30, line), (31, line)]) {
        came.count("refused 30 and not 31 in one line");
    }
}

/// Places a page that the reader says this of, and counts where the program says something else.
fn placed(came: &mut Tally, page: &[u8], to_reader: Refusal) {
    let (printed, first) = (place(page, ROOM).1, pages::refusals_under(&HELD, page).first().copied());
    let expected = if page.len() > LONGEST { Some((34, 0)) } else { first };
    if let Some(expected) = expected {
        assert_eq!(refused(&printed), Some(expected), "placing the page {}", shown(page));
    }
    match (expected, to_reader) {
        (Some((1, _)), (1, _)) => {}
        (Some((1, _)), (0 | 33, _)) => came.count("refused 1 to the program, read"),
        (Some((1, _)), _) => came.count("refused 1 to the program, otherwise to the reader"),
        _ => {}
    }
}

/// Reads and places a page with one to three things wrong, and where it is refused reads it with nothing lent too.
fn damaged(r: &mut Random, came: &mut Tally) {
    let sound = texts::any(r);
    let mut page = text(&sound);
    let lines = page.iter().filter(|&&byte| byte == b'\n').count();
    let what: Vec<usize> = (0..r.one(&[1, 1, 2, 3])).map(|_| r.below(DAMAGES.len() as u64) as usize).collect();
    what.iter().for_each(|&what| texts::damage(r, &mut page, what));
    let [number, line, ..] = read(&page, needs(&sound)).map(|word| word as u32);
    placed(came, &page, (number, line));
    if number == 0 || number == 33 {
        return came.count(if number == 0 { "read" } else { "refused 33" });
    }
    count_refusal(came, &page, (number, line), lines);
    came.count(&format!("refused with {}", DAMAGES[what[0]].0));
    assert_eq!(read(&page, [0, 0, 0])[..2], [number.into(), line.into()]);
    came.count(&format!("refused {number} and not 33"));
}

#[test]
fn damaged_pages_are_refused_alike() {
    let (mut r, trials) = (Random::new("damaged pages", 32), Trials::new(20_000));
    let mut came = Tally::new(damages());
    (0..trials.count).for_each(|_| damaged(&mut r, &mut came));
    trials.enough(&came.counts());
}

#[test]
fn tables_one_word_short_and_exactly_enough() {
    let (mut r, trials) = (Random::new("short tables", 33), Trials::new(1_000));
    let names = ["vertices one word short", "edges one word short", "points one word short", "exactly enough"];
    let mut came = Tally::new(names.map(String::from).to_vec());
    for _ in 0..trials.count {
        let page = texts::any(&mut r);
        let (text, need) = (text(&page), needs(&page));
        assert_eq!(read(&text, need)[..2], [0, 0]);
        came.count(names[3]);
        for table in (0..3).filter(|&table| need[table] > 0) {
            let more = r.below(3) as usize;
            let mut short = need.map(|words| words + more);
            short[table] = need[table] - 1;
            assert_eq!(read(&text, short), [33, 0, 0, 0, 0, 0, 0, 0], "{page:?}");
            came.count(names[table]);
        }
    }
    trials.enough(&came.counts());
}

#[test]
fn random_sheets_are_placed_or_refused_alike() {
    let (mut r, trials) = (Random::new("placed pages", 34), Trials::new(6_000));
    let sheets = [1, 2].into_iter().chain(4..14).map(|number| format!("sheet refused {number}"));
    let kinds = ["vertex", "edge", "zone", "refused", "none"].map(|kind| format!("point answered: {kind}"));
    let mut came = Tally::new(sheets.chain(kinds).collect());
    for _ in 0..trials.count {
        let text = text(&texts::any(&mut r));
        let printed = place(&text, ROOM + r.below(3) as usize).1;
        match refused(&printed) {
            Some((34, _)) => assert!(text.len() > LONGEST),
            Some((number, _)) if number != 20 => came.count(&format!("sheet refused {number}")),
            _ if printed.is_empty() => came.count("point answered: none"),
            _ => printed.lines().for_each(|line| came.count(&format!("point answered: {}", line.split(' ').next().unwrap()))),
        }
    }
    trials.enough(&came.counts());
}

