//! Pages at and past the longest, and at and past the counts of the limits and those that the program holds: read, written and placed by
//! the proved calls and by document 02 by plain means.
use thawweasel_tests::amended::refused;
use thawweasel_tests::paged::{place, read, round_trip, text, write, ANY};
use thawweasel_tests::pages::{self, Page, LONGEST, ROOM};
use thawweasel_tests::{enough, sheets, texts, Random, Tally};

/// A page of exactly 65,536 bytes: a sheet whose edges are a multiple of 19, and points for all the rest.
fn longest(r: &mut Random) -> Vec<u8> {
    let columns = 2 + r.below(6) as usize;
    let sheet = if r.below(4) == 0 { sheets::blank() } else { sheets::woven(r, columns, 10) };
    let frames = (LONGEST - 43 - 35 * (sheet.edges.len() / 4)) / 19 - sheet.vertices.len() / 2;
    let points = (0..frames).flat_map(|_| <[i32; 2]>::from(sheets::point(r, &sheet))).collect();
    let page = text(&Page { sheet, points });
    assert_eq!(page.len(), LONGEST);
    page
}

#[test]
fn pages_at_and_past_the_longest() {
    let mut r = Random::new("long pages", 35);
    let names = ["65,535 bytes: 32", "65,536 bytes: placed", "65,536 bytes: refused", "65,537 bytes: 34", "more bytes: 34"];
    let mut came = Tally::new(names.map(String::from).to_vec());
    let both = |page: &[u8]| (read(page, ANY), place(page, ROOM).1);
    for _ in 0..60 {
        let mut page = longest(&mut r);
        assert_eq!(refused(&both(&page[..LONGEST - 1]).1).map(|refusal| refusal.0), Some(32));
        let (said, printed) = both(&page);
        assert_eq!((said[0], printed.lines().count() as u64), (0, said[7]));
        for more in [1, 2, 19, 1 + r.below(100_000) as usize] {
            let long: Vec<u8> = page.iter().cycle().take(LONGEST + more).copied().collect();
            assert_eq!(both(&long).1, "refused 34 0\n");
            came.count(if more == 1 { names[3] } else { names[4] });
        }
        page[r.below(LONGEST as u64) as usize] = b'g';
        assert!(refused(&both(&page).1).is_some());
        names[..3].iter().for_each(|name| came.count(name));
    }
    enough(&came.counts());
}

#[test]
fn an_empty_page() {
    assert_eq!(read(b"", [0, 0, 0]), [32, 0, 0, 0, 0, 0, 0, 0]);
    assert_eq!(place(b"", ROOM).1, "refused 32 0\n");
}

#[test]
fn text_shorter_than_placing_asks_for() {
    let lens = text(&Page { sheet: sheets::lens(), points: vec![2, 0, 5, 0] });
    for page in [&lens[..], &lens[1..], &[], &[b'0'; LONGEST + 1]] {
        for bytes in [0, 1, 13, LONGEST, ROOM - 1] {
            assert_eq!(place(page, bytes), ([33, 0], String::new()));
        }
        for bytes in [ROOM, ROOM + 1, 2 * ROOM] {
            assert_eq!(place(page, bytes).0[0], 0);
        }
    }
}

/// A fault made in a page.
type Fault = fn(&mut Random, &mut Page);

/// What the writer gives refusal 1 for.
const UNCOUNTABLE: [(&str, Fault); 8] = [
    ("vertices that are not whole", |_, page| page.sheet.vertices.push(0)),
    ("edges that are not whole", |r, page| page.sheet.edges.resize(page.sheet.edges.len() + 1 + r.below(3) as usize, 0)),
    ("points that are not whole", |_, page| page.points.push(0)),
    ("more than 4,096 vertices", |r, page| page.sheet.vertices.resize(8_194 + 2 * r.below(3) as usize, 7)),
    ("more than 8,192 edges", |r, page| page.sheet.edges.resize(32_772 + 4 * r.below(3) as usize, 7)),
    ("no zone", |_, page| page.sheet.zones = 0),
    ("more than 4,096 zones", |r, page| page.sheet.zones = r.one(&[4_097, 4_098, 1 << 16, 1 << 31, u32::MAX])),
    ("more than one of these", |r, page| UNCOUNTABLE[2..5].iter().for_each(|fault| fault.1(r, page))),
];

#[test]
fn what_cannot_be_written() {
    let mut r = Random::new("refused to the writer", 36);
    let others = ["at the limits", "text one byte short", "text shorter"];
    let mut came = Tally::new(UNCOUNTABLE.iter().map(|fault| fault.0).chain(others).map(String::from).collect());
    for _ in 0..100 {
        let mut page = texts::any(&mut r);
        for (name, make) in UNCOUNTABLE {
            let mut bad = page.clone();
            make(&mut r, &mut bad);
            for room in [0, 43, 400_000] {
                assert_eq!(write(&bad, room), ([1, 0], vec![]), "{name}: {bad:?}");
            }
            came.count(name);
        }
        let need = text(&page).len();
        for (name, room) in [(others[1], need - 1), (others[2], r.below(need as u64) as usize)] {
            assert_eq!(write(&page, room), ([33, 0], vec![]), "{page:?}");
            came.count(name);
        }
        page.sheet.vertices.resize(8_192, -7);
        page.sheet.edges.resize(32_768, u32::MAX);
        page.sheet.zones = 4_096;
        round_trip(&page, 0);
        came.count(others[0]);
    }
    enough(&came.counts());
}

/// The page of the lens sheet with other counts in its head.
fn lens_with(counts: [u32; 3]) -> Vec<u8> {
    let lens = text(&Page { sheet: sheets::lens(), points: vec![2, 0] });
    let head = pages::frame(0, &[0, 4, counts[0], counts[1], counts[2]]);
    [head.as_bytes(), &lens[43..]].concat()
}

#[test]
fn counts_that_the_program_holds_and_those_of_the_limits() {
    let (held, limits) = ([1_024, 2_048, 1_024], [4_096, 8_192, 4_096]);
    for which in 0..3 {
        let with = |count: u32| {
            let mut counts = [4, 4, 3];
            counts[which] = count;
            lens_with(counts)
        };
        let said = |count: u32| (read(&with(count), ANY)[0], place(&with(count), ROOM).1);
        let late = [(31, "refused 31 5\n"), (31, "refused 31 9\n"), (0, "refused 12 3\n")][which];
        assert_eq!(said(held[which]), (late.0, late.1.to_string()), "the program holds {}", held[which]);
        for count in [held[which] + 1, limits[which]] {
            assert_eq!(said(count), (late.0, "refused 1 0\n".to_string()), "{count} are more than it holds");
        }
        for count in [limits[which] + 1, u32::MAX] {
            assert_eq!(said(count), (1, "refused 1 0\n".to_string()), "{count} are beyond the limits");
        }
    }
}

#[test]
fn a_fan_that_the_program_holds_and_one_zone_more() {
    for (zones, printed) in [(1_024, "zone 0\nvertex 0\nzone 1023\n"), (1_025, "refused 1 0\n")] {
        let sheet = sheets::fan(zones);
        let page = text(&Page { sheet, points: vec![1_000, -1_000_000_000, 0, 0, 1_000, 1_000_000_000] });
        assert!(page.len() <= LONGEST);
        assert_eq!((read(&page, ANY)[0], place(&page, ROOM).1), (0, printed.to_string()), "{zones} zones");
    }
}
