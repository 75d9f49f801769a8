//! The C ABI as its header has it: pointers with length 0, the words of `out`, and the stack that a call takes.
use std::{ptr, thread};
use thawweasel_tests::exported::{tw_month, tw_open, tw_place_page, tw_read, tw_read_page, tw_search, tw_write_page};
use thawweasel_tests::ledger::{self, MOST};
use thawweasel_tests::pages::{self, Lent, Page, ROOM};
use thawweasel_tests::{lent, month, months, open, place_page, read, read_page, search, write_page, Random};
use thawweasel_tests::{sheets, sheets::lens, sheets::Sheet};

/// What a word holds before it is lent.
const LENT: u32 = 0xA5A5_A5A5;

/// So many words as lent, after these.
fn then_lent(written: &[u32], words: usize) -> Vec<u32> {
    written.iter().copied().chain(std::iter::repeat_n(LENT, words)).collect()
}

#[test]
fn a_pointer_with_length_0_is_not_read() {
    let (v, e, index) = (ptr::null::<i32>(), ptr::null::<u32>(), [0; 4]);
    let mut out = [LENT; 5];
    unsafe { tw_open(-7, 9, v, 0, e, 0, 1, ptr::null_mut(), 0, out.as_mut_ptr()) };
    assert_eq!(out[..2], [3, 0]);
    unsafe { tw_read(-7, 9, v, 0, e, 0, 1, 9, 3, out.as_mut_ptr()) };
    assert_eq!(out[..3], [3, 0, 0]);
    unsafe { tw_search(-7, 9, v, 0, e, 0, 1, index.as_ptr(), 4, 9, 3, ptr::null_mut(), 0, out.as_mut_ptr()) };
    assert_eq!(out, [3, 0, 0, 0, 0]);
    unsafe { tw_search(-7, 9, v, 0, e, 0, 1, ptr::null(), 0, 9, 3, ptr::null_mut(), 0, out.as_mut_ptr()) };
    assert_eq!(out, [0, 3, 0, 0, 0]);
}

#[test]
fn so_many_words_of_out_are_written_and_no_more() {
    let s = lens();
    let (v, e) = (&s.vertices, &s.edges);
    for (x, answer) in [(2, [3, 1, 0, 2, 2]), (5, [0, 20, 0, 0, 0])] {
        let (mut index, mut trail) = ([LENT; 16], [LENT; 4]);
        let mut out = [LENT; 8];
        unsafe { tw_open(0, 4, v.as_ptr(), v.len(), e.as_ptr(), e.len(), 3, index.as_mut_ptr(), 14, out.as_mut_ptr()) };
        assert_eq!(out[..], then_lent(&[0, 0], 6));
        assert_eq!(index[14..], [LENT; 2], "words past the lent ones");
        out = [LENT; 8];
        unsafe { tw_read(0, 4, v.as_ptr(), v.len(), e.as_ptr(), e.len(), 3, x, 0, out.as_mut_ptr()) };
        assert_eq!(out[..], then_lent(&answer[..3], 5));
        out = [LENT; 8];
        let (i, t) = (index.as_ptr(), trail.as_mut_ptr());
        unsafe { tw_search(0, 4, v.as_ptr(), v.len(), e.as_ptr(), e.len(), 3, i, 14, x, 0, t, 2, out.as_mut_ptr()) };
        assert_eq!(out[..], then_lent(&answer, 3));
        assert_eq!(trail[2..], [LENT; 2], "words past the lent ones");
    }
}

/// The lens sheet with two points, and its page.
fn lens_page() -> (Page, Vec<u8>) {
    let page = Page { sheet: lens(), points: vec![2, 0, 5, 0] };
    let text = pages::write(&page).expect("a page that can be written");
    (page, text.into_bytes())
}

#[test]
fn a_pointer_with_length_0_to_a_page_or_its_tables_is_not_read() {
    let (none, v, e, p) = (ptr::null::<u8>(), ptr::null_mut::<i32>(), ptr::null_mut::<u32>(), ptr::null_mut::<i32>());
    let (mut out, mut text) = ([0; 8], vec![0; ROOM]);
    unsafe { tw_read_page(none, 0, v, 0, e, 0, p, 0, out.as_mut_ptr()) };
    assert_eq!(out, [32, 0, 0, 0, 0, 0, 0, 0]);
    unsafe { tw_place_page(none, 0, text.as_mut_ptr(), ROOM, out.as_mut_ptr()) };
    assert_eq!((&out[..2], &text[..13]), (&[0, 13][..], &b"refused 32 0\n"[..]));
    unsafe { tw_place_page(none, 0, ptr::null_mut(), 0, out.as_mut_ptr()) };
    assert_eq!(out[..2], [33, 0]);
    unsafe { tw_write_page(-7, 9, v, 0, e, 0, 1, p, 0, ptr::null_mut(), 0, out.as_mut_ptr()) };
    assert_eq!(out[..2], [33, 0]);
    unsafe { tw_write_page(-7, 9, v, 0, e, 0, 1, p, 0, text.as_mut_ptr(), 43, out.as_mut_ptr()) };
    assert_eq!((&out[..2], &text[..43]), (&[0, 43][..], &b"00fffffff900000009000000000000000000000001\n"[..]));
    unsafe { tw_read_page(text.as_ptr(), 43, v, 0, e, 0, p, 0, out.as_mut_ptr()) };
    assert_eq!(out, [0, 0, 0xFFFF_FFF9, 9, 0, 0, 1, 0]);
}

#[test]
fn so_many_words_of_out_are_written_for_a_page_and_no_more() {
    let (Page { sheet: s, points: p }, page) = lens_page();
    let (v, e) = (&s.vertices, &s.edges);
    let (mut vertices, mut edges, mut points, mut text) = (vec![7; 9], vec![7; 17], vec![7; 5], vec![7; ROOM + 1]);
    let mut out = [u64::MAX; 9];
    let tables = (vertices.as_mut_ptr(), edges.as_mut_ptr(), points.as_mut_ptr());
    unsafe { tw_read_page(page.as_ptr(), page.len(), tables.0, 8, tables.1, 16, tables.2, 4, out.as_mut_ptr()) };
    assert_eq!(out, [0, 0, 0, 4, 4, 4, 3, 2, u64::MAX]);
    assert_eq!((&vertices[..8], &edges[..16], &points[..4]), (&v[..], &e[..], &p[..]));
    assert_eq!((vertices[8], edges[16], points[4]), (7, 7, 7), "words past the lent ones");
    let (t, length) = (text.as_mut_ptr(), page.len());
    out = [u64::MAX; 9];
    unsafe { tw_write_page(0, 4, v.as_ptr(), 8, e.as_ptr(), 16, 3, p.as_ptr(), 4, t, length, out.as_mut_ptr()) };
    assert_eq!((&out[..3], &text[..length], text[length]), (&[0, length as u64, u64::MAX][..], &page[..], 7));
    let t = text.as_mut_ptr();
    out = [u64::MAX; 9];
    unsafe { tw_place_page(page.as_ptr(), length, t, ROOM, out.as_mut_ptr()) };
    assert_eq!((&out[..3], &text[..20], text[ROOM]), (&[0, 20, u64::MAX][..], &b"zone 1\nrefused 20 0\n"[..], 7));
}

#[test]
fn a_pointer_with_length_0_to_a_month_is_not_read() {
    let (v, e, words, floats) = (ptr::null::<i32>(), ptr::null::<u32>(), ptr::null_mut::<u32>(), ptr::null_mut::<f64>());
    let (index, permits) = ([0; 4], [10.0, 1.0]);
    let (i, p) = (index.as_ptr(), permits.as_ptr());
    let (mut results, mut means, mut out) = ([LENT; 3], [7.0], [LENT; 4]);
    let (r, m, o) = (results.as_mut_ptr(), means.as_mut_ptr(), out.as_mut_ptr());
    unsafe { tw_month(-7, 9, v, 0, e, 0, 1, e, 0, v, 0, e, 0, floats, 0, floats, 0, words, 0, words, 0, words, 0, floats, 0, o) };
    assert_eq!(out, [3, 0, 0, 0]);
    unsafe { tw_month(-7, 9, v, 0, e, 0, 1, i, 4, v, 0, e, 0, floats, 0, floats, 0, words, 0, words, 0, words, 0, floats, 0, o) };
    assert_eq!(out, [43, 0, 0, 0]);
    unsafe { tw_month(-7, 9, v, 0, e, 0, 1, i, 4, v, 0, e, 0, floats, 0, p, 2, words, 0, words, 0, r, 3, m, 1, o) };
    assert_eq!((out, results, means), ([0; 4], [0; 3], [7.0]), "a month of no sample");
}

#[test]
fn so_many_words_are_written_for_a_month_and_no_more() {
    let s = lens();
    let (v, e, index) = (&s.vertices, &s.edges, [0, 1, 2, 0, 1, 2, 0, 0, 2, 4, 2, 3, 0, 1]);
    let (points, kinds, values, permits) = ([2, 0, 1, 1, 5, 0], [1, 2, 1], [0.5, 3.0, 4.0], [10.0, 1.0].repeat(3));
    for (samples, said, first) in [(3, [0, 0, 1, 1], [1, 2]), (2, [43, 0, 0, 0], [LENT, LENT])] {
        let (mut boundary, mut off, mut results, mut means, mut out) = ([LENT; 5], [LENT; 5], [LENT; 11], [7.0; 5], [LENT; 6]);
        let lists = (boundary.as_mut_ptr(), off.as_mut_ptr(), results.as_mut_ptr(), means.as_mut_ptr());
        unsafe {
            tw_month(
                0, 4, v.as_ptr(), 8, e.as_ptr(), 16, 3, index.as_ptr(), 14, points.as_ptr(), 6, kinds.as_ptr(), samples,
                values.as_ptr(), 3, permits.as_ptr(), 6, lists.0, 3, lists.1, 3, lists.2, 9, lists.3, 3, out.as_mut_ptr(),
            )
        };
        assert_eq!(out[..], then_lent(&said, 2));
        assert_eq!(boundary[..], then_lent(&first[..1], 4));
        assert_eq!(off[..], then_lent(&first[1..], 4));
        let good = said[0] == 0;
        assert_eq!(results[..], if good { then_lent(&[0, 0, 0, 1, 0, 1, 0, 0, 0], 2) } else { then_lent(&[], 11) });
        assert_eq!(means, if good { [7.0, 0.5, 7.0, 7.0, 7.0] } else { [7.0; 5] });
    }
}

/// Makes calls on a thread with so many KiB of stack.
fn on_a_stack_of(kib: usize, calls: impl FnOnce() + Send + 'static) {
    thread::Builder::new().stack_size(kib << 10).spawn(calls).unwrap().join().unwrap();
}

/// Opens a sheet, reads a point of it and searches for it.
fn place_a_point(s: &Sheet) {
    let (mut index, mut trail) = (vec![0; s.need()], [0; 12]);
    assert_eq!(open(s, &mut index), [0, 0]);
    let [kind, number, item] = read(s, s.west, 0);
    assert_eq!(search(s, &index, s.west, 0, &mut trail)[..3], [kind, number, item]);
}

#[test]
fn a_stack_of_8_mib_is_enough_for_the_largest_sheet() {
    let mut r = Random::new("large stack", 26);
    let s = sheets::largest(&mut r);
    assert_eq!((s.vertices.len() / 2, s.edges.len() / 4, s.zones), (4_096, 8_192, 4_096));
    on_a_stack_of(8 << 10, move || place_a_point(&s));
}

#[test]
fn a_stack_of_512_kib_is_enough() {
    let mut r = Random::new("stack", 20);
    for s in [sheets::largest(&mut r), sheets::largest_fan()] {
        on_a_stack_of(512, move || place_a_point(&s));
    }
    on_a_stack_of(512, || {
        let s = sheets::circle_at_the_top(4_096);
        assert_eq!(open(&s, &mut vec![0; s.need()]), [13, 4_089]);
        assert_eq!(read(&s, s.west, 0), [0, 13, 4_089]);
    });
}

#[test]
fn a_stack_of_640_kib_is_enough_to_place_a_page() {
    let mut r = Random::new("stack for a page", 21);
    for sheet in [sheets::accepted(&mut r, 1_000_000_000, 850, 430, 1_024), sheets::fan(1_024), sheets::circle_at_the_top(700)] {
        let page = pages::write(&Page { points: [sheet.west, 0].repeat(200), sheet }).expect("a page that can be written");
        let printed = pages::place(page.as_bytes());
        on_a_stack_of(640, move || {
            let mut text = vec![0; ROOM];
            assert_eq!(place_page(page.as_bytes(), &mut text), [0, printed.len() as u64]);
            assert!(text.starts_with(printed.as_bytes()));
        });
    }
}

#[test]
fn a_stack_of_64_kib_is_enough_to_search() {
    let mut r = Random::new("stack to search", 27);
    for s in [sheets::largest(&mut r), sheets::largest_fan()] {
        let mut index = vec![0; s.need()];
        assert_eq!(open(&s, &mut index), [0, 0]);
        let points: Vec<(i32, i32)> = (0..100).map(|_| sheets::inside(&mut r, &s)).collect();
        on_a_stack_of(64, move || points.iter().for_each(|&(x, y)| assert_ne!(search(&s, &index, x, y, &mut [0; 12])[0], 0)));
    }
}

#[test]
fn a_stack_of_64_kib_is_enough_to_write_and_read_a_page() {
    let mut r = Random::new("stack for long pages", 28);
    for sheet in [sheets::largest(&mut r), sheets::largest_fan()] {
        let page = Page { points: [sheet.west, 0].repeat(200), sheet };
        on_a_stack_of(64, move || {
            let (mut text, mut lent) = (vec![0; 400_000], Lent { vertices: vec![0; 8_192], edges: vec![0; 32_768], points: vec![0; 400] });
            let [refusal, length] = write_page(&page, &mut text).map(|word| word as usize);
            assert_eq!((refusal, read_page(&text[..length], &mut lent)[0]), (0, 0));
        });
    }
}

#[test]
fn a_stack_of_64_kib_is_enough_for_a_month() {
    let mut r = Random::new("stack for a month", 23);
    for sheet in [sheets::largest(&mut r), sheets::largest_fan()] {
        let mut index = vec![0; sheet.need()];
        assert_eq!(open(&sheet, &mut index), [0, 0]);
        let m = months::sound(&mut r, &sheet, &index, MOST);
        on_a_stack_of(64, move || {
            let (boundary, off, results) = (lent(m.room.boundary), lent(m.room.off), lent(m.room.results));
            assert_eq!(month(&m, &mut ledger::Lent { boundary, off, results, means: vec![0; m.room.means] })[..2], [0, 0]);
        });
    }
}
