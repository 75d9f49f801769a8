//! Opening at and past the limits of counts, records, margins and coordinates.
use thawweasel_tests::{lent, open, sheets, sheets::lens, sheets::Sheet, Random};

/// Opens a sheet with so many words lent; only the index may be written, and only where the sheet is opened.
fn opened(s: &Sheet, words: usize) -> [u32; 2] {
    let lent = lent(words);
    let mut index = lent.clone();
    let said = open(s, &mut index);
    let wrote = if said == [0, 0] { s.need() } else { 0 };
    assert_eq!(index[wrote..], lent[wrote..], "a word that is not the index's was written");
    said
}

#[test]
fn counts_at_and_past_the_limits() {
    let mut r = Random::new("limits", 11);
    let largest = sheets::largest(&mut r);
    assert_eq!((largest.vertices.len() / 2, largest.edges.len() / 4, largest.zones), (4_096, 8_192, 4_096));
    assert_eq!(opened(&largest, largest.need()), [0, 0], "8,192 edges stand");
    assert_eq!(opened(&largest, largest.need() - 1), [3, 0]);
    let fan = sheets::largest_fan();
    assert_eq!((fan.edges.len() / 4, opened(&fan, fan.need())), (4_095, [0, 0]), "one fan");
    let mut edge_more = largest.clone();
    edge_more.edges.extend_from_slice(&[0, 1, 0, 1]);
    assert_eq!(opened(&edge_more, 99_999), [1, 0], "8,193 edges");
    let mut vertex_more = largest.clone();
    vertex_more.vertices.extend_from_slice(&[0, 0]);
    assert_eq!(opened(&vertex_more, 99_999), [1, 0], "4,097 vertices");
    let mut zone_more = largest.clone();
    zone_more.zones += 1;
    assert_eq!(opened(&zone_more, 99_999), [1, 0], "4,097 zones");
}

#[test]
fn sheets_past_the_earlier_limits() {
    let mut r = Random::new("past the earlier limits", 12);
    for (reach, size) in [(1_000_000, 1_025), (1_000_000_000, 1_025), (1_000_000, 3_000), (1_000_000_000, 3_000)] {
        let s = sheets::accepted(&mut r, reach, size, size, size);
        assert_eq!((s.vertices.len() / 2, s.edges.len() / 4, s.zones as usize), (size, 2 * size, size));
        assert_eq!(opened(&s, s.need()), [0, 0], "{size} vertices");
    }
}

#[test]
fn sheets_of_all_widths_with_as_many_vertices_as_there_may_be() {
    let mut r = Random::new("widths", 19);
    for wide in (1..=12).map(|power| 1 << power) {
        let s = sheets::woven(&mut r, wide, 4_096 / wide);
        assert_eq!(opened(&s, s.need() + 3), [0, 0], "{wide} columns");
        assert_eq!(opened(&s, s.need() - 1), [3, 0], "{wide} columns");
    }
}

#[test]
fn tables_that_are_not_whole_records_and_no_zone() {
    for (vertices, edges) in [(1, 0), (3, 0), (0, 1), (0, 2), (0, 3), (0, 5)] {
        let odd = Sheet { east: 4, zones: 1, vertices: vec![0; vertices], edges: vec![0; edges], ..Sheet::default() };
        assert_eq!(opened(&odd, 9), [1, 0], "{vertices} vertex words, {edges} edge words");
    }
    assert_eq!(opened(&Sheet { east: 4, ..Sheet::default() }, 9), [1, 0], "no zone");
}

#[test]
fn margins_and_coordinates_at_and_past_the_limits() {
    let blank = |west: i32, east: i32| opened(&Sheet { west, east, zones: 1, ..Sheet::default() }, 4);
    for far in [1_000_000, 1_000_001, 1_000_000_000] {
        assert_eq!(blank(-far, far), [0, 0], "margins {far} from 0");
    }
    for (west, east) in [(-1_000_000_001, 0), (0, 1_000_000_001), (7, 7), (8, 7), (i32::MIN, 0), (0, i32::MAX)] {
        assert_eq!(blank(west, east), [2, 0], "margins {west} and {east}");
    }
    let lens_with = |at: usize, c: i32| {
        let mut s = lens();
        s.vertices[at] = c;
        opened(&s, 14)
    };
    for (at, end) in [(3, 1_000_000_000), (5, -1_000_000_000)] {
        assert_eq!(lens_with(at, end), [0, 0], "{end} stands");
        assert_eq!(lens_with(at, end / 1_000 + end.signum()), [0, 0], "one past the earlier limit stands");
        assert_eq!(lens_with(at, end + end.signum()), [4, at as u32 / 2], "one past {end}");
    }
    let wide = |east: i32, c: i32| {
        let mut s = Sheet { east, ..lens() };
        s.vertices[6] = c;
        opened(&s, 14)
    };
    assert_eq!(wide(1_000_000_000, 1_000_000_000), [0, 0], "x = 1,000,000,000 stands");
    assert_eq!(wide(1_000_000_000, 1_000_000_001), [4, 3], "x = 1,000,000,001");
    assert_eq!(lens_with(0, -1), [4, 0], "west of W");
    assert_eq!(lens_with(6, 5), [4, 3], "east of E");
}

#[test]
fn nothing_drawn() {
    assert_eq!(opened(&sheets::blank(), 4), [0, 0]);
    assert_eq!(opened(&sheets::blank(), 3), [3, 0]);
    for zones in [2, 1_025, 4_096] {
        assert_eq!(opened(&Sheet { zones, ..sheets::blank() }, 99_999), [12, 0], "{zones} zones");
    }
    assert_eq!(opened(&Sheet { zones: 4_097, ..sheets::blank() }, 99_999), [1, 0], "4,097 zones");
}
