//! The plain reading at the limits of a sheet, and of a refused sheet.
use thawweasel_tests::{read, sheets::blank, sheets::lens, sheets::Sheet};

#[test]
fn points_at_the_limits_of_the_sheet() {
    assert_eq!(read(&lens(), 5, 0), [0, 20, 0]);
    for far in [1_000_000, 1_000_001, 1_000_000_000] {
        assert_eq!(read(&lens(), 4, far), [3, 2, 0]);
        assert_eq!(read(&lens(), 0, -far), [3, 0, 0]);
    }
    for past in [1_000_000_001, i32::MAX] {
        assert_eq!(read(&lens(), 4, past), [0, 20, 0]);
        assert_eq!(read(&lens(), 0, -past), [0, 20, 0]);
    }
    assert_eq!(read(&blank(), -7, 3), [3, 0, 0]);
    assert_eq!(read(&blank(), -8, 3), [0, 20, 0]);
}

#[test]
fn the_corners_of_the_largest_range() {
    let (west, east) = (-1_000_000_000, 1_000_000_000);
    let s = Sheet { west, east, zones: 2, vertices: vec![west, west, east, east], edges: vec![0, 1, 1, 0] };
    assert_eq!([read(&s, west, west), read(&s, east, east)], [[1, 0, 0], [1, 1, 0]]);
    assert_eq!([read(&s, 0, 0), read(&s, east - 1, east - 1)], [[2, 0, 0]; 2]);
    assert_eq!([read(&s, west, east), read(&s, east - 1, east)], [[3, 1, 0]; 2]);
    assert_eq!([read(&s, east, west), read(&s, east, east - 1)], [[3, 0, 0]; 2]);
    assert_eq!([read(&s, east + 1, 0), read(&s, west - 1, 0)], [[0, 20, 0]; 2]);
}

#[test]
fn a_refused_sheet_is_refused_before_its_points() {
    let one_zone_more = Sheet { zones: 4, ..lens() };
    assert_eq!(read(&one_zone_more, 5, 0), [0, 12, 3], "12 goes before 20");
    let none = Sheet { zones: 0, ..lens() };
    assert_eq!(read(&none, 5, 0), [0, 1, 0], "1 goes before 20");
}
