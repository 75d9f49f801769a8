//! Pages read, written and placed both ways, by the proved calls and by plain means, which have to agree on every answer, and on every word
//! and byte that was lent.
use crate::pages::{self, Lent, Page};
use crate::sheet::Sheet;
use crate::{lent, lent_text, place_page, read_page, write_page};

/// Words of vertices, edges and points that are enough for any page that the program reads.
pub const ANY: [usize; 3] = [8_192, 32_768, 7_000];

/// Tables to lend, of so many words: vertices, edges, points.
fn tables([vertices, edges, points]: [usize; 3]) -> Lent {
    let vertices = lent(vertices).iter().map(|&word| word as i32).collect();
    let points = lent(points).iter().map(|&word| !word as i32).collect();
    Lent { vertices, edges: lent(edges), points }
}

/// The words of the three tables that a page is read into.
pub fn needs(page: &Page) -> [usize; 3] {
    [page.sheet.vertices.len(), page.sheet.edges.len(), page.points.len()]
}

/// The text of a page that can be written.
pub fn text(page: &Page) -> Vec<u8> {
    pages::write(page).expect("a page that can be written").into_bytes()
}

/// A page as it is shown where a comparison fails: its length and its first bytes.
pub fn shown(page: &[u8]) -> String {
    format!("of {} bytes: {}", page.len(), page[..page.len().min(2_000)].escape_ascii())
}

/// Reads a page into tables of so many words, both ways.
pub fn read(page: &[u8], words: [usize; 3]) -> [u64; 8] {
    let lent = tables(words);
    let mut left = lent.clone();
    let said = read_page(page, &mut left);
    let (expected, tables) = pages::read_into(page, &lent);
    assert_eq!(said, expected, "reading into {words:?} words the page {}", shown(page));
    assert_eq!(left, tables, "the words after reading into {words:?} words the page {}", shown(page));
    said
}

/// Writes a sheet with its points into text of so many bytes, both ways, and gives what is written.
pub fn write(page: &Page, bytes: usize) -> ([u64; 2], Vec<u8>) {
    let lent = lent_text(bytes);
    let mut text = lent.clone();
    let said = write_page(page, &mut text);
    let (expected, left) = pages::write_into(page, &lent);
    assert_eq!(said, expected, "writing into {bytes} bytes {page:?}");
    assert_eq!(text, left, "the text after writing into {bytes} bytes {page:?}");
    text.truncate(said[1] as usize);
    (said, text)
}

/// Places the points of a page into text of so many bytes, both ways, and gives what is written.
pub fn place(page: &[u8], bytes: usize) -> ([u64; 2], String) {
    let lent = lent_text(bytes);
    let mut text = lent.clone();
    let said = place_page(page, &mut text);
    let (expected, left) = pages::place_into(page, &lent);
    assert_eq!(said, expected, "placing into {bytes} bytes the page {}", shown(page));
    assert_eq!(text, left, "the text after placing into {bytes} bytes the page {}", shown(page));
    text.truncate(said[1] as usize);
    (said, String::from_utf8(text).expect("lines of answers"))
}

/// Writes a page and reads it back, with so many bytes and words lent more than are needed.
pub fn round_trip(page: &Page, more: usize) {
    let text = text(page);
    assert_eq!(write(page, text.len() + more), ([0, text.len() as u64], text.clone()), "{page:?}");
    let need = needs(page);
    read(&text, need.map(|words| words + more));
    let mut left = tables(need);
    let [number, line, west, east, vertices, edges, zones, points] = read_page(&text, &mut left);
    assert_eq!([number, line], [0, 0], "{page:?}");
    assert_eq!([2 * vertices, 4 * edges, 2 * points].map(|words| words as usize), need, "{page:?}");
    let sheet = Sheet { west: west as i32, east: east as i32, zones: zones as u32, vertices: left.vertices, edges: left.edges };
    assert_eq!(Page { sheet, points: left.points }, *page);
}
