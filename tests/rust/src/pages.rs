//! Document 02's P1 as written, by plain means: pages of frames judged and read, written, and placed; and P5's counts that a program
//! with fixed buffers holds.

use crate::paper::{self, Answer, Limits, EARLIER, LIMITS};
use crate::sheet::Sheet;

/// What a program with fixed buffers holds: the counts before P5, and coordinates as they are now.
pub const HELD: Limits = Limits { reach: LIMITS.reach, ..EARLIER };

/// The most bytes of a page that the program reads.
pub const LONGEST: usize = 65_536;

/// The bytes of text that have to be lent for placing a page.
pub const ROOM: usize = 131_072;

/// A refusal's number, and the line or the item that it names.
pub type Refusal = (u32, u32);

/// A sheet and the points to place on it, two words to a point.
#[derive(Clone, Debug, Default, PartialEq, Eq)]
pub struct Page {
    pub sheet: Sheet,
    pub points: Vec<i32>,
}

/// The three tables that are lent to reading a page.
#[derive(Clone, Debug, PartialEq, Eq)]
pub struct Lent {
    pub vertices: Vec<i32>,
    pub edges: Vec<u32>,
    pub points: Vec<i32>,
}

/// How many numbers a frame has after its kind: 00 a head, 01 a vertex, 02 an edge, 03 a point.
const NUMBERS: [usize; 4] = [5, 2, 4, 2];

/// The value of at most eight digits, high digit first, where all are lower-case hexadecimal.
fn value(digits: &[u8]) -> Option<u32> {
    digits.iter().try_fold(0, |value, digit| match digit {
        b'0'..=b'9' => Some(16 * value + u32::from(digit - b'0')),
        b'a'..=b'f' => Some(16 * value + u32::from(digit - b'a') + 10),
        _ => None,
    })
}

/// The kind of a line, where it begins with one that is known.
fn kind(line: &[u8]) -> Option<usize> {
    let kind = value(line.get(..2)?)? as usize;
    (kind < NUMBERS.len()).then_some(kind)
}

/// The numbers of a line: none where refusal 30 is given, which is not hexadecimal, an unknown kind, or not its kind's length.
fn numbers(line: &[u8]) -> Option<Vec<u32>> {
    let length = 2 + 8 * NUMBERS[kind(line)?];
    (line.len() == length).then(|| line[2..].chunks(8).map(value).collect())?
}

/// The lines that are there whole, and what follows the last newline.
fn lines(page: &[u8]) -> (Vec<&[u8]>, &[u8]) {
    let mut list: Vec<&[u8]> = page.split(|&byte| byte == b'\n').collect();
    let rest = list.pop().expect("a part after the last newline, at times an empty one");
    (list, rest)
}

/// The kind that a line has to be: head first, then exactly V vertices, m edges, any points.
fn wanted(line: usize, vertices: usize, edges: usize) -> usize {
    match line {
        0 => 0,
        line if line <= vertices => 1,
        line if line <= vertices + edges => 2,
        _ => 3,
    }
}

/// The refusals of a page under limits in their order, of which the first is given: by line, and in one line 30, 31, then the head's 1;
/// last 32, for the first line not there whole. Without a good head no later line is taken as out of order or missing.
pub fn refusals_under(l: &Limits, page: &[u8]) -> Vec<Refusal> {
    let (lines, rest) = lines(page);
    let head = lines.first().filter(|line| kind(line) == Some(0)).and_then(|line| numbers(line));
    let beyond = head.as_ref().is_some_and(|h| l.exceeded(h[2] as usize, h[3] as usize, h[4]));
    let counts = head.filter(|_| !beyond).map(|h| (h[2] as usize, h[3] as usize));
    let (vertices, edges) = counts.unwrap_or((0, 0));
    let mut list = vec![];
    for (at, line) in lines.iter().enumerate() {
        let other = kind(line).is_some_and(|kind| kind != wanted(at, vertices, edges));
        let applies = [(30, numbers(line).is_none()), (31, other && (at == 0 || counts.is_some())), (1, at == 0 && beyond)];
        list.extend(applies.iter().filter(|given| given.1).map(|given| (given.0, at as u32)));
    }
    if !rest.is_empty() || lines.len() < 1 + vertices + edges {
        list.push((32, lines.len() as u32));
    }
    list
}

/// The refusals of a page to the reader.
pub fn refusals(page: &[u8]) -> Vec<Refusal> {
    refusals_under(&LIMITS, page)
}

/// Reads a page.
pub fn read(page: &[u8]) -> Result<Page, Refusal> {
    read_under(&LIMITS, page)
}

/// Reads a page under limits: its first refusal, or its sheet and its points.
fn read_under(l: &Limits, page: &[u8]) -> Result<Page, Refusal> {
    if let Some(&refusal) = refusals_under(l, page).first() {
        return Err(refusal);
    }
    let Page { mut sheet, mut points } = Page::default();
    for line in lines(page).0 {
        let words = numbers(line).expect("a frame");
        let signed = words.iter().map(|&word| word as i32);
        match kind(line) {
            Some(0) => (sheet.west, sheet.east, sheet.zones) = (words[0] as i32, words[1] as i32, words[4]),
            Some(1) => sheet.vertices.extend(signed),
            Some(2) => sheet.edges.extend(words),
            _ => points.extend(signed),
        }
    }
    Ok(Page { sheet, points })
}

/// What is written, over the front of what was lent.
pub(crate) fn over<T: Copy>(written: &[T], lent: &[T]) -> Vec<T> {
    [written, &lent[written.len()..]].concat()
}

/// Reads a page into lent tables: refusal and line, the two margins as words, V, m, n and the number of points; and every lent word
/// afterwards. 33 comes after the refusals of the page.
pub fn read_into(page: &[u8], lent: &Lent) -> ([u64; 8], Lent) {
    let refused = |(number, line): Refusal| ([number.into(), line.into(), 0, 0, 0, 0, 0, 0], lent.clone());
    let Page { sheet, points } = match read(page) {
        Ok(page) => page,
        Err(refusal) => return refused(refusal),
    };
    let (v, e) = (&sheet.vertices, &sheet.edges);
    if lent.vertices.len() < v.len() || lent.edges.len() < e.len() || lent.points.len() < points.len() {
        return refused((33, 0));
    }
    let [west, east] = [sheet.west, sheet.east].map(|margin| u64::from(margin as u32));
    let counts = [v.len() / 2, e.len() / 4, sheet.zones as usize, points.len() / 2].map(|count| count as u64);
    let out = [0, 0, west, east, counts[0], counts[1], counts[2], counts[3]];
    let (vertices, edges, points) = (over(v, &lent.vertices), over(e, &lent.edges), over(&points, &lent.points));
    (out, Lent { vertices, edges, points })
}

/// The line of a frame, ended by its newline.
pub fn frame(kind: usize, words: &[u32]) -> String {
    let digits: String = words.iter().map(|word| format!("{word:08x}")).collect();
    format!("{kind:02x}{digits}\n")
}

/// Writes a sheet with its points: none where refusal 1 is given, which is for counts and tables alone.
pub fn write(page: &Page) -> Option<String> {
    let Page { sheet: s, points } = page;
    let (vertices, edges) = (s.vertices.len() / 2, s.edges.len() / 4);
    let whole = s.vertices.len() == 2 * vertices && s.edges.len() == 4 * edges && points.len().is_multiple_of(2);
    if !whole || LIMITS.exceeded(vertices, edges, s.zones) {
        return None;
    }
    let pair = |p: &[i32]| [p[0] as u32, p[1] as u32];
    let mut text = frame(0, &[s.west as u32, s.east as u32, vertices as u32, edges as u32, s.zones]);
    text.extend(s.vertices.chunks(2).map(|vertex| frame(1, &pair(vertex))));
    text.extend(s.edges.chunks(4).map(|edge| frame(2, edge)));
    text.extend(points.chunks(2).map(|point| frame(3, &pair(point))));
    Some(text)
}

/// Writes a sheet with its points into lent text: refusal and number of bytes, and every lent byte afterwards.
pub fn write_into(page: &Page, lent: &[u8]) -> ([u64; 2], Vec<u8>) {
    match write(page) {
        None => ([1, 0], lent.to_vec()),
        Some(text) if lent.len() < text.len() => ([33, 0], lent.to_vec()),
        Some(text) => ([0, text.len() as u64], over(text.as_bytes(), lent)),
    }
}

/// The line that is printed for an answer.
fn answer_line(answer: Answer) -> String {
    match answer {
        Answer::Refused(number, item) => format!("refused {number} {item}\n"),
        Answer::Vertex(v) => format!("vertex {v}\n"),
        Answer::Edge(e) => format!("edge {e}\n"),
        Answer::Zone(z) => format!("zone {z}\n"),
    }
}

/// What the program prints for a page.
pub fn place(page: &[u8]) -> String {
    place_under(&HELD, page)
}

/// What a program that holds so much prints for a page: a line for each point, or for a page or a sheet that is refused one line alone.
pub fn place_under(l: &Limits, page: &[u8]) -> String {
    let refused = |(number, item)| answer_line(Answer::Refused(number, item));
    if page.len() > LONGEST {
        return refused((34, 0));
    }
    let Page { sheet, points } = match read_under(l, page) {
        Ok(page) => page,
        Err(refusal) => return refused(refusal),
    };
    if let Some(refusal) = paper::judge_under(l, &sheet) {
        return refused(refusal);
    }
    let line = paper::line(&sheet);
    points.chunks(2).map(|point| answer_line(paper::read_accepted(l, &sheet, &line, point[0], point[1]))).collect()
}

/// Places a page into lent text: refusal and number of bytes, and every lent byte afterwards.
pub fn place_into(page: &[u8], lent: &[u8]) -> ([u64; 2], Vec<u8>) {
    if lent.len() < ROOM {
        return ([33, 0], lent.to_vec());
    }
    let text = place(page);
    ([0, text.len() as u64], over(text.as_bytes(), lent))
}
