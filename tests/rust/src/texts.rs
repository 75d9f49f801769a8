//! Texts: random sheets with points as they stand on pages, and damage to the bytes, the lines, the head and the end of a page.
use crate::pages::{self, frame, Page, HELD};
use crate::paper::{Limits, EARLIER, LIMITS};
use crate::sheets::{self, Sheet};
use crate::{faults, Random};

/// The refusals of sheets at which faults are aimed, without 1; 0 for what goes to a limit.
const FAULTS: [u32; 12] = [0, 2, 4, 5, 6, 7, 8, 9, 10, 11, 12, 13];

/// A word of a table: small, at a limit of the range or of its type, or any.
fn word(r: &mut Random) -> i32 {
    match r.below(6) {
        0 | 1 => r.between(-20, 20) as i32,
        2 => r.one(&[1, -1]) * (r.one(&[LIMITS.reach, EARLIER.reach]) + r.one(&[0, 1])),
        3 => r.one(&[i32::MIN, i32::MAX, -1, 0]),
        _ => r.next() as i32,
    }
}

/// Fewer than so many points, on a sheet whose edges have ends, near it, off it or anywhere.
pub fn points(r: &mut Random, s: &Sheet, below: u64) -> Vec<i32> {
    let mut list = vec![];
    for _ in 0..r.below(below) {
        let (x, y) = match r.below(8) {
            0 => sheets::outside(r, s),
            1 => (word(r), word(r)),
            _ => sheets::point(r, s),
        };
        list.extend([x, y]);
    }
    list
}

/// Tables of any words, a few records each, with any margins and a number of zones within its limits.
fn any_words(r: &mut Random) -> Page {
    let [vertices, edges, points] = [2, 4, 2].map(|size| (0..size * r.below(6)).map(|_| word(r)).collect::<Vec<i32>>());
    let limit = r.one(&[HELD.zones, LIMITS.zones]);
    let zones = if r.below(2) == 0 { r.one(&[1, 2, limit - 1, limit]) } else { 1 + r.below(limit.into()) as u32 };
    let edges = edges.iter().map(|&word| word as u32).collect();
    Page { sheet: Sheet { west: word(r), east: word(r), zones, vertices, edges }, points }
}

/// A page that can be written: an accepted sheet, one with faults or with wrong names, or any words.
pub fn any(r: &mut Random) -> Page {
    let (accepted, what) = (sheets::any(r), r.below(9) as usize);
    let points = points(r, &accepted, 12);
    let page = match what {
        0 => any_words(r),
        1 => Page { sheet: faults::faulty(r, &accepted, &FAULTS), points },
        2 => Page { sheet: faults::faulty(r, &accepted, &FAULTS[7..]), points },
        3..=5 => Page { sheet: faults::misnamed(r, what - 3), points },
        _ => Page { sheet: accepted, points },
    };
    if pages::write(&page).is_some() { page } else { any(r) }
}

/// Damages a page in one of several ways, by name.
type Damage = fn(&mut Random, &mut Vec<u8>, &str);

/// What can be wrong with a page.
pub const DAMAGES: [(&str, Damage); 21] = [
    ("a digit in upper case", damage_lines),
    ("a byte that is no digit", damage_lines),
    ("a carriage return", damage_lines),
    ("a byte dropped", damage_lines),
    ("a byte doubled", damage_lines),
    ("a line cut", damage_lines),
    ("a kind changed", damage_lines),
    ("a frame of any kind", damage_lines),
    ("a newline dropped", damage_lines),
    ("a newline doubled", damage_lines),
    ("two lines exchanged", damage_lines),
    ("a line missing", damage_lines),
    ("a line doubled", damage_lines),
    ("the last newline missing", damage_end),
    ("a page cut", damage_end),
    ("bytes after the last line", damage_end),
    ("counts beyond the limits", damage_head),
    ("counts beyond what a program holds", damage_head),
    ("counts of other tables", damage_head),
    ("some bytes at random", damage_any),
    ("all bytes at random", damage_any),
];

/// One of so many places: the first, the last, or any.
fn place(r: &mut Random, places: usize) -> usize {
    match r.below(3) {
        0 => 0,
        1 => places - 1,
        _ => r.below(places as u64) as usize,
    }
}

/// Damages the bytes or the kind of one line, its newline kept.
fn damage_line(r: &mut Random, line: &mut Vec<u8>, what: &str) {
    let digits = line.strip_suffix(b"\n").unwrap_or(line).len();
    if digits == 0 {
        return;
    }
    let at = place(r, digits);
    match what {
        "a digit in upper case" => line[at] = r.one(b"ABCDEF"),
        "a byte that is no digit" => line[at] = r.one(b"/:`gG@ \t\0\x7f\xff"),
        "a carriage return" => line.insert(digits, b'\r'),
        "a byte dropped" => drop(line.remove(at)),
        "a byte doubled" => line.insert(at, line[at]),
        "a line cut" => drop(line.drain(at..digits)),
        "a kind changed" => {
            let kind = r.one(&[b"00", b"01", b"02", b"03", b"04", b"0a", b"0f", b"10", b"ff"]);
            line.splice(..digits.min(2), *kind);
        }
        _ => {
            let (kind, words) = r.one(&[(0, 5), (1, 2), (2, 4), (3, 2)]);
            let words: Vec<u32> = (0..words).map(|_| word(r) as u32).collect();
            line.splice(..digits, frame(kind, &words).trim_end().bytes());
        }
    }
}

/// Damages one line of a page, or two.
fn damage_lines(r: &mut Random, page: &mut Vec<u8>, what: &str) {
    let mut lines: Vec<Vec<u8>> = page.split_inclusive(|&byte| byte == b'\n').map(|line| line.to_vec()).collect();
    let (at, other) = (place(r, lines.len()), place(r, lines.len()));
    match what {
        "a newline dropped" => drop(lines[at].pop()),
        "a newline doubled" => lines[at].push(b'\n'),
        "two lines exchanged" => lines.swap(at, other),
        "a line missing" => drop(lines.remove(at)),
        "a line doubled" => lines.insert(at, lines[at].clone()),
        what => damage_line(r, &mut lines[at], what),
    }
    *page = lines.concat();
}

/// Damages the end of a page.
fn damage_end(r: &mut Random, page: &mut Vec<u8>, what: &str) {
    match what {
        "the last newline missing" => drop(page.pop()),
        "a page cut" => {
            let at = match r.below(4) {
                0 => 0,
                1 => r.below(43) as usize,
                2 => page.len().saturating_sub(r.below(35) as usize),
                _ => r.below(page.len() as u64 + 1) as usize,
            };
            page.truncate(at);
        }
        _ => {
            let more = r.one(&["\n", "0", "03", "\r\n", "g", "030000000000000000", "0300000000000000000\n", "010000000000000000\n"]);
            page.extend(more.bytes());
        }
    }
}

/// Changes a count in the head of a page: V, m or n.
fn damage_head(r: &mut Random, page: &mut Vec<u8>, what: &str) {
    let counts = |l: Limits| [l.vertices as u32, l.edges as u32, l.zones];
    let which = r.below(3) as usize;
    let (at, limit, held) = (18 + 8 * which, counts(LIMITS)[which], counts(HELD)[which]);
    let count = page.get(at..at + 8).and_then(|digits| u32::from_str_radix(std::str::from_utf8(digits).ok()?, 16).ok());
    let Some(count) = count else { return };
    let other = match what {
        "counts beyond the limits" if at == 34 => r.one(&[0, limit + 1, 1 << 16, 1 << 31, u32::MAX]),
        "counts beyond the limits" => r.one(&[limit + 1, limit + 2, 1 << 16, 1 << 31, u32::MAX]),
        "counts beyond what a program holds" => r.one(&[held + 1, held + 2, limit - 1, limit]),
        _ => r.one(&[count.saturating_sub(1), count.saturating_add(1), held, limit, 0]),
    };
    page.splice(at..at + 8, format!("{other:08x}").bytes());
}

/// Puts bytes at random into a page, or makes all of it anew of digits, kinds and newlines.
fn damage_any(r: &mut Random, page: &mut Vec<u8>, what: &str) {
    if what == "some bytes at random" {
        for _ in 0..=r.below(3) {
            let at = r.below(page.len() as u64) as usize;
            page[at] = if r.below(2) == 0 { r.next() as u8 } else { r.one(b"0123456789abcdef\n") };
        }
        return;
    }
    page.clear();
    for _ in 0..r.below(40) {
        match r.below(4) {
            0 => page.push(r.next() as u8),
            1 => page.extend(frame(r.below(5) as usize, &[1; 5][..r.one(&[2, 4, 5])]).bytes()),
            _ => page.push(r.one(b"0123456789abcdef\n")),
        }
    }
}

/// Makes one thing wrong with a page, if there is anything on it: what is at this place of `DAMAGES`.
pub fn damage(r: &mut Random, page: &mut Vec<u8>, what: usize) {
    let (name, make) = DAMAGES[what];
    if !page.is_empty() {
        make(r, page, name);
    }
}
