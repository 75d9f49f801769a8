//! Answers of the outside vectors as they are given now. The vectors were made before P4, since which refusal 13 names another zone, and
//! before P5, since which the limits are others. Each answer is held to the independent implementation under the limits that it was made
//! for; the one given now may differ from it only where that was a refusal that reads the limits, of something outside the earlier ones.
use crate::ledger::{self, Lent, Month};
use crate::pages::{self, Page};
use crate::paper::{self, EARLIER};
use crate::{circles, sheet::Sheet};
use std::fmt::Debug;

/// The answer to a call under the earlier limits, with the zone that 13 names since P4, and the answer given now.
pub struct Amended<T> {
    pub earlier: T,
    pub now: T,
}

impl<T: Debug + PartialEq> Amended<T> {
    /// Both answers, which have to be the same unless they may differ.
    fn new(earlier: T, now: T, may_differ: bool) -> Self {
        assert!(may_differ || now == earlier, "{now:?} within the earlier limits, where {earlier:?} was given");
        Amended { earlier, now }
    }

    /// Whether the limits make a difference.
    pub fn differs(&self) -> bool {
        self.now != self.earlier
    }
}

/// What opening leaves: its refusal, 0 0 where the sheet is opened, and every lent word.
pub type Opened = ([u32; 2], Vec<u32>);

/// What the quick search leaves: kind, number, item and both counts, and every trail word.
pub type Searched = ([u32; 5], Vec<u32>);

/// Whether a coordinate is out of the earlier range.
fn is_far(c: i32) -> bool {
    !EARLIER.in_range(c)
}

/// Whether a count, a margin or a coordinate of a sheet is outside the earlier limits.
fn is_outside(s: &Sheet) -> bool {
    let far = is_far(s.west) || is_far(s.east) || s.vertices.iter().any(|&c| is_far(c));
    far || EARLIER.exceeded(s.vertices.len() / 2, s.edges.len() / 4, s.zones.max(1))
}

/// A refusal with the zone that 13 names since P4.
fn renamed(s: &Sheet, [number, item]: [u32; 2]) -> [u32; 2] {
    [number, if number == 13 { circles::amended(&s.edges, s.zones, item) } else { item }]
}

/// Opening a sheet, where it left this.
pub fn open(s: &Sheet, lent: &[u32], said: &Opened) -> Amended<Opened> {
    let earlier = (renamed(s, said.0), said.1.clone());
    assert_eq!(paper::open_under(&EARLIER, s, lent), earlier, "under the earlier limits, {s:?}");
    let may_differ = is_outside(s) && [1, 2, 4].contains(&earlier.0[0]);
    Amended::new(earlier, paper::open(s, lent), may_differ)
}

/// The plain reading of a point, where it gave this kind, number and item.
pub fn read(s: &Sheet, (x, y): (i32, i32), [kind, number, item]: [u32; 3]) -> Amended<[u32; 3]> {
    let [number, item] = if kind == 0 { renamed(s, [number, item]) } else { [number, item] };
    let earlier = [kind, number, item];
    assert_eq!(paper::read_under(&EARLIER, s, x, y).values(), earlier, "under the earlier limits, ({x}, {y}) of {s:?}");
    let may_differ = kind == 0 && (is_outside(s) && [1, 2, 4].contains(&number) || is_far(y) && number == 20);
    Amended::new(earlier, paper::read(s, x, y).values(), may_differ)
}

/// The quick search for a point, where it left this.
pub fn search(s: &Sheet, index: &[u32], (x, y): (i32, i32), lent: &[u32], said: &Searched) -> Amended<Searched> {
    let under = |l| {
        let paper::Searched { out, trail, .. } = paper::search_under(l, s, index, x, y, lent);
        (out, trail)
    };
    assert_eq!(under(&EARLIER), *said, "under the earlier limits, ({x}, {y}) of {s:?}");
    let [kind, number, ..] = said.0;
    let may_differ = kind == 0 && (is_outside(s) && [1, 2, 22].contains(&number) || is_far(y) && number == 20);
    Amended::new(said.clone(), under(&paper::LIMITS), may_differ)
}

/// The refusal that a text has on its only line.
pub fn refused(text: &str) -> Option<(u32, u32)> {
    let (number, item) = text.strip_prefix("refused ")?.strip_suffix('\n')?.split_once(' ')?;
    Some((number.parse().ok()?, item.parse().ok()?))
}

/// Whether the lines of two texts are the same but where the first has a refusal 20 of a point that is out of the earlier range.
fn differ_by_far_points(page: &Page, earlier: &str, now: &str) -> bool {
    let far = |point: &[i32], line: &str| is_far(point[1]) && line == "refused 20 0";
    let mut lines = page.points.chunks(2).zip(earlier.lines().zip(now.lines()));
    earlier.lines().count() == now.lines().count() && lines.all(|(point, (was, is))| was == is || far(point, was))
}

/// Placing a page, where this was printed.
pub fn place(page: &[u8], said: &str) -> Amended<String> {
    let (read, now) = (pages::read(page), pages::place(page));
    let earlier = match (refused(said), &read) {
        (Some((13, item)), Ok(page)) => format!("refused 13 {}\n", circles::amended(&page.sheet.edges, page.sheet.zones, item)),
        _ => said.to_string(),
    };
    assert_eq!(pages::place_under(&EARLIER, page), earlier, "under the earlier limits");
    let may_differ = read.is_ok_and(|page| match refused(&earlier) {
        Some((2 | 4, _)) => is_outside(&page.sheet),
        _ => differ_by_far_points(&page, &earlier, &now),
    });
    Amended::new(earlier, now, may_differ)
}

/// Keeping a month in lent tables, where it left this.
pub fn keep(m: &Month, lent: &Lent, said: &([u32; 4], Lent)) -> Amended<([u32; 4], Lent)> {
    assert_eq!(ledger::month_under(&EARLIER, m, lent), *said, "under the earlier limits");
    let may_differ = is_outside(&m.sheet) || m.points.iter().skip(1).step_by(2).any(|&y| is_far(y));
    Amended::new(said.clone(), ledger::month(m, lent), may_differ)
}
