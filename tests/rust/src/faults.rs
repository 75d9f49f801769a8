//! Faults: things made wrong in drawings and tables, aimed at each refusal of document 01 from 1 to 13.
use crate::drawings::Drawing;
use crate::paper::{EARLIER, LIMITS};
use crate::sheets::{drawn, numbered, Sheet};
use crate::Random;

/// One past the last coordinate that there may be.
const PAST: i32 = LIMITS.reach + 1;

/// The first word of a random record, in a table of records of so many words.
pub(crate) fn record(r: &mut Random, words: usize, size: usize) -> usize {
    size * r.below((words / size) as u64) as usize
}

/// Gives a face another name east of an abscissa where it has a vertex above it and one below: on each line between vertices
/// the names still agree.
fn change_name_at_abscissa(r: &mut Random, d: &mut Drawing, zone: &mut Vec<usize>) -> bool {
    let (face, x) = (r.below(d.faces as u64) as usize, r.one(&d.points).0);
    let meets = |side: usize| {
        let spans = || d.edges.iter().filter(|e| e[side] == face).map(|e| (d.points[e[0]].0, d.points[e[1]].0));
        spans().any(|(_, east)| east <= x) && spans().any(|(west, _)| x <= west) && !spans().any(|(west, east)| west < x && x < east)
    };
    if !meets(2) || !meets(3) {
        return false;
    }
    for e in d.edges.iter_mut().filter(|e| d.points[e[0]].0 >= x) {
        e[2..].iter_mut().filter(|f| **f == face).for_each(|f| *f = d.faces);
    }
    add_face(r, d, zone);
    true
}

/// Gives a face that reaches from W to E another name at its upper edges: only the clause of rule 5 at W can tell.
fn change_name_at_margin(r: &mut Random, d: &mut Drawing, zone: &mut Vec<usize>) -> bool {
    let face = r.below(d.faces as u64) as usize;
    let ends = |side: usize| d.edges.iter().filter(move |e| e[side] == face).flat_map(|e| [e[0], e[1]]);
    if ends(2).next().is_none() || ends(3).next().is_none() || ends(2).any(|v| ends(3).any(|u| u == v)) {
        return false;
    }
    d.edges.iter_mut().filter(|e| e[3] == face).for_each(|e| e[3] = d.faces);
    add_face(r, d, zone);
    true
}

/// Counts one face more, in a zone of its own or in another face's.
fn add_face(r: &mut Random, d: &mut Drawing, zone: &mut Vec<usize>) {
    let name = if r.below(2) == 0 { d.faces } else { r.one(zone) };
    zone.push(name);
    d.faces += 1;
}

/// Puts two zones into one, with a third between them from bottom to top, where no edge lies between the two.
fn close_circle(r: &mut Random, d: &mut Drawing, zone: &mut [usize]) -> bool {
    let lower = r.one(&d.edges);
    let upper: Vec<usize> = d.edges.iter().filter(|e| zone[e[3]] == zone[lower[2]]).map(|e| e[2]).collect();
    if upper.is_empty() {
        return false;
    }
    let (a, b) = (zone[lower[3]], zone[r.one(&upper)]);
    let apart = |e: &[usize; 4]| ![[a, b], [b, a]].contains(&[zone[e[2]], zone[e[3]]]);
    let closes = d.edges.iter().all(apart);
    if closes {
        zone.iter_mut().filter(|z| **z == b).for_each(|z| *z = a);
    }
    closes
}

/// What can be wrong with a sheet that has nothing wrong but names, and the refusal that it leads to.
pub const MISNAMED: [(&str, u32); 3] = [
    ("a name changed between vertices of one abscissa", 11),
    ("a name changed at W", 11),
    ("zones in a circle", 13),
];

/// A sheet with nothing wrong but names: what is at this place of `MISNAMED`.
pub fn misnamed(r: &mut Random, what: usize) -> Sheet {
    loop {
        let (mut d, mut zone) = drawn(r);
        let done = (0..40).any(|_| match what {
            0 => change_name_at_abscissa(r, &mut d, &mut zone),
            1 => change_name_at_margin(r, &mut d, &mut zone),
            _ => close_circle(r, &mut d, &mut zone),
        });
        if done {
            return numbered(r, &d, &zone);
        }
    }
}

/// Records or zones more than there may be, none of the zones, or a table that is not whole records.
fn break_counts(r: &mut Random, s: &mut Sheet) {
    match r.below(128) {
        0..=31 => s.vertices.push(r.one(&[0, 1, i32::MAX])),
        32..=63 => (0..=r.below(3)).for_each(|_| s.edges.push(0)),
        64..=71 => s.edges.truncate(s.edges.len().saturating_sub(1)),
        72..=126 => s.zones = r.one(&[0, LIMITS.zones + 1, u32::MAX]),
        _ => pad(r, s, 1),
    }
}

/// Fills one table up to its limit and so many records more.
fn pad(r: &mut Random, s: &mut Sheet, more: usize) {
    if r.below(2) == 0 {
        let x = s.west;
        (s.vertices.len() / 2..LIMITS.vertices + more).for_each(|v| s.vertices.extend_from_slice(&[x, v as i32 - 500]));
    } else {
        (s.edges.len() / 4..LIMITS.edges + more).for_each(|_| s.edges.extend_from_slice(&[0, 1, 0, 1]));
    }
}

/// A count, a table or a margin at a limit, which may stand and leads to other faults.
fn go_to_limits(r: &mut Random, s: &mut Sheet) {
    match r.below(256) {
        0..=49 => s.zones = r.one(&[1, 2, EARLIER.zones, EARLIER.zones + 1, LIMITS.zones]),
        50..=74 => s.vertices.clear(),
        75..=99 => s.edges.clear(),
        100..=124 => (s.vertices, s.edges) = (vec![], vec![]),
        125..=174 => s.west = r.one(&[-LIMITS.reach, -EARLIER.reach, -EARLIER.reach - 1]),
        175..=224 => s.east = r.one(&[LIMITS.reach, EARLIER.reach, EARLIER.reach + 1]),
        225..=254 if !s.vertices.is_empty() => {
            let at = r.below(s.vertices.len() as u64) as usize;
            s.vertices[at] = r.one(&[1, -1]) * r.one(&[LIMITS.reach, EARLIER.reach, EARLIER.reach + 1]);
        }
        _ => pad(r, s, 0),
    }
}

/// Margins out of range, on one abscissa or in the wrong order.
fn break_margins(r: &mut Random, s: &mut Sheet) {
    match r.below(6) {
        0 => s.west = r.one(&[-PAST, i32::MIN]),
        1 => s.east = r.one(&[PAST, i32::MAX]),
        2 => s.west = s.east,
        3 => s.east = s.west.saturating_sub(1),
        4 => (s.west, s.east) = (s.east, s.west),
        _ => (s.west, s.east) = r.one(&[(PAST - 1, PAST), (-PAST, 1 - PAST), (i32::MIN, i32::MAX)]),
    }
}

/// A vertex out of range or outside the margins, one or all on a margin.
fn move_outside(r: &mut Random, s: &mut Sheet) {
    let v = record(r, s.vertices.len(), 2);
    match r.below(8) {
        0 => s.vertices[v] = s.west.saturating_sub(1),
        1 => s.vertices[v] = s.east.saturating_add(1),
        2 if s.west + 1 < s.east => s.west += 1,
        3 if s.west + 1 < s.east => s.east -= 1,
        _ => s.vertices[v + r.below(2) as usize] = r.one(&[-PAST, PAST, i32::MIN, i32::MAX]),
    }
}

/// A vertex that equals another, in its place or as one more.
fn repeat_vertex(r: &mut Random, s: &mut Sheet) {
    let (u, v) = (record(r, s.vertices.len(), 2), record(r, s.vertices.len(), 2));
    let point = [s.vertices[u], s.vertices[u + 1]];
    match r.below(2) {
        0 => s.vertices[v..v + 2].copy_from_slice(&point),
        _ => s.vertices.extend_from_slice(&point),
    }
}

/// An edge that names a vertex or a zone that is not there.
fn name_missing(r: &mut Random, s: &mut Sheet) {
    let (at, vertices) = (r.below(s.edges.len() as u64) as usize, s.vertices.len() as u32 / 2);
    let first = if at % 4 < 2 { vertices } else { s.zones };
    match r.below(6) {
        0 if s.zones > 1 => s.zones -= 1,
        1 => s.vertices.truncate(s.vertices.len().saturating_sub(2)),
        _ => s.edges[at] = r.one(&[first, first.saturating_add(1), u32::MAX]),
    }
}

/// An edge that does not run strictly west to east: turned round, from a vertex to itself, or upright.
fn turn_edge(r: &mut Random, s: &mut Sheet) {
    let e = record(r, s.edges.len(), 4);
    let (west, east) = (2 * s.edges[e] as usize, 2 * s.edges[e + 1] as usize);
    match r.below(4) {
        0 => s.edges.swap(e, e + 1),
        1 => s.edges[e] = s.edges[e + 1],
        2 => s.edges[e + 1] = s.edges[e],
        _ => s.vertices[west] = s.vertices[east],
    }
}

/// An edge with one zone on both sides.
fn take_one_zone(r: &mut Random, s: &mut Sheet) {
    let (e, from) = (record(r, s.edges.len(), 4), r.below(2) as usize);
    s.edges[e + 2 + from] = s.edges[e + 3 - from];
}

/// A vertex that lacks an edge on its west or its east: edges rubbed out, one more vertex, or a margin moved away.
fn make_irregular(r: &mut Random, s: &mut Sheet) {
    let v = record(r, s.vertices.len(), 2) as u32 / 2;
    match r.below(5) {
        0 => s.west = (s.west - 1).max(-LIMITS.reach),
        1 => s.east = (s.east + 1).min(LIMITS.reach),
        2 => {
            let (x, y) = (r.between(s.west as i64, s.east as i64), r.between(-7, 7));
            s.vertices.extend_from_slice(&[x as i32, y as i32]);
        }
        _ => {
            let end = r.below(2) as usize;
            s.edges = s.edges.chunks_exact(4).filter(|e| e[end] != v).flatten().copied().collect();
        }
    }
}

/// Edges that share more than a common end: one drawn twice, across or to another vertex, or a vertex moved onto an edge, past
/// one, or exchanged with another on its abscissa.
fn cross_edges(r: &mut Random, s: &mut Sheet) {
    let (u, v, e) = (record(r, s.vertices.len(), 2), record(r, s.vertices.len(), 2), record(r, s.edges.len(), 4));
    let [west, east, above, below] = [0, 1, 2, 3].map(|word| s.edges[e + word]);
    match r.below(6) {
        0 => s.edges.extend_from_slice(&[west, east, above, below]),
        1 => {
            let (u, v) = if s.vertices[u] < s.vertices[v] { (u, v) } else { (v, u) };
            s.edges.extend_from_slice(&[u as u32 / 2, v as u32 / 2, above, below]);
        }
        2 => {
            let end = (s.vertices[v] > s.vertices[2 * west as usize]) as usize;
            s.edges[e + end] = v as u32 / 2;
        }
        3 => {
            let middle = |word: usize| (s.vertices[2 * west as usize + word] + s.vertices[2 * east as usize + word]) / 2;
            let point = [middle(0), middle(1)];
            s.vertices[v..v + 2].copy_from_slice(&point);
        }
        4 => s.vertices[v + 1] = (s.vertices[v + 1] + r.between(-9, 9) as i32).clamp(-LIMITS.reach, LIMITS.reach),
        _ => {
            let beside = (0..s.vertices.len()).step_by(2).find(|&w| w != v && s.vertices[w] == s.vertices[v]);
            s.vertices.swap(v + 1, beside.unwrap_or(u) + 1);
        }
    }
}

/// A name that does not agree with the next: one changed, two exchanged across an edge, or those of two edges.
fn change_name(r: &mut Random, s: &mut Sheet) {
    let (e, f) = (record(r, s.edges.len(), 4), record(r, s.edges.len(), 4));
    match r.below(4) {
        0 => s.edges.swap(e + 2, e + 3),
        1 => (2..4).for_each(|word| s.edges.swap(e + word, f + word)),
        _ => s.edges[e + 2 + r.below(2) as usize] = r.below(s.zones as u64) as u32,
    }
}

/// One or two zones more, the last or one in between never named.
fn leave_unnamed(r: &mut Random, s: &mut Sheet) {
    for _ in 0..=r.below(2) {
        let zone = r.below(s.zones as u64 + 1) as u32;
        let last = s.zones;
        s.edges.chunks_exact_mut(4).flat_map(|e| &mut e[2..]).filter(|z| **z == zone).for_each(|z| *z = last);
        s.zones += 1;
    }
}

/// Two zones made one that have a third between them from bottom to top; the last zone takes the number that is left.
fn join_zones(r: &mut Random, s: &mut Sheet) {
    let e = record(r, s.edges.len(), 4);
    let (middle, a, last) = (s.edges[e + 2], s.edges[e + 3], s.zones - 1);
    let over = |f: &&[u32]| f[3] == middle && f[2] != a;
    let Some(b) = s.edges.chunks_exact(4).find(over).map(|f| f[2]) else { return };
    let joined = |z: u32| if z == b { a } else { z };
    let renumbered = |z: u32| if joined(z) == last { b } else { joined(z) };
    s.edges.chunks_exact_mut(4).flat_map(|f| &mut f[2..]).for_each(|z| *z = renumbered(*z));
    s.zones = last;
}

/// Makes one thing wrong, aimed at the refusal of this number; at 0 something goes to its limit.
fn make(r: &mut Random, s: &mut Sheet, number: u32) {
    let drawn = s.vertices.len() > 1 && s.edges.len() > 3;
    match number {
        1 => break_counts(r, s),
        2 => break_margins(r, s),
        4 if drawn => move_outside(r, s),
        5 if drawn => repeat_vertex(r, s),
        6 if drawn => name_missing(r, s),
        7 if drawn => turn_edge(r, s),
        8 if drawn => take_one_zone(r, s),
        9 if drawn => make_irregular(r, s),
        10 if drawn => cross_edges(r, s),
        11 if drawn => change_name(r, s),
        12 => leave_unnamed(r, s),
        13 if drawn => join_zones(r, s),
        _ => go_to_limits(r, s),
    }
}

/// A sheet with one to three things wrong out of those aimed at these refusals, at times one more of the same; what needs
/// sound tables is done first.
pub fn faulty(r: &mut Random, s: &Sheet, refusals: &[u32]) -> Sheet {
    let mut bad = s.clone();
    let mut numbers: Vec<u32> = (0..=r.below(3)).map(|_| r.one(refusals)).collect();
    if r.below(4) == 0 {
        numbers.push(numbers[0]);
    }
    numbers.sort_unstable();
    numbers.iter().rev().for_each(|&number| make(r, &mut bad, number));
    bad
}
