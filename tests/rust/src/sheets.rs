//! Generators of accepted sheets, and of points on them and near.
use crate::drawings::{self, columned, shuffled, triangulated, zones, Drawing, Frame};
use crate::paper::{EARLIER, LIMITS};
pub use crate::sheet::Sheet;
use crate::Random;

/// The sheet of a drawing with a zone for each face; vertices, edges and zones are numbered at random.
pub fn numbered(r: &mut Random, d: &Drawing, zone: &[usize]) -> Sheet {
    let mut names = zone.to_vec();
    names.sort_unstable();
    names.dedup();
    let (vertex, edge, number) = (shuffled(r, d.points.len()), shuffled(r, d.edges.len()), shuffled(r, names.len()));
    let named = |face: usize| number[names.binary_search(&zone[face]).expect("a name that is there")] as u32;
    let abscissas = || d.points.iter().map(|p| p.0 as i32);
    let (west, east) = (abscissas().min().expect("a point"), abscissas().max().expect("a point"));
    let (vertices, edges) = (vec![0; 2 * d.points.len()], vec![0; 4 * d.edges.len()]);
    let mut s = Sheet { west, east, zones: names.len() as u32, vertices, edges };
    for (v, p) in d.points.iter().enumerate() {
        s.vertices[2 * vertex[v]..][..2].copy_from_slice(&[p.0 as i32, p.1 as i32]);
    }
    for (e, &[u, v, above, below]) in d.edges.iter().enumerate() {
        s.edges[4 * edge[e]..][..4].copy_from_slice(&[vertex[u] as u32, vertex[v] as u32, named(above), named(below)]);
    }
    s
}

/// How far from 0 something may lie: as far as the limits allow, or as far as they did before P5.
fn reach(r: &mut Random) -> i64 {
    r.one(&[EARLIER.reach, LIMITS.reach]).into()
}

/// A triangulation with edges cut in two, no further than so far from 0: so many points (from about `surplus` to twice `surplus` + 6),
/// and so many more edges.
fn triangles(r: &mut Random, reach: i64, vertices: usize, surplus: usize) -> Drawing {
    loop {
        let Some(mut d) = triangulated(r, reach, surplus) else { continue };
        d.cut(r, vertices);
        if d.points.len() == vertices {
            return d;
        }
    }
}

/// Where a random drawing may lie: one unit wide, at the limits of the range, or small.
fn frame(r: &mut Random) -> Frame {
    let (far, tall) = (reach(r), reach(r));
    let (west, east) = match r.below(8) {
        0 => r.one(&[(-far, 1 - far), (far - 1, far), (0, 1), (-1, 0)]),
        1 => (-far, far),
        2 => r.one(&[(-far, 9 - far), (far - 9, far)]),
        3 => (r.between(-far, 0), r.between(1, far)),
        _ => (r.between(-12, 0), r.between(1, 12)),
    };
    let (low, high) = match r.below(6) {
        0 => (-tall, tall),
        1 => r.one(&[(-tall, 20 - tall), (tall - 20, tall)]),
        2 => (r.between(-tall, 0), r.between(1, tall)),
        _ => (r.between(-20, 0), r.between(1, 20)),
    };
    Frame { west, east, low, high }
}

/// A random drawing with a zone for each face, often one zone for several, so that the sheet of it is accepted.
pub fn drawn(r: &mut Random) -> (Drawing, Vec<usize>) {
    let d = match r.below(8) {
        0 => {
            let (reach, surplus) = (reach(r), r.below(24) as usize);
            let vertices = surplus + 3 + r.below(surplus as u64 + 1) as usize;
            triangles(r, reach, vertices, surplus)
        }
        _ => {
            let (frame, wide, tall) = (frame(r), 2 + r.below(10) as usize, 1 + r.below(12));
            columned(r, frame, wide, tall)
        }
    };
    let tries = r.one(&[0, 30, 100, 300]);
    let zone = zones(r, &d, 2, tries);
    (d, zone)
}

/// A random accepted sheet with some tens of vertices, one time in 64 with none.
pub fn any(r: &mut Random) -> Sheet {
    if r.below(64) == 0 {
        return blank();
    }
    let (d, zone) = drawn(r);
    numbered(r, &d, &zone)
}

/// A random accepted sheet so small that all its whole points can be gone through, often at a limit of the range, where one unit is left
/// above and below it.
pub fn tiny(r: &mut Random) -> Sheet {
    let far = i64::from(LIMITS.reach);
    let (x, y) = (r.one(&[0, 0, 5 - far, far - 5]), r.one(&[0, 0, 7 - far, far - 7]));
    let frame = Frame { west: x - r.between(0, 5), east: x + r.between(1, 5), low: y - r.between(1, 6), high: y + r.between(1, 6) };
    let (wide, tall, tries) = (2 + r.below(9) as usize, 1 + r.below(8), r.one(&[0, 40, 200]));
    let d = columned(r, frame, wide, tall);
    let zone = zones(r, &d, 2, tries);
    numbered(r, &d, &zone)
}

/// An accepted sheet no further than so far from 0, with so many vertices (from about `surplus` to twice `surplus` + 6), so many more
/// edges than vertices, and at most so many zones, in several pieces where there are more pieces than that.
pub fn accepted(r: &mut Random, reach: i32, vertices: usize, surplus: usize, zones: usize) -> Sheet {
    let d = triangles(r, reach.into(), vertices, surplus);
    let zone = drawings::zones(r, &d, zones, 10_000);
    numbered(r, &d, &zone)
}

/// An accepted sheet with so many vertices, twice as many edges and at most as many zones, more than half as wide and as tall as can be.
pub fn spread(r: &mut Random, reach: i32, vertices: usize) -> Sheet {
    loop {
        let s = accepted(r, reach, vertices, vertices, vertices);
        let heights = || s.vertices.iter().skip(1).step_by(2);
        if s.east - s.west > reach && heights().max().expect("a vertex") - heights().min().expect("a vertex") > reach {
            return s;
        }
    }
}

/// A sheet at every limit of the counts: 4,096 vertices, 8,192 edges, 4,096 zones.
pub fn largest(r: &mut Random) -> Sheet {
    accepted(r, LIMITS.reach, LIMITS.vertices, LIMITS.edges - LIMITS.vertices, LIMITS.zones as usize)
}

/// A sheet of so many columns with so many vertices each, some zones in several pieces where that can be.
pub fn woven(r: &mut Random, wide: usize, tall: usize) -> Sheet {
    let d = drawings::woven(r, wide, tall);
    let zone = zones(r, &d, 2, 40);
    numbered(r, &d, &zone)
}

/// The largest fan that the limits allow: 4,095 edges.
pub fn largest_fan() -> Sheet {
    fan(LIMITS.zones)
}

/// One vertex on W with edges to vertices on E, one fewer than so many zones.
pub fn fan(zones: u32) -> Sheet {
    let mut s = Sheet { west: 0, east: 1000, zones, vertices: vec![0, 0], edges: vec![] };
    for k in 0..zones - 1 {
        s.vertices.extend_from_slice(&[1000, 3 * k as i32]);
        s.edges.extend_from_slice(&[0, k + 1, k + 1, k]);
    }
    s
}

/// Two fans of chains that meet between the margins, with these zones from bottom to top in the western one and in the eastern one; both
/// lists begin with the same zone and end with the same one.
pub fn two_fans(western: &[u32], eastern: &[u32]) -> Sheet {
    let mut s = Sheet { west: 0, east: 4_000, zones: 0, vertices: vec![0, 0, 2_000, 0, 4_000, 0], edges: vec![] };
    s.zones = 1 + western.iter().chain(eastern).max().expect("a zone");
    for (from, x, list) in [(0, 1_000, western), (1, 3_000, eastern)] {
        for (k, pair) in list.windows(2).enumerate() {
            let v = s.vertices.len() as u32 / 2;
            s.vertices.extend_from_slice(&[x, 3 * k as i32 - list.len() as i32]);
            s.edges.extend_from_slice(&[from, v, pair[1], pair[0], v, from + 1, pair[1], pair[0]]);
        }
    }
    s
}

/// Two fans of some of the same zones in any order, numbered at random: circles of all lengths, one or several, and zones above, below
/// and between them.
pub fn circling(r: &mut Random) -> Sheet {
    let n = 2 + r.below(14) as usize;
    let number: Vec<u32> = shuffled(r, n).iter().map(|&z| z as u32).collect();
    let (mut western, mut eastern) = (vec![], vec![]);
    for &z in &number[1..n - 1] {
        let side = r.below(4);
        if side != 0 {
            western.push(z);
        }
        if side != 1 {
            eastern.push(z);
        }
    }
    for _ in 0..r.one(&[1, 2, 4, 40]) {
        if eastern.len() > 1 {
            let at = r.below(eastern.len() as u64 - 1) as usize;
            eastern.swap(at, at + 1);
        }
    }
    let between = |list: Vec<u32>| [vec![number[0]], list, vec![number[n - 1]]].concat();
    two_fans(&between(western), &between(eastern))
}

/// As many zones as so many vertices allow, each above the one before it, and a circle of the two with the highest numbers above them all
/// but one: from every zone below, the look for circles goes through every zone above it.
pub fn circle_at_the_top(vertices: u32) -> Sheet {
    let n = vertices - 5;
    at_the_top(n, &[0, n - 1, n - 2, n - 3])
}

/// The same edges with the two zones of the circle exchanged in the eastern fan, so that there is none.
pub fn circle_undone(vertices: u32) -> Sheet {
    let n = vertices - 5;
    at_the_top(n, &[0, n - 2, n - 1, n - 3])
}

/// The zones below n from bottom to top in a western fan, but n - 3 above the last two, and these in an eastern one.
fn at_the_top(n: u32, eastern: &[u32]) -> Sheet {
    let western: Vec<u32> = (0..n - 3).chain([n - 2, n - 1, n - 3]).collect();
    two_fans(&western, eastern)
}

/// The circle of document 01: two lenses with zone 3 above and zone 0 below, the left one with zone 2 over zone 1, the right one with
/// zone 1 over zone 2.
pub fn circle() -> Sheet {
    let vertices = vec![0, 0, 2, 0, 4, 0, 1, 1, 1, -1, 3, 1, 3, -1];
    let left = [0, 3, 3, 2, 3, 1, 3, 2, 0, 4, 1, 0, 4, 1, 1, 0, 0, 1, 2, 1];
    let right = [1, 5, 3, 1, 5, 2, 3, 1, 1, 6, 2, 0, 6, 2, 2, 0, 1, 2, 1, 2];
    Sheet { west: 0, east: 4, zones: 4, vertices, edges: [left, right].concat() }
}

/// The lens sheet of document 01.
pub fn lens() -> Sheet {
    let (vertices, edges) = (vec![0, 0, 2, 2, 2, -2, 4, 0], vec![0, 1, 2, 1, 1, 3, 2, 1, 0, 2, 1, 0, 2, 3, 1, 0]);
    Sheet { west: 0, east: 4, zones: 3, vertices, edges }
}

/// The sheet that rule 6 excepts: one zone, nothing drawn.
pub fn blank() -> Sheet {
    Sheet { west: -7, east: 9, zones: 1, ..Sheet::default() }
}

/// The greatest number that divides both a and b.
fn divisor(a: i64, b: i64) -> i64 {
    if b == 0 { a.abs() } else { divisor(b, a % b) }
}

/// A whole point of a random edge whose ends exist, between them where there is one.
fn on_edge(r: &mut Random, s: &Sheet) -> (i64, i64) {
    let e = 4 * r.below(s.edges.len() as u64 / 4) as usize;
    let end = |v: u32| (s.vertices[2 * v as usize] as i64, s.vertices[2 * v as usize + 1] as i64);
    let (a, b) = (end(s.edges[e]), end(s.edges[e + 1]));
    let parts = divisor(b.0 - a.0, b.1 - a.1).max(1);
    let step = if parts > 1 { r.between(1, parts - 1) } else { 0 };
    (a.0 + (b.0 - a.0) / parts * step, a.1 + (b.1 - a.1) / parts * step)
}

/// A point at or near a vertex, on an edge, at a margin, at the limits of the heights, or anywhere.
pub fn point(r: &mut Random, s: &Sheet) -> (i32, i32) {
    let (west, east) = (s.west as i64, s.east as i64);
    let vertices = s.vertices.chunks_exact(2).len() as u64;
    let v = if vertices > 0 { 2 * r.below(vertices) as usize } else { 0 };
    let (x, y) = if vertices > 0 { (s.vertices[v] as i64, s.vertices[v + 1] as i64) } else { (west, 0) };
    let (anywhere, far) = (r.between(west.min(east), west.max(east)), reach(r));
    let (x, y) = match r.below(8) {
        0 => (x, y),
        1 | 2 => (x + r.between(-1, 1), y + r.between(-1, 1)),
        3 if !s.edges.is_empty() => on_edge(r, s),
        4 => (r.one(&[west, east]), y + r.between(-1, 1)),
        5 => (x, r.between(-far, far)),
        6 => (anywhere, y + r.between(-2, 2)),
        _ => (anywhere, if r.below(3) > 0 { r.one(&[-far, far]) } else { r.between(-far, far) }),
    };
    (x.clamp(i32::MIN as i64, i32::MAX as i64) as i32, y.clamp(i32::MIN as i64, i32::MAX as i64) as i32)
}

/// A random point of an accepted sheet, moved to where the calls answer it.
pub fn inside(r: &mut Random, s: &Sheet) -> (i32, i32) {
    let (x, y) = point(r, s);
    (x.clamp(s.west, s.east), y.clamp(-LIMITS.reach, LIMITS.reach))
}

/// A random point off the sheet: beside a margin, or past the heights allowed.
pub fn outside(r: &mut Random, s: &Sheet) -> (i32, i32) {
    let (x, y) = point(r, s);
    match r.below(3) {
        0 => (r.one(&[s.west.saturating_sub(1), i32::MIN]), y),
        1 => (r.one(&[s.east.saturating_add(1), i32::MAX]), y),
        _ => (x, r.one(&[-LIMITS.reach - 1, LIMITS.reach + 1, i32::MIN, i32::MAX])),
    }
}
