//! Sheets whose edges run over nearly the whole width that there may be, and the whole points on an edge and nearest to it.
use crate::drawings::{columned, Frame, Point};
use crate::paper::LIMITS;
use crate::sheets::{numbered, Sheet};
use crate::Random;

/// An accepted sheet from next to the lowest abscissa to next to the highest one, with few columns: some of its edges reach from margin to
/// margin; its heights are close together, as far apart as there may be, or any.
pub fn sheet(r: &mut Random) -> Sheet {
    let far = i64::from(LIMITS.reach);
    let (west, east) = (r.between(-far, 9 - far), r.between(far - 9, far));
    let (low, high) = match r.below(4) {
        0 => {
            let low = r.between(-far, far - 20);
            (low, low + r.between(1, 20))
        }
        1 => (r.between(-far, 0), r.between(1, far)),
        _ => (-far, far),
    };
    let (wide, tall) = (2 + r.below(4) as usize, 2 + r.below(6));
    let d = columned(r, Frame { west, east, low, high }, wide, tall);
    numbered(r, &d, &(0..d.faces).collect::<Vec<_>>())
}

/// The western and the eastern end of an edge.
pub fn ends(s: &Sheet, e: usize) -> (Point, Point) {
    let end = |v: u32| (s.vertices[2 * v as usize].into(), s.vertices[2 * v as usize + 1].into());
    (end(s.edges[4 * e]), end(s.edges[4 * e + 1]))
}

/// The greatest number that divides a and b, and how often a and b are taken to make it; a is above 0.
fn divisor(a: i64, b: i64) -> (i64, i64, i64) {
    if b == 0 {
        return (a, 1, 0);
    }
    let (g, p, q) = divisor(b.abs(), a % b.abs());
    (g, q, (p - a / b.abs() * q) * b.signum())
}

/// A whole point beside an edge at which the formula of its side is k times the least that it can be: on the edge for 0, as near to it as a
/// whole point can be for 1 and -1.
fn beside(r: &mut Random, (a, b): (Point, Point), k: i64) -> Point {
    let (dx, dy) = (b.0 - a.0, b.1 - a.1);
    let (g, _, q) = divisor(dx, dy);
    let x = (-k * q).rem_euclid(dx / g) + dx / g * r.below(g as u64) as i64;
    (a.0 + x, a.1 + (k * g + dy * x) / dx)
}

/// The whole heights next to an edge at an abscissa of it: its own where that is whole, and the next below and above.
fn heights(r: &mut Random, (a, b): (Point, Point)) -> [Point; 3] {
    let x = match r.below(4) {
        0 => r.one(&[a.0, a.0 + 1, b.0 - 1, b.0]),
        _ => r.between(a.0, b.0),
    };
    let y = a.1 + ((b.1 - a.1) * (x - a.0)).div_euclid(b.0 - a.0);
    [-1, 0, 1].map(|one| (x, y + one))
}

/// Points of the sheet on an edge and nearest to it: whole points of it and those beside them, the nearest whole points on both sides, and
/// the whole heights next to it.
pub fn points(r: &mut Random, s: &Sheet, e: usize) -> Vec<(i32, i32)> {
    let edge = ends(s, e);
    let (x, y) = beside(r, edge, 0);
    let mut list = vec![edge.0, edge.1, (x, y), (x - 1, y), (x + 1, y), (x, y - 1), (x, y + 1)];
    list.extend([-2, -1, 1, 2].map(|k| beside(r, edge, k)));
    list.extend(heights(r, edge));
    list.extend(heights(r, edge));
    let far = i64::from(LIMITS.reach);
    list.retain(|p| i64::from(s.west) <= p.0 && p.0 <= s.east.into() && p.1.abs() <= far);
    list.iter().map(|p| (p.0 as i32, p.1 as i32)).collect()
}
