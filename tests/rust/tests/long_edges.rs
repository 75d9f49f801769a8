//! Points on edges that run over the whole width and points one unit off them: the plain reading, the quick search and the side test, held
//! to an exact computation in 128 bits. The same points are too hard for doubles and for products of 32 bits.
use std::cmp::Ordering;
use thawweasel_tests::{long, open, paper, read, search, side, sheets::Sheet, Random, Trials};

/// An edge with its record and its ends.
struct Edge {
    zones: [u32; 2],
    xw: i128,
    yw: i128,
    xe: i128,
    ye: i128,
}

impl Edge {
    /// The edge of a number.
    fn of(s: &Sheet, e: usize) -> Self {
        let ((xw, yw), (xe, ye)) = long::ends(s, e);
        Edge { zones: [s.edges[4 * e + 2], s.edges[4 * e + 3]], xw: xw.into(), yw: yw.into(), xe: xe.into(), ye: ye.into() }
    }

    /// The number whose sign is the side of a point: (xe-xw)(y-yw) - (ye-yw)(x-xw).
    fn formula(&self, x: i128, y: i128) -> i128 {
        (self.xe - self.xw) * (y - self.yw) - (self.ye - self.yw) * (x - self.xw)
    }

    /// The order of the heights of two edges on the line half / 2, both fractions multiplied out.
    fn compare(&self, other: &Edge, half: i128) -> Ordering {
        let height = |g: &Edge| 2 * g.yw * (g.xe - g.xw) + (g.ye - g.yw) * (half - 2 * g.xw);
        (height(self) * (other.xe - other.xw)).cmp(&(height(other) * (self.xe - self.xw)))
    }
}

/// The kind, number and item of the answer at a point of an accepted sheet, each zone of which is in one piece.
fn exact(s: &Sheet, edges: &[Edge], (px, py): (i32, i32)) -> [u32; 3] {
    let (x, y, east) = (i128::from(px), i128::from(py), i128::from(s.east));
    if let Some(v) = s.vertices.chunks(2).position(|v| v == [px, py]) {
        return [1, v as u32, 0];
    }
    if let Some(e) = edges.iter().position(|g| g.xw < x && x < g.xe && g.formula(x, y) == 0) {
        return [2, e as u32, 0];
    }
    let covers = |g: &&Edge| g.xw <= x && x < g.xe || x == east && g.xe == east;
    let half = if x == east { 2 * x - 1 } else { 2 * x + 1 };
    let under = edges.iter().filter(covers).filter(|g| g.formula(x, y) > 0).max_by(|g, h| g.compare(h, half));
    let lowest = || (0..s.zones).find(|&z| edges.iter().all(|g| g.zones[0] != z)).expect("a lowest zone");
    [3, under.map_or_else(lowest, |g| g.zones[0]), 0]
}

/// The side by the same formula in doubles.
fn side_in_doubles(g: &Edge, (x, y): (i32, i32)) -> i32 {
    let [xw, yw, xe, ye] = [g.xw, g.yw, g.xe, g.ye].map(|c| c as f64);
    let number = (xe - xw) * (f64::from(y) - yw) - (ye - yw) * (f64::from(x) - xw);
    (number > 0.0) as i32 - (number < 0.0) as i32
}

/// The side by the same two products, compared in 32 bits that wrap.
fn side_in_32_bits(g: &Edge, (x, y): (i32, i32)) -> i32 {
    let [xw, yw, xe, ye] = [g.xw, g.yw, g.xe, g.ye].map(|c| c as i32);
    (xe - xw).wrapping_mul(y - yw).cmp(&(ye - yw).wrapping_mul(x - xw)) as i32
}

/// How often each case came: points by their side of the edge that they are aimed at, and the nearest of them; edges; points at which other
/// arithmetic has the side wrong.
#[derive(Default)]
struct Came {
    sides: [usize; 3],
    nearest: usize,
    inner: usize,
    across: usize,
    steep: usize,
    flat: usize,
    doubles: usize,
    words: usize,
}

/// Tests the side of a point that lies between the ends of an edge.
fn compare_side(s: &Sheet, e: usize, g: &Edge, p: (i32, i32), came: &mut Came) {
    let (x, y) = (i128::from(p.0), i128::from(p.1));
    if x < g.xw || g.xe < x {
        return;
    }
    let (number, sign) = (g.formula(x, y), g.formula(x, y).signum() as i32);
    assert_eq!(side(&s.vertices, &s.edges, e as u32, p.0, p.1), sign, "{p:?} at edge {e} of {s:?}");
    came.sides[(sign + 1) as usize] += 1;
    came.nearest += (number.abs() == 1) as usize;
    came.inner += (number == 0 && g.xw < x && x < g.xe) as usize;
    came.doubles += (side_in_doubles(g, p) != sign) as usize;
    came.words += (side_in_32_bits(g, p) != sign) as usize;
}

/// Reads a point and searches for it.
fn compare_answers(s: &Sheet, index: &[u32], edges: &[Edge], p: (i32, i32)) {
    let expected = exact(s, edges, p);
    assert_eq!(read(s, p.0, p.1), expected, "reading {p:?} of {s:?}");
    let mut trail = vec![0; paper::bits(s.zones - 1) as usize];
    assert_eq!(search(s, index, p.0, p.1, &mut trail)[..3], expected, "searching {p:?} of {s:?}");
}

/// Counts an edge by its length and its slope.
fn count_edge(s: &Sheet, g: &Edge, came: &mut Came) {
    let (width, rise) = (g.xe - g.xw, (g.ye - g.yw).abs());
    came.across += (g.xw == s.west.into() && g.xe == s.east.into()) as usize;
    came.steep += (rise > width / 2) as usize;
    came.flat += (rise <= 20) as usize;
}

#[test]
fn points_on_long_edges_and_one_unit_off_are_told_apart() {
    let (mut r, trials) = (Random::new("long edges", 51), Trials::new(400));
    let (mut came, mut points) = (Came::default(), 0);
    for _ in 0..trials.count {
        let s = long::sheet(&mut r);
        let mut index = vec![0; s.need()];
        assert_eq!(open(&s, &mut index), [0, 0], "{s:?}");
        let edges: Vec<Edge> = (0..s.edges.len() / 4).map(|e| Edge::of(&s, e)).collect();
        for (e, g) in edges.iter().enumerate().take(8) {
            count_edge(&s, g, &mut came);
            for p in long::points(&mut r, &s, e) {
                compare_side(&s, e, g, p, &mut came);
                compare_answers(&s, &index, &edges, p);
                points += 1;
            }
        }
    }
    println!("long edges: {points} points, the side wrong in doubles at {} and in 32 bits at {}", came.doubles, came.words);
    trials.enough(&[("below", came.sides[0]), ("on", came.sides[1]), ("above", came.sides[2]), ("on, between the ends", came.inner)]);
    trials.enough(&[("nearest", came.nearest), ("edges across", came.across), ("steep edges", came.steep), ("flat edges", came.flat)]);
    if trials.are_enough() {
        assert!(came.doubles >= 1_000, "the points are too easy for doubles: {} wrong", came.doubles);
        assert!(came.words >= 1_000, "the points are too easy for 32 bits: {} wrong", came.words);
    }
}

#[test]
fn the_nearest_miss_of_the_longest_edge() {
    let far = 1_000_000_000;
    let s = Sheet { west: -far, east: far, zones: 2, vertices: vec![-far, -far, far, far - 1], edges: vec![0, 1, 1, 0] };
    let mut index = vec![0; s.need()];
    assert_eq!(open(&s, &mut index), [0, 0]);
    let g = Edge::of(&s, 0);
    for (p, answer) in [((-far, -far), [1, 0, 0]), ((far, far - 1), [1, 1, 0]), ((0, 0), [3, 1, 0]), ((0, -1), [3, 0, 0])] {
        assert_eq!(exact(&s, std::slice::from_ref(&g), p), answer);
        compare_answers(&s, &index, std::slice::from_ref(&g), p);
    }
    let (above, below) = ((1 - far, 1 - far), (far - 1, far - 2));
    assert_eq!([above, below].map(|p| g.formula(p.0.into(), p.1.into())), [1, -1]);
    assert_eq!([above, below].map(|p| read(&s, p.0, p.1)), [[3, 1, 0], [3, 0, 0]]);
    assert_eq!(side_in_doubles(&g, below), 0, "doubles have the point below on the edge");
}
