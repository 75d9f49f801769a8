//! Drawings: points, the edges between them, and the faces above and below each edge; as triangulations, by columns, and woven.
use crate::paper::LIMITS;
use crate::Random;

/// A point by its abscissa and its height.
pub type Point = (i64, i64);

/// Edges between numbered points: western point, eastern point, face above, face below.
#[derive(Clone, Default)]
pub struct Drawing {
    pub points: Vec<Point>,
    pub edges: Vec<[usize; 4]>,
    pub faces: usize,
}

/// The abscissas and the heights between which a drawing lies, both ends allowed.
#[derive(Clone, Copy)]
pub struct Frame {
    pub west: i64,
    pub east: i64,
    pub low: i64,
    pub high: i64,
}

/// The numbers below n in random order.
pub fn shuffled(r: &mut Random, n: usize) -> Vec<usize> {
    let mut order: Vec<usize> = (0..n).collect();
    (1..n).rev().for_each(|i| order.swap(i, r.below(i as u64 + 1) as usize));
    order
}

/// Twice the area of a, b, c: above 0 where c is above the line from a to b, and a is west of b.
fn area(a: Point, b: Point, c: Point) -> i64 {
    (b.0 - a.0) * (c.1 - a.1) - (b.1 - a.1) * (c.0 - a.0)
}

impl Drawing {
    /// The western and the eastern end of an edge.
    fn ends(&self, e: usize) -> (Point, Point) {
        (self.points[self.edges[e][0]], self.points[self.edges[e][1]])
    }

    /// The abscissas of the points, each once, from west to east.
    fn abscissas(&self) -> Vec<i64> {
        let mut list: Vec<i64> = self.points.iter().map(|p| p.0).collect();
        list.sort_unstable();
        list.dedup();
        list
    }

    /// Joins point p, which edge `first` joins already, to the chain of outermost edges over or under the drawing, as far
    /// as it sees them: each edge that it sees closes a triangle.
    fn join(&mut self, chain: &mut Vec<usize>, p: usize, first: usize, over: bool) {
        let (outer, inner, up) = if over { (2, 3, 1) } else { (3, 2, -1) };
        let mut last = first;
        while let Some(&e) = chain.last() {
            let [u, v, ..] = self.edges[e];
            if up * area(self.points[u], self.points[v], self.points[p]) <= 0 {
                break;
            }
            let triangle = self.faces;
            self.faces += 1;
            (self.edges[e][outer], self.edges[last][outer]) = (triangle, triangle);
            chain.pop();
            last = self.edges.len();
            let mut next = [u, p, 1, 0];
            next[inner] = triangle;
            self.edges.push(next);
        }
        chain.push(last);
    }

    /// Cuts edges in two at their middle point, each at most once, until there are so many points or no edge is left.
    pub fn cut(&mut self, r: &mut Random, points: usize) {
        let mut whole: Vec<usize> = (0..self.edges.len()).collect();
        while self.points.len() < points && !whole.is_empty() {
            let e = whole.swap_remove(r.below(whole.len() as u64) as usize);
            let [u, v, above, below] = self.edges[e];
            let (a, b) = self.ends(e);
            let middle = self.points.len();
            self.points.push(((a.0 + b.0) / 2, (a.1 + b.1) / 2));
            self.edges[e] = [u, middle, above, below];
            self.edges.push([middle, v, above, below]);
        }
    }

    /// Whether an edge from u to v would meet no point between its ends and cross no edge.
    fn is_free(&self, u: usize, v: usize) -> bool {
        let (a, b) = (self.points[u], self.points[v]);
        let apart = |s: i64, t: i64| s.signum() * t.signum() < 0;
        let meets = |p: &Point| a.0 < p.0 && p.0 < b.0 && area(a, b, *p) == 0;
        let crosses = |e: usize| {
            let (c, d) = self.ends(e);
            apart(area(a, b, c), area(a, b, d)) && apart(area(c, d, a), area(c, d, b))
        };
        !self.points.iter().any(meets) && !(0..self.edges.len()).any(crosses)
    }

    /// Draws every edge between points on different abscissas that is free in its turn; the turns are at random (0), by
    /// length (1) or against it (2).
    fn fill(&mut self, r: &mut Random, turns: u64) {
        let n = self.points.len();
        let mut pairs: Vec<(usize, usize)> = shuffled(r, n * n).iter().map(|p| (p / n, p % n)).collect();
        pairs.retain(|&(u, v)| self.points[u].0 < self.points[v].0);
        let length = |&(u, v): &(usize, usize)| self.points[v].0 - self.points[u].0;
        match turns {
            0 => {}
            1 => pairs.sort_by_key(length),
            _ => pairs.sort_by_key(|pair| -length(pair)),
        }
        for (u, v) in pairs {
            if self.is_free(u, v) {
                self.edges.push([u, v, 0, 0]);
            }
        }
    }

    /// Rubs edges out with so many chances in 8, but never the last eastern or the last western edge of a point.
    fn thin(&mut self, r: &mut Random, chances: u64) {
        let mut at = vec![[0, 0]; self.points.len()];
        for e in &self.edges {
            at[e[0]][1] += 1;
            at[e[1]][0] += 1;
        }
        self.edges.retain(|e| {
            let goes = at[e[0]][1] > 1 && at[e[1]][0] > 1 && r.below(8) < chances;
            at[e[0]][1] -= goes as usize;
            at[e[1]][0] -= goes as usize;
            !goes
        });
    }

    /// The edges that reach across the slab east of abscissa x, from bottom to top by their heights on the line x + 1/2.
    fn slab(&self, x: i64) -> Vec<usize> {
        let mut list: Vec<usize> = (0..self.edges.len()).filter(|&e| self.ends(e).0 .0 <= x && x < self.ends(e).1 .0).collect();
        let height = |e: usize| {
            let (a, b) = self.ends(e);
            (a.1 as i128 * (2 * b.0 - 2 * x - 1) as i128 + b.1 as i128 * (2 * x + 1 - 2 * a.0) as i128, (b.0 - a.0) as i128)
        };
        list.sort_by(|&e, &f| (height(e).0 * height(f).1).cmp(&(height(f).0 * height(e).1)));
        list
    }

    /// The pairs of cells, counted from the bottom of the slabs west and east of abscissa x, that meet on the line at x.
    fn meetings(&self, west: &[usize], east: &[usize], x: i64) -> Vec<(usize, usize)> {
        let (mut i, mut j) = (0, 0);
        let mut list = vec![(0, 0)];
        while i < west.len() {
            let v = self.edges[west[i]][1];
            if self.points[v].0 > x {
                (i, j) = (i + 1, j + 1);
            } else {
                i += west[i..].iter().take_while(|&&e| self.edges[e][1] == v).count();
                j += east[j..].iter().take_while(|&&e| self.edges[e][0] == v).count();
            }
            list.push((i, j));
        }
        list
    }

    /// Finds the faces: the cells between the edges of each slab, taken together where they meet across an abscissa.
    fn find_faces(&mut self) {
        let abscissas = self.abscissas();
        let (mut face, mut west): (Vec<usize>, Vec<usize>) = (vec![], vec![]);
        self.faces = 0;
        for &x in &abscissas[..abscissas.len() - 1] {
            let east = self.slab(x);
            let mut cells = vec![usize::MAX; east.len() + 1];
            if x > abscissas[0] {
                self.meetings(&west, &east, x).iter().for_each(|&(i, j)| cells[j] = face[i]);
            }
            for cell in cells.iter_mut().filter(|c| **c == usize::MAX) {
                *cell = self.faces;
                self.faces += 1;
            }
            east.iter().enumerate().for_each(|(l, &e)| self.edges[e][2..].copy_from_slice(&[cells[l + 1], cells[l]]));
            (face, west) = (cells, east);
        }
    }
}

/// A triangulation of points with different abscissas, made from west to east, none of them further than so far from 0, with as many
/// more edges than points as asked for.
pub fn triangulated(r: &mut Random, reach: i64, surplus: usize) -> Option<Drawing> {
    let mut d = Drawing { faces: 2, ..Drawing::default() };
    let step = 2 * r.between(1, 3 * reach / (surplus as i64 + 8));
    let tall = r.one(&[4, 1_000, reach]);
    let (mut over, mut under) = (vec![], vec![]);
    let mut x = -reach;
    while d.edges.len() < surplus + d.points.len() || d.points.len() < 2 {
        let p = d.points.len();
        x += 2 * r.between(1, step / 2);
        if x > reach {
            return None;
        }
        d.points.push((x, 2 * r.between(-tall / 2, tall / 2)));
        if p == 0 {
            continue;
        }
        let first = d.edges.len();
        d.edges.push([p - 1, p, 1, 0]);
        d.join(&mut over, p, first, true);
        d.join(&mut under, p, first, false);
    }
    (d.edges.len() == surplus + d.points.len()).then_some(d)
}

/// A number from `low` to `high`, one time in four an end or next to an end.
fn between_or_end(r: &mut Random, low: i64, high: i64) -> i64 {
    match r.below(16) {
        0 => low,
        1 => high,
        2 => (low + 1).min(high),
        3 => (high - 1).max(low),
        _ => r.between(low, high),
    }
}

/// Points on at most so many abscissas, the two margins among them, and at most so many on each, at times twice that on a margin.
fn columns(r: &mut Random, frame: Frame, wide: usize, tall: u64) -> Vec<Point> {
    let mut abscissas = vec![frame.west, frame.east];
    abscissas.extend((2..wide).map(|_| between_or_end(r, frame.west, frame.east)));
    abscissas.sort_unstable();
    abscissas.dedup();
    let mut points = vec![];
    for x in abscissas {
        let twice = (x == frame.west || x == frame.east) && r.below(2) == 0;
        let most = if twice { 2 * tall } else { tall };
        let mut heights: Vec<i64> = (0..=r.below(most)).map(|_| between_or_end(r, frame.low, frame.high)).collect();
        heights.sort_unstable();
        heights.dedup();
        points.extend(heights.iter().map(|&y| (x, y)));
    }
    points
}

/// A drawing on points in columns: edges of every length that do not cross, then some rubbed out.
pub fn columned(r: &mut Random, frame: Frame, wide: usize, tall: u64) -> Drawing {
    let mut d = Drawing { points: columns(r, frame, wide, tall), ..Drawing::default() };
    let (turns, chances) = (r.below(3), r.one(&[0, 0, 1, 1, 2, 3, 5, 8]));
    d.fill(r, turns);
    d.thin(r, chances);
    d.find_faces();
    d
}

/// A drawing of so many columns, one to three units apart or as far as can be, with so many points each, and edges between neighbouring
/// columns only, as many as there can be.
pub fn woven(r: &mut Random, wide: usize, tall: usize) -> Drawing {
    let mut d = Drawing::default();
    let gaps = wide as i64 - 1;
    let apart = r.one(&[1, 2, 3, 2 * i64::from(LIMITS.reach) / gaps]);
    for c in 0..=gaps {
        (0..tall as i64).for_each(|p| d.points.push((c * apart - gaps * apart / 2, 4 * p + r.between(0, 3))));
    }
    for c in 1..wide {
        let (mut u, mut v) = ((c - 1) * tall, c * tall);
        let (last_u, last_v) = (u + tall - 1, v + tall - 1);
        d.edges.push([u, v, 0, 0]);
        while u < last_u || v < last_v {
            if v == last_v || u < last_u && r.below(2) == 0 {
                u += 1;
            } else {
                v += 1;
            }
            d.edges.push([u, v, 0, 0]);
        }
    }
    d.find_faces();
    d
}

/// Whether a way up over the edges leads from zone a to zone b, where the faces have these zones.
fn leads(d: &Drawing, zone: &[usize], a: usize, b: usize) -> bool {
    let mut up = vec![vec![]; d.faces];
    d.edges.iter().for_each(|e| up[zone[e[3]]].push(zone[e[2]]));
    let (mut seen, mut waiting) = (vec![false; d.faces], vec![a]);
    while let Some(z) = waiting.pop() {
        if !std::mem::replace(&mut seen[z], true) {
            waiting.append(&mut up[z]);
        }
    }
    seen[b]
}

/// A zone for each face: at first its own, then two zones made one where neither is over the other, until there are so many
/// zones or so many tries were made.
pub fn zones(r: &mut Random, d: &Drawing, wanted: usize, tries: usize) -> Vec<usize> {
    let mut zone: Vec<usize> = (0..d.faces).collect();
    let mut left = d.faces;
    for _ in 0..tries {
        if left <= wanted {
            break;
        }
        let (a, b) = (r.one(&zone), r.one(&zone));
        if a != b && !leads(d, &zone, a, b) && !leads(d, &zone, b, a) {
            zone.iter_mut().filter(|z| **z == b).for_each(|z| *z = a);
            left -= 1;
        }
    }
    zone
}
