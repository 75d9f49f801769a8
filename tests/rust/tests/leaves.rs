//! The leaves against plain Rust, written from document 01.
use std::collections::HashSet;
use thawweasel_tests::{bit_length, conflict, covers, first_repeat, lca, side, sort, top_bit, Random, Trials};

#[test]
fn top_bits_have_the_listed_values() {
    let values: Vec<u32> = (1..=8).map(top_bit).collect();
    assert_eq!(values, [1, 2, 2, 4, 4, 4, 4, 8]);
}

#[test]
fn bits_and_lca_by_the_machine() {
    let (mut r, trials) = (Random::new("bits and lca", 1), Trials::new(20_000));
    for _ in 0..trials.count {
        let width = 1 + r.below(32);
        let (p, q) = (r.below(1 << width) as u32, r.below(1 << width) as u32);
        assert_eq!(bit_length(p), 32 - p.leading_zeros(), "bits of {p}");
        assert_eq!(top_bit(p), if p == 0 { 0 } else { 1 << (31 - p.leading_zeros()) }, "top bit of {p}");
        if p != q {
            let (i, j) = (p.min(q), p.max(q));
            let cleared = (1u64 << (31 - (i ^ j).leading_zeros())) - 1;
            assert_eq!(lca(i, j), (j as u64 & !cleared) as u32, "lca of {i} and {j}");
        }
    }
}

#[test]
fn sorted_by_key_then_number() {
    let (mut r, trials) = (Random::new("sort", 2), Trials::new(4_000));
    let (mut ties, mut short, mut empty, mut fewer) = (0, 0, 0, 0);
    for _ in 0..trials.count {
        let n = r.below(200) as usize;
        let kinds = [1, 3, 50, u64::MAX][r.below(4) as usize];
        let keys: Vec<u64> = (0..n).map(|_| if kinds == u64::MAX { r.next() } else { r.below(kinds) }).collect();
        let keys = if r.below(8) == 0 { &keys[..n / 2] } else { &keys[..] };
        let room = if r.below(10) == 0 { r.below(n as u64 + 1) as usize } else { n + r.below(3) as usize };
        let before: Vec<u32> = (0..n).map(|_| r.next() as u32).collect();
        let lent: Vec<u32> = (0..room).map(|_| r.next() as u32).collect();
        let (mut order, mut scratch) = (before.clone(), lent.clone());
        let answer = sort(keys, &mut order, &mut scratch);
        if room < n {
            short += 1;
            assert_eq!((answer, &order, &scratch), (0, &before, &lent));
            continue;
        }
        assert_eq!(scratch[n..], lent[n..], "past the places that a sort of {n} may use");
        let key = |k: u32| keys.get(k as usize).copied().unwrap_or(0);
        let mut wanted: Vec<u32> = (0..n as u32).collect();
        wanted.sort_by_key(|k| (key(*k), *k));
        assert_eq!((answer, &order), (1, &wanted));
        ties += usize::from(wanted.windows(2).any(|w| key(w[0]) == key(w[1])));
        empty += usize::from(n < 2);
        fewer += usize::from(keys.len() < n);
    }
    let zero = sort(&[], &mut [], &mut []);
    assert_eq!(zero, 1);
    trials.enough(&[("with equal keys", ties), ("short scratch", short), ("fewer keys than places", fewer)]);
    println!("  with fewer than two places: {empty}");
}

/// A coordinate: small ones meet often, large ones try the products.
fn coordinate(r: &mut Random, reach: i64) -> i32 {
    if r.below(6) == 0 { [reach, -reach][r.below(2) as usize] as i32 } else { r.between(-reach, reach) as i32 }
}

const REACHES: [i64; 6] = [2, 3, 10, 1_000_000, 1_000_000_000, i32::MAX as i64];

/// Vertices with so far a reach: often two the same, or nearly the same, and some at the lowest end of 32 bits.
fn vertices(r: &mut Random, count: usize, reach: i64) -> Vec<i32> {
    let mut list: Vec<i32> = (0..2 * count).map(|_| coordinate(r, reach)).collect();
    let two = |r: &mut Random| (2 * r.below(count as u64) as usize, 2 * r.below(count as u64) as usize);
    if count > 1 && r.below(2) == 0 {
        let (from, to) = two(r);
        list.copy_within(from..from + 2, to);
    }
    if count > 1 && r.below(4) == 0 {
        // another vertex with one coordinate moved by one, with x and y exchanged, or with both signs turned
        let (from, to) = two(r);
        let (x, y) = (list[from], list[from + 1]);
        let (p, q) = r.one(&[(x.wrapping_add(1), y), (x, y.wrapping_add(1)), (y, x), (x.wrapping_neg(), y.wrapping_neg())]);
        (list[to], list[to + 1]) = (p, q);
    }
    if count > 0 && r.below(4) == 0 {
        list[r.below(2 * count as u64) as usize] = i32::MIN;
    }
    list
}

#[test]
fn repeats_by_a_set_of_points() {
    let (mut r, trials) = (Random::new("repeats", 5), Trials::new(4_000));
    let names = ["no repeat", "one vertex repeated", "several", "4,096 vertices", "more than 4,096", "a word over", "the ends of 32 bits"];
    let mut seen = [0usize; 7];
    for _ in 0..trials.count {
        let count = if r.below(8) == 0 { r.between(4_095, 4_098) as usize } else { r.below(40) as usize };
        let reach = r.one(&REACHES);
        let mut vertices = vertices(&mut r, count, reach);
        let over = r.below(8) == 0;
        if over {
            vertices.push(r.next() as i32);
        }
        let mut points = HashSet::new();
        let repeated: Vec<usize> = (0..count).filter(|&v| !points.insert((vertices[2 * v], vertices[2 * v + 1]))).collect();
        let wanted = (count <= 4_096).then(|| repeated.first().map_or(count as u32, |&v| v as u32));
        assert_eq!(first_repeat(&vertices), wanted, "{vertices:?}");
        seen[repeated.len().min(2)] += usize::from(count <= 4_096);
        seen[3] += usize::from(count == 4_096);
        seen[4] += usize::from(count > 4_096);
        seen[5] += usize::from(over);
        seen[6] += usize::from(vertices.contains(&i32::MAX) && vertices.contains(&i32::MIN));
    }
    trials.enough(&names.iter().copied().zip(seen).collect::<Vec<_>>());
}

struct Edge {
    west: u32,
    east: u32,
    xw: i128,
    yw: i128,
    xe: i128,
    ye: i128,
}

fn edge(vertices: &[i32], edges: &[u32], e: usize) -> Edge {
    let (west, east) = (edges[4 * e], edges[4 * e + 1]);
    let at = |v: u32, k: usize| vertices[2 * v as usize + k] as i128;
    Edge { west, east, xw: at(west, 0), yw: at(west, 1), xe: at(east, 0), ye: at(east, 1) }
}

/// A table of two edges over four vertices: often with a common vertex, often sorted from west to east.
fn two_edges(r: &mut Random) -> (Vec<i32>, Vec<u32>, i64) {
    let reach = REACHES[r.below(6) as usize];
    let mut vertices: Vec<i32> = (0..8).map(|_| coordinate(r, reach)).collect();
    if r.below(3) == 0 {
        // a point on the first edge, where there is a whole one
        let (x0, y0, x1, y1) = (vertices[0] as i64, vertices[1] as i64, vertices[2] as i64, vertices[3] as i64);
        (vertices[4], vertices[5]) = (((x0 + x1) / 2) as i32, ((y0 + y1) / 2) as i32);
    }
    let mut edges = vec![];
    for pair in [[0u32, 1], [2, 3]] {
        let mut ends = pair.map(|v| if r.below(3) == 0 { r.below(4) as u32 } else { v });
        if r.below(8) != 0 && vertices[2 * ends[0] as usize] > vertices[2 * ends[1] as usize] {
            ends.swap(0, 1);
        }
        edges.extend([ends[0], ends[1], 0, 1]);
    }
    (vertices, edges, reach)
}

#[test]
fn side_is_the_sign_of_the_formula() {
    let (mut r, trials) = (Random::new("side", 3), Trials::new(40_000));
    let mut seen = [0usize; 3];
    let mut covered = [0usize; 2];
    let mut at_margin = 0;
    for _ in 0..trials.count {
        let (vertices, edges, reach) = two_edges(&mut r);
        let g = edge(&vertices, &edges, 0);
        let x = match r.below(4) {
            0 => g.xw as i32,
            1 => g.xe as i32,
            _ => r.between(g.xw.min(g.xe) as i64, g.xw.max(g.xe) as i64) as i32,
        };
        let east = if r.below(2) == 0 { g.xe as i32 } else { coordinate(&mut r, reach) };
        let (xw, xe, at) = (g.xw, g.xe, x as i128);
        let wanted = (xw <= at && at < xe) || (x == east && xe == east as i128);
        assert_eq!(covers(&vertices, &edges, east, 0, x), wanted as u32);
        covered[wanted as usize] += 1;
        at_margin += usize::from(x == east && wanted);
        if xw < xe && xw <= at && at <= xe {
            let height = g.yw + (g.ye - g.yw) * (at - xw) / (xe - xw);
            let y = if r.below(3) == 0 { coordinate(&mut r, reach) } else { (height + r.between(-1, 1) as i128) as i32 };
            let sign = ((xe - xw) * (y as i128 - g.yw) - (g.ye - g.yw) * (at - xw)).signum();
            assert_eq!(side(&vertices, &edges, 0, x, y) as i128, sign, "{vertices:?} at ({x}, {y})");
            seen[(sign + 1) as usize] += 1;
        }
    }
    trials.enough(&[("below", seen[0]), ("on", seen[1]), ("above", seen[2])]);
    trials.enough(&[("not covered", covered[0]), ("covered", covered[1]), ("covered at E", at_margin)]);
}

/// The sign of (height of g less height of h) at x.
fn sign_at(g: &Edge, h: &Edge, x: i128) -> i128 {
    let (p, q) = (g.xe - g.xw, h.xe - h.xw);
    let (m, n) = (g.yw * p + (g.ye - g.yw) * (x - g.xw), h.yw * q + (h.ye - h.yw) * (x - h.xw));
    (m * q - n * p).signum()
}

#[test]
fn conflict_is_rule_4() {
    let (mut r, trials) = (Random::new("conflict", 4), Trials::new(60_000));
    let zeros = ["a zero at a, no common vertex", "a zero at b, no common vertex"];
    let names = ["no overlap", "opposite signs", "both zero", zeros[0], zeros[1], "a fork", "a meeting", "apart"];
    let mut seen = [0usize; 8];
    for _ in 0..trials.count {
        let (vertices, edges, _) = two_edges(&mut r);
        let (g, h) = (edge(&vertices, &edges, 0), edge(&vertices, &edges, 1));
        let (a, b) = (g.xw.max(h.xw), g.xe.min(h.xe));
        let case = if a >= b {
            0
        } else {
            let (s, t) = (sign_at(&g, &h, a), sign_at(&g, &h, b));
            match (s, t) {
                _ if s * t < 0 => 1,
                (0, 0) => 2,
                (0, _) if g.west != h.west => 3,
                (_, 0) if g.east != h.east => 4,
                (0, _) => 5,
                (_, 0) => 6,
                _ => 7,
            }
        };
        let wanted = matches!(case, 1..=4) as u32;
        assert_eq!(conflict(&vertices, &edges, 0, 1), wanted, "{vertices:?} {edges:?}: {}", names[case]);
        assert_eq!(conflict(&vertices, &edges, 1, 0), wanted, "{vertices:?} {edges:?}: {}", names[case]);
        seen[case] += 1;
    }
    trials.enough(&names.iter().copied().zip(seen).collect::<Vec<_>>());
}
