//! Circles of zones by the closure of the steps from below to above: which zones steps lead to from each, one zone after the other taken
//! as a way through. It shares nothing with the other searches for circles.

/// For each zone the zones that one step or more lead to, a bit each.
pub struct Steps {
    to: Vec<Vec<u64>>,
}

impl Steps {
    /// The steps of a table of edges, all of whose zones exist.
    pub fn of(edges: &[u32], zones: u32) -> Self {
        let n = zones as usize;
        let mut to = vec![vec![0u64; n.div_ceil(64)]; n];
        for e in edges.chunks_exact(4) {
            to[e[3] as usize][e[2] as usize / 64] |= 1 << (e[2] % 64);
        }
        for way in 0..n {
            let further = to[way].clone();
            for from in to.iter_mut().filter(|from| from[way / 64] >> (way % 64) & 1 == 1) {
                from.iter_mut().zip(&further).for_each(|(word, more)| *word |= more);
            }
        }
        Steps { to }
    }

    /// Whether one step or more lead from a zone to a zone.
    pub fn lead(&self, from: u32, to: u32) -> bool {
        self.to[from as usize][to as usize / 64] >> (to % 64) & 1 == 1
    }

    /// The zones that are themselves on a circle.
    pub fn on_circles(&self) -> Vec<u32> {
        (0..self.to.len() as u32).filter(|&z| self.lead(z, z)).collect()
    }

    /// The zone that refusal 13 names: the lowest that is itself on a circle.
    pub fn named(&self) -> Option<u32> {
        self.on_circles().first().copied()
    }

    /// The zone that refusal 13 named before P4: the lowest with a circle at it or below it.
    pub fn named_before(&self) -> Option<u32> {
        let circles = self.on_circles();
        (0..self.to.len() as u32).find(|&z| circles.iter().any(|&c| c == z || self.lead(c, z)))
    }
}

/// The zone that refusal 13 names now, where an outside vector has the one that it named before P4.
pub fn amended(edges: &[u32], zones: u32, before: u32) -> u32 {
    let steps = Steps::of(edges, zones);
    assert_eq!(steps.named_before(), Some(before), "the zone that refusal 13 named before P4");
    steps.named().expect("a circle")
}
