//! A sheet as plain tables.

/// The margins, the number of zones and the two tables, as they are lent.
#[derive(Clone, Debug, Default, PartialEq, Eq)]
pub struct Sheet {
    pub west: i32,
    pub east: i32,
    pub zones: u32,
    pub vertices: Vec<i32>,
    pub edges: Vec<u32>,
}

impl Sheet {
    /// The words that an index needs: 3n + m + 1.
    pub fn need(&self) -> usize {
        3 * self.zones as usize + self.edges.len() / 4 + 1
    }

    /// How many vertices are on the abscissa x.
    pub fn vertices_on(&self, x: i32) -> usize {
        self.vertices.chunks_exact(2).filter(|v| v[0] == x).count()
    }

    /// The pieces into which the edges of an accepted sheet part the strip: one, and one for each edge, less one for each
    /// vertex between the margins.
    pub fn pieces(&self) -> usize {
        let (vertices, edges) = (self.vertices.len() / 2, self.edges.len() / 4);
        edges + 1 + self.vertices_on(self.west) + self.vertices_on(self.east) - vertices
    }
}
