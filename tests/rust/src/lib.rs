//! The proved functions, as they are exported and as safe Rust, and a generator of numbers with a printed seed.

pub mod amended;
pub mod circles;
pub mod damage;
pub mod drawings;
pub mod faults;
pub mod json;
pub mod kept;
pub mod ledger;
pub mod long;
pub mod months;
pub mod paged;
pub mod pages;
pub mod paper;
pub mod plain;
pub mod sheet;
pub mod sheets;
pub mod texts;
pub mod vectors;

use ledger::Month;
use pages::{Lent, Page};
use sheet::Sheet;

/// The functions as they are exported.
pub mod exported {
    #[link(name = "leaves", kind = "static")]
    extern "C" {
        pub fn tw_bit_length(k: u32) -> u32;
        pub fn tw_top_bit(k: u32) -> u32;
        pub fn tw_lca(i: u32, j: u32) -> u32;
        pub fn tw_sort(keys: *const u64, keys_len: usize, order: *mut u32, order_len: usize, scratch: *mut u32, scratch_len: usize) -> u32;
        pub fn tw_first_repeat(vertices: *const i32, vertices_len: usize) -> u32;
        pub fn tw_covers(vertices: *const i32, vertices_len: usize, edges: *const u32, edges_len: usize, east: i32, e: u32, x: i32) -> u32;
        pub fn tw_side(vertices: *const i32, vertices_len: usize, edges: *const u32, edges_len: usize, e: u32, x: i32, y: i32) -> i32;
        pub fn tw_conflict(vertices: *const i32, vertices_len: usize, edges: *const u32, edges_len: usize, e: u32, f: u32) -> u32;
    }

    #[link(name = "exports", kind = "static")]
    extern "C" {
        pub fn tw_open(
            west: i32, east: i32, vertices: *const i32, vertices_len: usize, edges: *const u32, edges_len: usize, zones: u32,
            index: *mut u32, index_len: usize, out: *mut u32,
        );
        pub fn tw_read(
            west: i32, east: i32, vertices: *const i32, vertices_len: usize, edges: *const u32, edges_len: usize, zones: u32,
            x: i32, y: i32, out: *mut u32,
        );
        pub fn tw_search(
            west: i32, east: i32, vertices: *const i32, vertices_len: usize, edges: *const u32, edges_len: usize, zones: u32,
            index: *const u32, index_len: usize, x: i32, y: i32, trail: *mut u32, trail_len: usize, out: *mut u32,
        );
        pub fn tw_read_page(
            page: *const u8, page_len: usize, vertices: *mut i32, vertices_len: usize, edges: *mut u32, edges_len: usize,
            points: *mut i32, points_len: usize, out: *mut u64,
        );
        pub fn tw_write_page(
            west: i32, east: i32, vertices: *const i32, vertices_len: usize, edges: *const u32, edges_len: usize, zones: u32,
            points: *const i32, points_len: usize, text: *mut u8, text_len: usize, out: *mut u64,
        );
        pub fn tw_place_page(page: *const u8, page_len: usize, text: *mut u8, text_len: usize, out: *mut u64);
        pub fn tw_month(
            west: i32, east: i32, vertices: *const i32, vertices_len: usize, edges: *const u32, edges_len: usize, zones: u32,
            index: *const u32, index_len: usize, points: *const i32, points_len: usize, kinds: *const u32, kinds_len: usize,
            values: *const f64, values_len: usize, permits: *const f64, permits_len: usize,
            boundary: *mut u32, boundary_len: usize, off: *mut u32, off_len: usize,
            results: *mut u32, results_len: usize, means: *mut f64, means_len: usize, out: *mut u32,
        );
    }
}

pub fn bit_length(k: u32) -> u32 {
    unsafe { exported::tw_bit_length(k) }
}

pub fn top_bit(k: u32) -> u32 {
    unsafe { exported::tw_top_bit(k) }
}

pub fn lca(i: u32, j: u32) -> u32 {
    unsafe { exported::tw_lca(i, j) }
}

pub fn sort(keys: &[u64], order: &mut [u32], scratch: &mut [u32]) -> u32 {
    unsafe { exported::tw_sort(keys.as_ptr(), keys.len(), order.as_mut_ptr(), order.len(), scratch.as_mut_ptr(), scratch.len()) }
}

/// The lowest vertex that is the same point as an earlier one, the number of vertices where none is; none of more than the limit.
pub fn first_repeat(vertices: &[i32]) -> Option<u32> {
    let found = unsafe { exported::tw_first_repeat(vertices.as_ptr(), vertices.len()) };
    (found != u32::MAX).then_some(found)
}

pub fn covers(vertices: &[i32], edges: &[u32], east: i32, e: u32, x: i32) -> u32 {
    unsafe { exported::tw_covers(vertices.as_ptr(), vertices.len(), edges.as_ptr(), edges.len(), east, e, x) }
}

pub fn side(vertices: &[i32], edges: &[u32], e: u32, x: i32, y: i32) -> i32 {
    unsafe { exported::tw_side(vertices.as_ptr(), vertices.len(), edges.as_ptr(), edges.len(), e, x, y) }
}

pub fn conflict(vertices: &[i32], edges: &[u32], e: u32, f: u32) -> u32 {
    unsafe { exported::tw_conflict(vertices.as_ptr(), vertices.len(), edges.as_ptr(), edges.len(), e, f) }
}

/// Opens a sheet: the refusal's number and item, 0 0 where it is opened.
pub fn open(s: &Sheet, index: &mut [u32]) -> [u32; 2] {
    let mut out = [u32::MAX; 2];
    let (v, e) = (&s.vertices, &s.edges);
    unsafe {
        exported::tw_open(
            s.west, s.east, v.as_ptr(), v.len(), e.as_ptr(), e.len(), s.zones,
            index.as_mut_ptr(), index.len(), out.as_mut_ptr(),
        )
    };
    out
}

/// Reads a point: the kind (0 refused, 1 vertex, 2 edge, 3 zone), its number, and the item that a refusal names.
pub fn read(s: &Sheet, x: i32, y: i32) -> [u32; 3] {
    let mut out = [u32::MAX; 3];
    let (v, e) = (&s.vertices, &s.edges);
    unsafe { exported::tw_read(s.west, s.east, v.as_ptr(), v.len(), e.as_ptr(), e.len(), s.zones, x, y, out.as_mut_ptr()) };
    out
}

/// Searches for a point: as `read` has it, then the edges examined and the probes.
pub fn search(s: &Sheet, index: &[u32], x: i32, y: i32, trail: &mut [u32]) -> [u32; 5] {
    let mut out = [u32::MAX; 5];
    let (v, e) = (&s.vertices, &s.edges);
    unsafe {
        exported::tw_search(
            s.west, s.east, v.as_ptr(), v.len(), e.as_ptr(), e.len(), s.zones,
            index.as_ptr(), index.len(), x, y, trail.as_mut_ptr(), trail.len(), out.as_mut_ptr(),
        )
    };
    out
}

/// Reads a page into lent tables: the refusal's number and line, 0 0 for a good page, then the two margins as words, V, m, n and the
/// number of points.
pub fn read_page(page: &[u8], lent: &mut Lent) -> [u64; 8] {
    let mut out = [u64::MAX; 8];
    let Lent { vertices: v, edges: e, points: p } = lent;
    unsafe {
        exported::tw_read_page(
            page.as_ptr(), page.len(), v.as_mut_ptr(), v.len(), e.as_mut_ptr(), e.len(),
            p.as_mut_ptr(), p.len(), out.as_mut_ptr(),
        )
    };
    out
}

/// Writes a sheet with its points into lent text: the refusal's number and the number of bytes written.
pub fn write_page(page: &Page, text: &mut [u8]) -> [u64; 2] {
    let mut out = [u64::MAX; 2];
    let (s, p) = (&page.sheet, &page.points);
    let (v, e) = (&s.vertices, &s.edges);
    unsafe {
        exported::tw_write_page(
            s.west, s.east, v.as_ptr(), v.len(), e.as_ptr(), e.len(), s.zones,
            p.as_ptr(), p.len(), text.as_mut_ptr(), text.len(), out.as_mut_ptr(),
        )
    };
    out
}

/// Places the points of a page into lent text: the refusal's number and the number of bytes written.
pub fn place_page(page: &[u8], text: &mut [u8]) -> [u64; 2] {
    let mut out = [u64::MAX; 2];
    unsafe { exported::tw_place_page(page.as_ptr(), page.len(), text.as_mut_ptr(), text.len(), out.as_mut_ptr()) };
    out
}

/// Keeps the ledger of a month in the fronts of lent tables: the refusal's number and item, 0 0 for a good month, then how many samples
/// are on a boundary and how many off the sheet.
pub fn month(m: &Month, lent: &mut ledger::Lent) -> [u32; 4] {
    let mut out = [u32::MAX; 4];
    let (s, room) = (&m.sheet, m.room);
    let (boundary, off) = (&mut lent.boundary[..room.boundary], &mut lent.off[..room.off]);
    let (results, means) = (&mut lent.results[..room.results], &mut lent.means[..room.means]);
    unsafe {
        exported::tw_month(
            s.west, s.east, s.vertices.as_ptr(), s.vertices.len(), s.edges.as_ptr(), s.edges.len(), s.zones,
            m.index.as_ptr(), m.index.len(), m.points.as_ptr(), m.points.len(), m.kinds.as_ptr(), m.kinds.len(),
            m.values.as_ptr(), m.values.len(), m.permits.as_ptr(), m.permits.len(),
            boundary.as_mut_ptr(), boundary.len(), off.as_mut_ptr(), off.len(),
            results.as_mut_ptr(), results.len(), means.as_mut_ptr().cast(), means.len(), out.as_mut_ptr(),
        )
    };
    out
}

/// A small generator; the seed is `SEED` where that is set, and is printed.
pub struct Random(u64);

impl Random {
    pub fn new(name: &str, seed: u64) -> Self {
        let seed = std::env::var("SEED").ok().and_then(|s| s.parse().ok()).unwrap_or(seed);
        println!("{name}: seed {seed}");
        Random(seed.wrapping_mul(2).wrapping_add(1))
    }

    pub fn next(&mut self) -> u64 {
        self.0 ^= self.0 << 13;
        self.0 ^= self.0 >> 7;
        self.0 ^= self.0 << 17;
        self.0.wrapping_mul(0x2545_F491_4F6C_DD1D)
    }

    /// A number below `n`.
    pub fn below(&mut self, n: u64) -> u64 {
        (self.next() >> 11) % n
    }

    /// A number from `low` to `high`, both ends allowed.
    pub fn between(&mut self, low: i64, high: i64) -> i64 {
        low + self.below((high - low + 1) as u64) as i64
    }

    /// One of several things.
    pub fn one<T: Copy>(&mut self, of: &[T]) -> T {
        of[self.below(of.len() as u64) as usize]
    }
}

/// Words to lend, each another, and none that a call would write.
pub fn lent(words: usize) -> Vec<u32> {
    (0..words as u32).map(|w| w.wrapping_mul(2_654_435_761) ^ 0xA5A5_A5A5).collect()
}

/// Bytes to lend for text, none of which stands in any text.
pub fn lent_text(bytes: usize) -> Vec<u8> {
    lent(bytes).iter().map(|word| (word >> 24) as u8 | 0x80).collect()
}

/// The trials of a random test: how many there are, and how many there usually are.
#[derive(Clone, Copy)]
pub struct Trials {
    pub count: usize,
    usual: usize,
}

impl Trials {
    /// As many as `CALLS` says where that is set, and otherwise the usual number.
    pub fn new(usual: usize) -> Self {
        let count = std::env::var("CALLS").ok().and_then(|s| s.parse().ok()).unwrap_or(usual);
        Trials { count, usual }
    }

    /// Whether there are so many that each case has to come.
    pub fn are_enough(&self) -> bool {
        self.count >= self.usual
    }

    /// Prints how often each case came, and fails where one came fewer than 50 times among as many trials as usual.
    pub fn enough(&self, counts: &[(&str, usize)]) {
        if self.are_enough() { enough(counts) } else { print(counts) }
    }
}

/// How often each of some cases came.
pub struct Tally(Vec<(String, usize)>);

impl Tally {
    /// None of these cases came yet.
    pub fn new(cases: Vec<String>) -> Self {
        Tally(cases.into_iter().map(|case| (case, 0)).collect())
    }

    /// Counts a case, which has to be one of those named at first.
    pub fn count(&mut self, case: &str) {
        self.0.iter_mut().find(|c| c.0 == case).unwrap_or_else(|| panic!("{case} is no case")).1 += 1;
    }

    /// Each case, and how often it came.
    pub fn counts(&self) -> Vec<(&str, usize)> {
        self.0.iter().map(|(case, count)| (&case[..], *count)).collect()
    }
}

/// Prints how often each case came.
fn print(counts: &[(&str, usize)]) {
    for (name, count) in counts {
        println!("  {name}: {count}");
    }
}

/// Prints how often each case came, and fails where one came fewer than 50 times.
pub fn enough(counts: &[(&str, usize)]) {
    print(counts);
    for (name, count) in counts {
        assert!(*count >= 50, "{name} came {count} times");
    }
}
