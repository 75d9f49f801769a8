//! Document 01 as written, by brute force: judging, opening, the plain reading, the published descent and the quick search.

use crate::sheet::Sheet;
use std::cmp::Ordering;

/// How much a sheet may hold, and how far a margin or a coordinate may lie from 0 ("What a sheet is").
#[derive(Clone, Copy, Debug)]
pub struct Limits {
    pub vertices: usize,
    pub edges: usize,
    pub zones: u32,
    pub reach: i32,
}

/// The limits as document 02's P5 has them.
pub const LIMITS: Limits = Limits { vertices: 4_096, edges: 8_192, zones: 4_096, reach: 1_000_000_000 };

/// The limits of document 01, before P5.
pub const EARLIER: Limits = Limits { vertices: 1_024, edges: 2_048, zones: 1_024, reach: 1_000_000 };

impl Limits {
    /// Margins and coordinates lie in -reach to reach, both ends allowed ("What a sheet is").
    pub fn in_range(&self, c: i32) -> bool {
        (-self.reach..=self.reach).contains(&c)
    }

    /// Line 1 for the counts: one is beyond its limit, or n = 0.
    pub fn exceeded(&self, vertices: usize, edges: usize, zones: u32) -> bool {
        vertices > self.vertices || edges > self.edges || zones > self.zones || zones == 0
    }
}

/// The places that a trail needs on a sheet with as many zones as there may be ("Index and descent").
pub const LONGEST_TRAIL: usize = bits(LIMITS.zones - 1) as usize;

/// An answer, its kinds kept apart ("Slips that look right"); a refusal has its number and its named item.
#[derive(Clone, Copy, Debug, PartialEq, Eq)]
pub enum Answer {
    Refused(u32, u32),
    Vertex(u32),
    Edge(u32),
    Zone(u32),
}

impl Answer {
    /// The kind, the number and the named item of an answer, as the calls report them ("Why the desk refuses").
    pub fn values(self) -> [u32; 3] {
        match self {
            Answer::Refused(number, item) => [0, number, item],
            Answer::Vertex(v) => [1, v, 0],
            Answer::Edge(e) => [2, e, 0],
            Answer::Zone(z) => [3, z, 0],
        }
    }
}

/// Why refusal 22 is given, one name for each cause in its line of the table.
#[derive(Clone, Copy, Debug, PartialEq, Eq)]
pub enum Cause {
    StartPastEdges,
    StartAboveNext,
    NoEdge,
    FaultUnder6,
    FaultUnder4,
    FaultUnder7,
    ProbesRunOut,
    PlacePastZones,
    PlacesDoNotStraddle,
    StepsCross,
    ZonePastZones,
}

/// The causes of refusal 22 in words, in the order of `Cause`.
pub const CAUSES: [&str; 11] = [
    "a chain start is above m",
    "a chain start is above the next start",
    "an entry is no edge",
    "a probed edge is at fault under 6",
    "a probed edge is at fault under 4",
    "a probed edge is at fault under 7",
    "the probes of a chain run out",
    "a place is not below n",
    "place below < k <= place above fails",
    "the step would make i > j",
    "a zone is not below n",
];

/// What a descent gives ("Index and descent"): the answer, the examined edges in order and the number of probes.
#[derive(Clone, Debug, PartialEq, Eq)]
pub struct Found {
    pub answer: Answer,
    pub trail: Vec<u32>,
    pub probes: u32,
}

/// What the quick search gives ("Why the desk refuses"): kind, number, item, edges examined, probes; every trail word; the cause of a 22.
#[derive(Clone, Debug, PartialEq, Eq)]
pub struct Searched {
    pub out: [u32; 5],
    pub trail: Vec<u32>,
    pub cause: Option<Cause>,
}

/// An edge with its record and the places (x, y) of its western and its eastern vertex ("What a sheet is").
#[derive(Clone, Copy)]
struct Edge {
    number: u32,
    west: u32,
    east: u32,
    above: u32,
    below: u32,
    w: (i128, i128),
    e: (i128, i128),
}

/// V and m, the numbers of whole vertices and of whole edges ("What a sheet is").
fn counts(s: &Sheet) -> (u32, u32) {
    ((s.vertices.len() / 2) as u32, (s.edges.len() / 4) as u32)
}

/// The x and y of a vertex that exists ("What a sheet is").
fn vertex(s: &Sheet, v: u32) -> (i32, i32) {
    (s.vertices[2 * v as usize], s.vertices[2 * v as usize + 1])
}

/// An edge at no fault under line 6 of the table, with its coordinates ("What a sheet is").
fn edge(s: &Sheet, number: u32) -> Edge {
    let [west, east, above, below] = record(s, number);
    let place = |v| (i128::from(vertex(s, v).0), i128::from(vertex(s, v).1));
    Edge { number, west, east, above, below, w: place(west), e: place(east) }
}

/// The western vertex, eastern vertex, zone above and zone below of an edge that exists ("What a sheet is").
fn record(s: &Sheet, e: u32) -> [u32; 4] {
    [0, 1, 2, 3].map(|word| s.edges[4 * e as usize + word])
}

/// The edges at no fault under lines 6 and 7 of the table, which are all edges once refusals 6 and 7 are not given (rule 2).
fn sound_edges(s: &Sheet) -> Vec<Edge> {
    (0..counts(s).1).filter(|&e| !fault_under_6(s, e) && !fault_under_7(s, e)).map(|e| edge(s, e)).collect()
}

/// The sign of (xe-xw)(y-yw) - (ye-yw)(x-xw), Greater where the point is above the edge ("The plain reading").
fn side(d: &Edge, x: i32, y: i32) -> Ordering {
    let (x, y) = (i128::from(x), i128::from(y));
    ((d.e.0 - d.w.0) * (y - d.w.1) - (d.e.1 - d.w.1) * (x - d.w.0)).cmp(&0)
}

/// The order of the heights of two edges on the line x = half / 2, fractions multiplied out ("The plain reading").
fn compare(d: &Edge, f: &Edge, half: i128) -> Ordering {
    let width = |d: &Edge| d.e.0 - d.w.0;
    let height = |d: &Edge| 2 * d.w.1 * width(d) + (d.e.1 - d.w.1) * (half - 2 * d.w.0); // over 2 * width(d)
    (height(d) * 2 * width(f)).cmp(&(height(f) * 2 * width(d)))
}

/// Line 4 for one vertex: out of range or outside the margins.
fn fault_under_4(l: &Limits, s: &Sheet, v: u32) -> bool {
    let (x, y) = vertex(s, v);
    !l.in_range(x) || !l.in_range(y) || x < s.west || x > s.east
}

/// Line 6 for one edge: it names a vertex or a zone that isn't there.
fn fault_under_6(s: &Sheet, e: u32) -> bool {
    let [west, east, above, below] = record(s, e);
    west >= counts(s).0 || east >= counts(s).0 || above >= s.zones || below >= s.zones
}

/// Line 7 for one edge at no fault under 6: not strictly west to east.
fn fault_under_7(s: &Sheet, e: u32) -> bool {
    edge(s, e).w.0 >= edge(s, e).e.0
}

/// Rule 4 broken by a pair: a < b, and the signs at a and at b are opposite or both zero, or a zero has no common end.
fn conflict(d: &Edge, f: &Edge) -> bool {
    let (a, b) = (d.w.0.max(f.w.0), d.e.0.min(f.e.0));
    if a >= b {
        return false;
    }
    let (at_a, at_b) = (compare(d, f, 2 * a), compare(d, f, 2 * b));
    let (zero_a, zero_b) = (at_a == Ordering::Equal, at_b == Ordering::Equal);
    let opposite = !zero_a && at_b == at_a.reverse();
    opposite || (zero_a && zero_b) || (zero_a && d.west != f.west) || (zero_b && d.east != f.east)
}

/// The western edges and the eastern edges of a vertex, each from bottom to top (rule 5).
fn edges_at(s: &Sheet, edges: &[Edge], v: u32) -> (Vec<Edge>, Vec<Edge>) {
    let x = i128::from(vertex(s, v).0);
    let mut western: Vec<Edge> = edges.iter().filter(|d| d.east == v).copied().collect();
    let mut eastern: Vec<Edge> = edges.iter().filter(|d| d.west == v).copied().collect();
    western.sort_by(|d, f| compare(d, f, 2 * x - 1));
    eastern.sort_by(|d, f| compare(d, f, 2 * x + 1));
    (western, eastern)
}

/// Rule 5 broken at a vertex: up its western edges, up its eastern edges, or across it where it has both.
fn names_change(s: &Sheet, edges: &[Edge], v: u32) -> bool {
    let (western, eastern) = edges_at(s, edges, v);
    let up = |list: &[Edge]| list.windows(2).any(|pair| pair[0].above != pair[1].below);
    let both = !western.is_empty() && !eastern.is_empty();
    let tops = western.last().map(|d| d.above) != eastern.last().map(|d| d.above);
    let bottoms = western.first().map(|d| d.below) != eastern.first().map(|d| d.below);
    up(&western) || up(&eastern) || (both && (tops || bottoms))
}

/// Rule 5 broken at W, charged to the lower vertex: the zone above its top edge is not the next vertex's bottom zone.
fn margin_changes(s: &Sheet, edges: &[Edge], v: u32) -> bool {
    let (x, y) = vertex(s, v);
    let higher = (0..counts(s).0).filter(|&u| x == s.west && vertex(s, u).0 == x && vertex(s, u).1 > y);
    let next = higher.min_by_key(|&u| vertex(s, u).1);
    let bottom = next.and_then(|u| edges_at(s, edges, u).1.first().map(|d| d.below));
    let top = edges_at(s, edges, v).1.last().map(|d| d.above);
    bottom.is_some() && top.is_some() && top != bottom
}

/// For each zone the zones directly below it (rule 7).
fn directly_below(s: &Sheet, edges: &[Edge]) -> Vec<Vec<u32>> {
    (0..s.zones).map(|z| edges.iter().filter(|d| d.above == z).map(|d| d.below).collect()).collect()
}

/// The zones below a zone by one step or more (line 13).
fn all_below(directly: &[Vec<u32>], z: u32) -> Vec<u32> {
    let (mut found, mut waiting) = (Vec::new(), directly[z as usize].clone());
    let mut seen = vec![false; directly.len()];
    while let Some(w) = waiting.pop() {
        if !std::mem::replace(&mut seen[w as usize], true) {
            found.push(w);
            waiting.extend(&directly[w as usize]);
        }
    }
    found
}

/// Line 13, as document 02's P4 has it: the lowest zone that is itself on a circle, by any number of steps.
fn lowest_circle(s: &Sheet, edges: &[Edge]) -> Option<u32> {
    let directly = directly_below(s, edges);
    (0..s.zones).find(|&z| all_below(&directly, z).contains(&z))
}

/// Lines 4 to 13 of the table, for tables that line 1 does not refuse: the named item where the line applies.
fn rule_broken(l: &Limits, s: &Sheet, number: u32) -> Option<u32> {
    let (mut vertices, mut edges, mut zones, list) = (0..counts(s).0, 0..counts(s).1, 0..s.zones, sound_edges(s));
    let lacks_west = |v| vertex(s, v).0 > s.west && list.iter().all(|d| d.east != v);
    let lacks_east = |v| vertex(s, v).0 < s.east && list.iter().all(|d| d.west != v);
    let excepted = s.zones == 1 && counts(s) == (0, 0);
    match number {
        4 => vertices.find(|&v| fault_under_4(l, s, v)),
        5 => vertices.find(|&v| (0..v).any(|u| vertex(s, u) == vertex(s, v))),
        6 => edges.find(|&e| fault_under_6(s, e)),
        7 => edges.find(|&e| !fault_under_6(s, e) && fault_under_7(s, e)),
        8 => edges.find(|&e| record(s, e)[2] == record(s, e)[3]),
        9 => vertices.find(|&v| lacks_west(v) || lacks_east(v)),
        10 => list.iter().find(|d| list.iter().any(|f| f.number < d.number && conflict(d, f))).map(|d| d.number),
        11 => vertices.find(|&v| names_change(s, &list, v) || margin_changes(s, &list, v)),
        12 => zones.find(|z| !excepted && edges.clone().all(|e| !record(s, e)[2..].contains(z))),
        _ => lowest_circle(s, &list),
    }
}

/// A line of the table from 1 to 13, under limits and with this many index words lent: its number and named item where it applies.
fn refusal(l: &Limits, s: &Sheet, words: usize, number: u32) -> Option<(u32, u32)> {
    let (v, m, n) = (s.vertices.len() / 2, s.edges.len() / 4, s.zones);
    let whole = s.vertices.len().is_multiple_of(2) && s.edges.len().is_multiple_of(4);
    let item = match number {
        1 => (!whole || l.exceeded(v, m, n)).then_some(0),
        2 => (!l.in_range(s.west) || !l.in_range(s.east) || s.west >= s.east).then_some(0),
        3 => ((words as u64) < 3 * u64::from(n) + m as u64 + 1).then_some(0),
        _ => rule_broken(l, s, number),
    };
    item.map(|item| (number, item))
}

/// Refusals 1, 2 and 4 to 13 under limits, the first that applies: its number and the named item.
pub fn judge_under(l: &Limits, s: &Sheet) -> Option<(u32, u32)> {
    (1..=13).filter(|&number| number != 3).find_map(|number| refusal(l, s, 0, number))
}

/// Refusals 1, 2 and 4 to 13, the first that applies: its number and the named item.
pub fn judge(s: &Sheet) -> Option<(u32, u32)> {
    judge_under(&LIMITS, s)
}

/// Every refusal among 1 to 13 whose own line applies where it can be evaluated, with this many index words lent.
pub fn faults(s: &Sheet, words: usize) -> Vec<u32> {
    let last = if refusal(&LIMITS, s, words, 1).is_some() { 3 } else { 13 };
    (1..=last).filter(|&number| refusal(&LIMITS, s, words, number).is_some()).collect()
}

/// The line of rule 7: at each place the lowest zone not placed yet, all of whose zones directly below are placed.
pub fn line(s: &Sheet) -> Vec<u32> {
    let below = directly_below(s, &sound_edges(s));
    let (mut placed, mut line) = (vec![false; below.len()], Vec::new());
    for _ in 0..s.zones {
        let free = |z: &u32| !placed[*z as usize] && below[*z as usize].iter().all(|&w| placed[w as usize]);
        line.push((0..s.zones).find(free).expect("rule 7 can be kept"));
        placed[line[line.len() - 1] as usize] = true;
    }
    line
}

/// The place of each zone in the line of rule 7 ("Index and descent").
fn places(line: &[u32]) -> Vec<u32> {
    (0..line.len()).map(|z| line.iter().position(|&w| w as usize == z).expect("every zone has a place") as u32).collect()
}

/// For i < j it is j when j = i + 1, and otherwise twice lca(i / 2, j / 2) ("Index and descent").
pub fn lca(i: u32, j: u32) -> u32 {
    if j == i + 1 { j } else { 2 * lca(i / 2, j / 2) }
}

/// Chain k: the list of all edges whose lca is k, from west to east ("Index and descent").
fn chain(edges: &[Edge], places: &[u32], k: u32) -> Vec<Edge> {
    let of_edge = |d: &Edge| lca(places[d.below as usize], places[d.above as usize]);
    let mut list: Vec<Edge> = edges.iter().filter(|d| of_edge(d) == k).copied().collect();
    list.sort_by_key(|d| d.w.0);
    list
}

/// The index: the place of each zone, the zone at each place, n + 1 chain starts, the m edge numbers ("Index and descent").
pub fn index(s: &Sheet) -> Vec<u32> {
    let line = line(s);
    let (edges, places) = (sound_edges(s), places(&line));
    let (mut starts, mut entries) = (vec![0], Vec::new());
    for k in 0..s.zones {
        entries.extend(chain(&edges, &places, k).iter().map(|d| d.number));
        starts.push(entries.len() as u32);
    }
    [places, line, starts, entries].concat()
}

/// Opening under limits: refusals 1 to 13 in order, else the index in the first 3n + m + 1 lent words and nothing else changed.
pub fn open_under(l: &Limits, s: &Sheet, lent: &[u32]) -> ([u32; 2], Vec<u32>) {
    if let Some((number, item)) = (1..=13).find_map(|number| refusal(l, s, lent.len(), number)) {
        return ([number, item], lent.to_vec());
    }
    let index = index(s);
    let rest = lent[index.len()..].to_vec();
    ([0, 0], [index, rest].concat())
}

/// Opening: every lent word afterwards, and the refusal where one is given.
pub fn open(s: &Sheet, lent: &[u32]) -> ([u32; 2], Vec<u32>) {
    open_under(&LIMITS, s, lent)
}

/// Refusal 20: point with x < W, x > E, or y out of range.
fn off_sheet(l: &Limits, s: &Sheet, x: i32, y: i32) -> bool {
    x < s.west || x > s.east || !l.in_range(y)
}

/// Western x <= x < eastern x, and for x = E eastern x = E ("The plain reading").
fn covers(s: &Sheet, d: &Edge, x: i32) -> bool {
    let (x, margin) = (i128::from(x), i128::from(s.east));
    (d.w.0 <= x && x < d.e.0) || (x == margin && d.e.0 == margin)
}

/// The covering edges and the line x + 1/2 (x - 1/2 at E), doubled, or those of the western reading ("The plain reading").
fn column(s: &Sheet, x: i32, western: bool) -> (Vec<Edge>, i128) {
    let at = i128::from(x);
    let taken = |d: &Edge| if western { d.w.0 < at && at <= d.e.0 } else { covers(s, d, x) };
    let half = if western || x == s.east { 2 * at - 1 } else { 2 * at + 1 };
    (sound_edges(s).into_iter().filter(taken).collect(), half)
}

/// The zone above the highest edge strictly below the point; with none, the first in the line ("The plain reading").
fn beneath((edges, half): &(Vec<Edge>, i128), line: &[u32], x: i32, y: i32) -> u32 {
    let under = edges.iter().filter(|d| side(d, x, y) == Ordering::Greater);
    under.max_by(|d, f| compare(d, f, *half)).map_or(line[0], |d| d.above)
}

/// The zone below the lowest edge strictly above the point; with none, the last in the line ("The plain reading").
fn overhead((edges, half): &(Vec<Edge>, i128), line: &[u32], x: i32, y: i32) -> u32 {
    let over = edges.iter().filter(|d| side(d, x, y) == Ordering::Less);
    over.min_by(|d, f| compare(d, f, *half)).map_or(line[line.len() - 1], |d| d.below)
}

/// The plain reading under limits: refusals 1, 2, 4 to 13, 20; else a vertex if the point is one, else an edge if it lies on one, else a
/// zone.
pub fn read_under(l: &Limits, s: &Sheet, x: i32, y: i32) -> Answer {
    match judge_under(l, s) {
        Some((number, item)) => Answer::Refused(number, item),
        None => read_accepted(l, s, &line(s), x, y),
    }
}

/// The plain reading.
pub fn read(s: &Sheet, x: i32, y: i32) -> Answer {
    read_under(&LIMITS, s, x, y)
}

/// The plain reading on a sheet accepted under limits with its line of rule 7: refusal 20, else the vertex, the edge or the zone.
pub fn read_accepted(l: &Limits, s: &Sheet, line: &[u32], x: i32, y: i32) -> Answer {
    if off_sheet(l, s, x, y) { Answer::Refused(20, 0) } else { things(s, line, x, y)[0] }
}

/// The zones of every reading of a point on no vertex or edge, eastern and, where W < x < E, western (second demand).
pub fn readings(s: &Sheet, line: &[u32], x: i32, y: i32) -> Vec<u32> {
    let western = (s.west < x && x < s.east).then(|| column(s, x, true));
    let columns = [Some(column(s, x, false)), western];
    columns.iter().flatten().flat_map(|column| [beneath(column, line, x, y), overhead(column, line, x, y)]).collect()
}

/// All a point is in or on: vertices it equals, then edges with it strictly between their ends; with none, its zone (second demand).
pub fn things(s: &Sheet, line: &[u32], x: i32, y: i32) -> Vec<Answer> {
    let at = i128::from(x);
    let inside = |d: &&Edge| d.w.0 < at && at < d.e.0 && side(d, x, y) == Ordering::Equal;
    let mut list: Vec<Answer> = (0..counts(s).0).filter(|&v| vertex(s, v) == (x, y)).map(Answer::Vertex).collect();
    list.extend(sound_edges(s).iter().filter(inside).map(|d| Answer::Edge(d.number)));
    if list.is_empty() {
        list.push(Answer::Zone(beneath(&column(s, x, false), line, x, y)));
    }
    list
}

/// The bit length of k; bits(0) = 0 ("What a sheet is").
pub const fn bits(k: u32) -> u32 {
    if k == 0 { 0 } else { 1 + bits(k / 2) }
}

/// The top bit of k, from 1 on 1, 2, 2, 4, 4, 4, 4, 8; that of 0 is never used and taken as 0 ("Index and descent").
pub fn top_bit(k: u32) -> u32 {
    if k <= 1 { k } else { 2 * top_bit(k / 2) }
}

/// The answer on an examined edge: the vertex if the point is one of its ends, else the edge ("Index and descent").
fn on_edge(d: &Edge, x: i32, y: i32) -> Answer {
    match (i128::from(x), i128::from(y)) {
        point if point == d.w => Answer::Vertex(d.west),
        point if point == d.e => Answer::Vertex(d.east),
        _ => Answer::Edge(d.number),
    }
}

/// A cause of refusal 22, given exactly when its fault is there.
fn unless(fault: bool, cause: Cause) -> Result<(), Cause> {
    if fault { Err(cause) } else { Ok(()) }
}

/// A probed entry read as an edge, its record and its vertices judged under 6, 4 and 7 (refusal 22).
fn probed_edge(l: &Limits, s: &Sheet, e: u32) -> Result<Edge, Cause> {
    unless(e >= counts(s).1, Cause::NoEdge)?;
    unless(fault_under_6(s, e), Cause::FaultUnder6)?;
    let d = edge(s, e);
    unless(fault_under_4(l, s, d.west) || fault_under_4(l, s, d.east), Cause::FaultUnder4)?;
    unless(fault_under_7(s, e), Cause::FaultUnder7)?;
    Ok(d)
}

/// The covering edge of a chain, every look at the middle being one probe ("Index and descent").
fn covering_edge(l: &Limits, s: &Sheet, chain: &[u32], x: i32, probes: &mut u32) -> Result<Edge, Cause> {
    let (mut lo, mut hi) = (0, chain.len());
    while lo < hi {
        let middle = (lo + hi) / 2;
        *probes += 1;
        match probed_edge(l, s, chain[middle])? {
            d if i128::from(x) < d.w.0 => hi = middle,
            d if !covers(s, &d, x) => lo = middle + 1,
            d => return Ok(d),
        }
    }
    Err(Cause::ProbesRunOut)
}

/// The descent over chains of entries, places of zones and zones at places, refusal 22 judged as it goes ("Index and descent").
fn descent<C>(l: &Limits, s: &Sheet, chain: C, places: &[u32], zones: &[u32], (x, y): (i32, i32)) -> Result<Found, Cause>
where
    C: Fn(u32) -> Result<Vec<u32>, Cause>,
{
    let (mut i, mut j, mut k) = (0, s.zones - 1, top_bit(s.zones - 1));
    let (mut trail, mut probes) = (Vec::new(), 0);
    while i < j {
        if k > j || k <= i {
            let half = (1 << k.trailing_zeros()) / 2;
            k = if k > j { k - half } else { k + half };
            continue;
        }
        let d = covering_edge(l, s, &chain(k)?, x, &mut probes)?;
        trail.push(d.number);
        let (below, above) = (places[d.below as usize], places[d.above as usize]);
        unless(below >= s.zones || above >= s.zones, Cause::PlacePastZones)?;
        unless(!(below < k && k <= above), Cause::PlacesDoNotStraddle)?;
        match side(&d, x, y) {
            Ordering::Equal => return Ok(Found { answer: on_edge(&d, x, y), trail, probes }),
            Ordering::Greater => i = above,
            Ordering::Less => j = below,
        }
        unless(i > j, Cause::StepsCross)?;
    }
    let zone = zones[i as usize];
    unless(zone >= s.zones, Cause::ZonePastZones)?;
    Ok(Found { answer: Answer::Zone(zone), trail, probes })
}

/// The descent of the third demand, on the tables of an accepted sheet and its line of rule 7 alone.
pub fn published(s: &Sheet, line: &[u32], x: i32, y: i32) -> Found {
    let (edges, places) = (sound_edges(s), places(line));
    let list = |k| Ok(chain(&edges, &places, k).iter().map(|d| d.number).collect());
    descent(&LIMITS, s, list, &places, line, (x, y)).expect("an accepted sheet")
}

/// The entries of chain k by the index words, both its starts judged against m (refusal 22).
fn lent_chain(s: &Sheet, index: &[u32], k: u32) -> Result<Vec<u32>, Cause> {
    let (starts, entries) = index[2 * s.zones as usize..].split_at(s.zones as usize + 1);
    let (start, next) = (starts[k as usize], starts[k as usize + 1]);
    unless(start > counts(s).1 || next > counts(s).1, Cause::StartPastEdges)?;
    unless(start > next, Cause::StartAboveNext)?;
    Ok(entries[start as usize..next as usize].to_vec())
}

/// The quick search under limits: refusals 1, 2, 3, 20, 21 and 22, else the answer, both counts and exactly the counted trail entries.
pub fn search_under(l: &Limits, s: &Sheet, index: &[u32], x: i32, y: i32, trail: &[u32]) -> Searched {
    let refused = |number, cause| Searched { out: [0, number, 0, 0, 0], trail: trail.to_vec(), cause };
    let tables = (1..=3).find_map(|number| refusal(l, s, index.len(), number)).map(|(number, _)| number);
    let point = || off_sheet(l, s, x, y).then_some(20);
    let short = || (trail.len() < bits(s.zones - 1) as usize).then_some(21);
    if let Some(number) = tables.or_else(point).or_else(short) {
        return refused(number, None);
    }
    let n = s.zones as usize;
    match descent(l, s, |k| lent_chain(s, index, k), &index[..n], &index[n..2 * n], (x, y)) {
        Err(cause) => refused(22, Some(cause)),
        Ok(Found { answer, trail: examined, probes }) => {
            let ([kind, number, item], count) = (answer.values(), examined.len());
            let words = [examined, trail[count..].to_vec()].concat();
            Searched { out: [kind, number, item, count as u32, probes], trail: words, cause: None }
        }
    }
}

/// The quick search.
pub fn search(s: &Sheet, index: &[u32], x: i32, y: i32, trail: &[u32]) -> Searched {
    search_under(&LIMITS, s, index, x, y, trail)
}
