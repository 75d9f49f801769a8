//! Every line of the outside vectors, run against the proved opening, plain reading and quick search. Each answer of theirs is held to
//! document 01 by brute force under the limits that they were made for, and what the library says to that answer as it is given now.
use std::path::Path;
use thawweasel_tests::amended::{self, Amended};
use thawweasel_tests::vectors::{files, Line};
use thawweasel_tests::{open, read, search, sheet::Sheet};

/// How many lines of each kind there were, and how many answers are given otherwise now.
#[derive(Default)]
struct Lines {
    sheets: usize,
    lent: usize,
    opens: usize,
    reads: usize,
    searches: usize,
    circles: usize,
    renamed: usize,
    moved: [usize; 3],
}

impl Lines {
    /// Opens the sheet.
    fn open(&mut self, s: &Sheet, lent: &[u32], said: &([u32; 2], Vec<u32>)) {
        let Amended { earlier, now } = amended::open(s, lent, said);
        let mut index = lent.to_vec();
        assert_eq!((open(s, &mut index), &index), (now.0, &now.1), "{s:?}");
        self.opens += 1;
        self.circles += (said.0[0] == 13) as usize;
        self.renamed += (earlier != *said) as usize;
        self.moved[0] += (now != earlier) as usize;
    }

    /// Reads a point.
    fn read(&mut self, s: &Sheet, point: (i32, i32), said: [u32; 3]) {
        let amended = amended::read(s, point, said);
        assert_eq!(read(s, point.0, point.1), amended.now, "{point:?} of {s:?}");
        self.reads += 1;
        self.moved[1] += amended.differs() as usize;
    }

    /// Searches for a point over the words of an index.
    fn search(&mut self, s: &Sheet, index: &[u32], point: (i32, i32), lent: &[u32], said: &([u32; 5], Vec<u32>)) {
        let amended = amended::search(s, index, point, lent, said);
        let mut trail = lent.to_vec();
        assert_eq!((search(s, index, point.0, point.1, &mut trail), trail), amended.now, "{point:?} over {index:?} of {s:?}");
        self.searches += 1;
        self.moved[2] += amended.differs() as usize;
    }

    /// Runs the lines of a file.
    fn run(&mut self, lines: &[String]) {
        let (mut s, mut index) = (Sheet::default(), vec![]);
        for line in lines.iter().map(|line| Line::read(line)) {
            match line {
                Line::Sheet(sheet) => (s, self.sheets) = (sheet, self.sheets + 1),
                Line::Lend(words) => (index, self.lent) = (words, self.lent + 1),
                Line::Open { lent, said } => {
                    self.open(&s, &lent, &said);
                    index = said.1;
                }
                Line::Read { point, said } => self.read(&s, point, said),
                Line::Search { point, lent, said } => self.search(&s, &index, point, &lent, &said),
            }
        }
    }
}

#[test]
fn every_sheet_opened_and_every_point_read_and_searched_as_the_vectors_say() {
    let mut all = Lines::default();
    for (name, lines) in files(&Path::new(env!("CARGO_MANIFEST_DIR")).join("../vectors")) {
        all.run(&lines);
        println!("vectors: {} lines of {name}", lines.len());
    }
    let Lines { sheets, lent, opens, reads, searches, circles, renamed, moved } = all;
    println!("  {sheets} sheets, {opens} openings, {reads} readings, {lent} lent indexes, {searches} searches");
    println!("  {circles} openings refused 13, {renamed} of them with another zone than before P4");
    println!("  otherwise than under the earlier limits: {} openings, {} readings, {} searches", moved[0], moved[1], moved[2]);
    assert!([sheets, lent, opens, reads, searches, circles, renamed].iter().all(|&n| n > 0), "no vector of a kind was run");
    assert!(moved.iter().all(|&n| n > 0), "no vector of a call is at the earlier limits");
}
