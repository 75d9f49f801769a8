//! The files of calls of the outside vectors, read line by line.
use crate::amended::{Opened, Searched};
use crate::sheet::Sheet;
use std::{fs, path::Path};

/// What every word holds before it is lent.
pub const LENT: u32 = 0xA5A5_A5A5;

/// A line: a sheet for the lines below it, the words of an index for the searches below it, or a call with its answer.
pub enum Line {
    Sheet(Sheet),
    Lend(Vec<u32>),
    Open { lent: Vec<u32>, said: Opened },
    Read { point: (i32, i32), said: [u32; 3] },
    Search { point: (i32, i32), lent: Vec<u32>, said: Searched },
}

/// The numbers of a text.
fn numbers<T: std::str::FromStr>(text: &str) -> Vec<T> {
    text.split_whitespace().map(|w| w.parse().ok().unwrap_or_else(|| panic!("{w} is no number"))).collect()
}

/// The sheet of a line.
fn sheet(text: &str) -> Sheet {
    let parts: Vec<&str> = text.split('|').collect();
    let head: Vec<i64> = numbers(parts[0]);
    Sheet { west: head[0] as i32, east: head[1] as i32, zones: head[2] as u32, vertices: numbers(parts[1]), edges: numbers(parts[2]) }
}

/// The kind, the number, and the item that a refusal names.
fn answer(text: &str) -> [u32; 3] {
    let (kind, rest) = text.trim().split_once(' ').expect("a kind");
    let values: Vec<u32> = numbers(rest);
    match kind {
        "vertex" => [1, values[0], 0],
        "edge" => [2, values[0], 0],
        "zone" => [3, values[0], 0],
        "refused" => [0, values[0], values[1]],
        other => panic!("unknown answer {other}"),
    }
}

/// What opening says and leaves of these words.
fn opened(text: &str, lent: &[u32]) -> Opened {
    match text.trim().split_once(' ').expect("an answer") {
        ("opened", words) => ([0, 0], numbers(words)),
        ("refused", values) => (numbers(values).try_into().expect("a number and an item"), lent.to_vec()),
        (other, _) => panic!("unknown answer {other}"),
    }
}

/// What a search says and leaves of so many words.
fn searched(text: &str, words: usize) -> Searched {
    let (said, counted) = text.split_once("trail").unwrap_or((text, "probes 0"));
    let (entries, probes) = counted.split_once("probes").expect("the probes");
    let ([kind, number, item], mut trail) = (answer(said), numbers::<u32>(entries));
    let out = [kind, number, item, trail.len() as u32, numbers(probes)[0]];
    trail.resize(words, LENT);
    (out, trail)
}

impl Line {
    /// Reads a line.
    pub fn read(text: &str) -> Line {
        let (name, rest) = text.split_once(' ').expect("the name of a call");
        let (call, said) = rest.split_once("->").unwrap_or((rest, ""));
        match name {
            "sheet" => return Line::Sheet(sheet(rest)),
            "lend" => return Line::Lend(numbers(rest)),
            _ => {}
        }
        let call: Vec<i32> = numbers(call);
        let lent = |words: i32| vec![LENT; words as usize];
        match (name, &call[..]) {
            ("open", &[words]) => Line::Open { lent: lent(words), said: opened(said, &lent(words)) },
            ("read", &[x, y]) => Line::Read { point: (x, y), said: answer(said) },
            ("search", &[x, y, words]) => Line::Search { point: (x, y), lent: lent(words), said: searched(said, words as usize) },
            _ => panic!("unknown call {text}"),
        }
    }
}

/// The files of calls in the folder of the vectors, by name: each a name and its lines.
pub fn files(folder: &Path) -> Vec<(String, Vec<String>)> {
    let name = |path: &Path| path.file_name().expect("a name").to_string_lossy().into_owned();
    let mut paths: Vec<_> = fs::read_dir(folder).expect("the vectors").map(|entry| entry.expect("a file").path()).collect();
    paths.retain(|path| name(path).starts_with("base-"));
    paths.sort();
    let lines = |text: String| text.lines().filter(|line| !line.trim().is_empty()).map(String::from).collect();
    paths.iter().map(|path| (name(path), lines(fs::read_to_string(path).expect("lines")))).collect()
}
