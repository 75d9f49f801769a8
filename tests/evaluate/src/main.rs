//! Writes a repository in which the checker evaluates the definitions of document 01 on the outside vectors: each call of a small sheet
//! becomes an equation between the definition and the vector's answer, closed by computation. The vectors were made for the limits before
//! P5, under which their answers are compared; where the limits make a difference, the answer given now is compared too. Their refusal 13
//! names the zone that it named before P4: that zone is compared with the line as it stood, and the zone named now is the one that the
//! closure of the steps gives.
//!
//! `evaluate VECTORS REPOSITORY`: VECTORS is the folder of base-*.txt, REPOSITORY is made anew.
use evaluate::amended::{self, Amended, Opened, Searched};
use evaluate::sheet::Sheet;
use evaluate::vectors::{files, Line, LENT};
use std::fmt::Write as _;
use std::{env, fs, path::Path};

/// Sheets with more edges than this are left to the code's own tests: the definitions are not made to be quick.
const EDGES: usize = 12;

/// On sheets with more vertices than this no plain reading is taken under the limits as they are.
const VERTICES: usize = 64;

/// The plain readings taken of one sheet: each judges the sheet anew.
const READINGS: usize = 4;

const USES: &str = "\
use Rattle.std.specs.Prelude.{◌≡◌, refl, List, [], ◌∷◌, pos, negsuc, replicate, Ok}
use Rattle.subdivision.specs.declared.Answer.{Answer}
use Rattle.subdivision.specs.Results.{passed, refused}
use Rattle.subdivision.specs.Limits.{earlier_limits}
use Rattle.subdivision.specs.Lowest.{lowest}
use Rattle.subdivision.specs.Lists.{tab}
use Rattle.subdivision.specs.Dyadic.{bits, top_bit, low_bit, lca}
use Rattle.subdivision.specs.Order.{in_order}
use Rattle.subdivision.specs.Sheet.{Sheet}
use Rattle.subdivision.specs.ZoneLine.{next_zone, zone_line}
use Rattle.subdivision.specs.Reading.{first_zone, zone_beneath, plain_reading}
use Rattle.subdivision.specs.Index.{place_of, zone_at, chain_of, eastward, chain, start_of, index_words}
use Rattle.subdivision.specs.Descent.{descent, index_descent}
use Rattle.subdivision.specs.Refusals.{names}
use Rattle.subdivision.specs.Earlier.{earlier_circle_refusal}
use Rattle.subdivision.specs.Calls.{Opened, Searched, opening_under, reading_under, searching_under, opening, reading, searching}
";
const UNFOLDING: &str = "unfolding opening reading searching descent index_descent place_of zone_at chain_of eastward chain start_of \
index_words first_zone zone_beneath plain_reading next_zone zone_line in_order bits top_bit low_bit lca lowest tab";

fn integer(v: i32) -> String {
    if v < 0 { format!("negsuc {}", -1 - i64::from(v)) } else { format!("pos {v}") }
}

fn list(words: impl Iterator<Item = String>) -> String {
    words.fold(String::new(), |l, w| l + &w + " ∷ ") + "[]"
}

fn words(w: &[u32]) -> String {
    list(w.iter().map(u32::to_string))
}

/// An answer of this kind, which is no refusal's.
fn answer(kind: u32, number: u32) -> String {
    format!("Answer.{} {number}", ["Vertex", "Edge", "Zone"][kind as usize - 1])
}

/// The equation of an opening by this definition.
fn opened(opening: &str, lent: usize, ([number, item], left): &Opened) -> String {
    let result = match number {
        0 => format!("verdict = passed; index = {}", words(left)),
        _ => format!("verdict = refused {number} {item}; index = replicate {lent} {LENT}"),
    };
    format!("{opening} sheet (replicate {lent} {LENT}) ≡ record {{ {result} }}")
}

/// The equation of a reading by this definition.
fn read(reading: &str, (x, y): (i32, i32), [kind, number, item]: [u32; 3]) -> String {
    let reply = match kind {
        0 => format!("refused {number} {item}"),
        _ => format!("Ok ({})", answer(kind, number)),
    };
    format!("{reading} sheet ({}) ({}) ≡ {reply}", integer(x), integer(y))
}

/// The equation of a search by this definition.
fn searched(searching: &str, index: &[u32], (x, y): (i32, i32), (out, left): &Searched) -> String {
    let &[kind, number, item, examined, probes] = out;
    let found = match kind {
        0 => {
            assert_eq!([examined, probes], [0, 0], "a refused search counts nothing");
            format!("refused {number} {item}")
        }
        _ => format!("Ok (record {{ answer = {}; examined = {examined}; probes = {probes} }})", answer(kind, number)),
    };
    format!(
        "{searching} sheet ({}) ({}) ({}) (replicate {} {LENT}) ≡ record {{ found = {found}; trail = {} }}",
        words(index), integer(x), integer(y), left.len(), words(left)
    )
}

/// The equations of the calls of one sheet, as a module.
struct Module {
    text: String,
    cases: usize,
    sheet: Sheet,
    readings: usize,
}

impl Module {
    /// No equation yet.
    fn new(sheet: Sheet) -> Self {
        let mut text = format!("{USES}\nabbrev sheet : Sheet\n");
        let vertices = list(sheet.vertices.iter().map(|&c| integer(c)));
        let (west, east, edges, n) = (integer(sheet.west), integer(sheet.east), words(&sheet.edges), sheet.zones);
        writeln!(text, "sheet = record {{ west = {west}; east = {east}; vertices = {vertices}; edges = {edges}; zones = {n} }}").unwrap();
        Module { text, cases: 0, sheet, readings: 0 }
    }

    /// Adds an equation.
    fn equate(&mut self, equation: &str) {
        self.cases += 1;
        write!(self.text, "\ncase{0} : {equation}\n{UNFOLDING}\ncase{0} = refl\n", self.cases).unwrap();
    }

    /// Adds the equation of a call under the earlier limits, and that of the call where the limits make a difference; says whether it is
    /// added.
    fn call<T: std::fmt::Debug + PartialEq>(&mut self, name: &str, a: &Amended<T>, equation: impl Fn(&str, &T) -> String) -> bool {
        self.equate(&equation(&format!("{name}_under earlier_limits"), &a.earlier));
        let evaluated = a.differs() && (name != "reading" || self.sheet.vertices.len() <= 2 * VERTICES);
        if evaluated {
            self.equate(&equation(name, &a.now));
        }
        evaluated
    }

    /// Adds the equations of a line, over these index words; says how many calls are evaluated, and how many of them as given now.
    fn line(&mut self, line: &Line, index: &[u32]) -> [usize; 2] {
        let s = self.sheet.clone();
        let differs = match line {
            Line::Sheet(_) | Line::Lend(_) => return [0, 0],
            Line::Read { .. } if self.readings == READINGS => return [0, 0],
            Line::Open { lent, said } => {
                let differs = self.call("opening", &amended::open(&s, lent, said), |name, a| opened(name, lent.len(), a));
                if said.0[0] == 13 {
                    self.equate(&format!("names (earlier_circle_refusal sheet) ≡ {}", said.0[1]));
                }
                differs
            }
            Line::Read { point, said } => {
                self.readings += 1;
                self.call("reading", &amended::read(&s, *point, *said), |name, a| read(name, *point, *a))
            }
            Line::Search { point, lent, said } => {
                self.call("searching", &amended::search(&s, index, *point, lent, said), |name, a| searched(name, index, *point, a))
            }
        };
        [1, differs as usize]
    }
}

/// Makes the modules of a file of vectors, one for each small sheet, and counts the calls.
fn modules(lines: &[String], calls: &mut [usize; 2]) -> Vec<String> {
    let (mut list, mut index): (Vec<Module>, Vec<u32>) = (vec![], vec![]);
    let mut taken = false;
    for line in lines.iter().map(|line| Line::read(line)) {
        if let Line::Sheet(sheet) = line {
            taken = sheet.edges.len() <= 4 * EDGES;
            list.extend(taken.then(|| Module::new(sheet)));
            continue;
        }
        if let Some(module) = list.last_mut().filter(|_| taken) {
            let [made, moved] = module.line(&line, &index);
            *calls = [calls[0] + made, calls[1] + moved];
        }
        match line {
            Line::Open { said, .. } => index = said.1,
            Line::Lend(words) => index = words,
            _ => {}
        }
    }
    list.into_iter().filter(|module| module.cases > 0).map(|module| module.text).collect()
}

fn main() {
    let arguments: Vec<String> = env::args().collect();
    let (vectors, repository) = (Path::new(&arguments[1]), Path::new(&arguments[2]));
    let specs = repository.join("crates/vectors/specs");
    fs::create_dir_all(&specs).expect("a folder");
    let (mut names, mut calls) = (vec![], [0, 0]);
    for (_, lines) in files(vectors) {
        for module in modules(&lines, &mut calls) {
            names.push(format!("Sheet{}", names.len() + 1));
            fs::write(specs.join(format!("{}.antt", names[names.len() - 1])), module).expect("a module");
        }
    }
    assert!(calls.iter().all(|&count| count > 0), "no line of the vectors was taken");
    fs::write(specs.join("Lib.antt"), names.iter().map(|name| format!("pub mod {name}\n")).collect::<String>()).expect("the root module");
    fs::create_dir_all(repository.join("crates/vectors/src")).expect("a folder");
    fs::write(repository.join("crates/vectors/src/lib.rt"), "// Equations only: specs/.\n").expect("the library");
    fs::write(repository.join("crates.txt"), "subdivision:\nvectors: subdivision\n").expect("crates.txt");
    println!("{} calls on {} sheets, {} of them under the limits as they are too", calls[0], names.len(), calls[1]);
}
