//! The answer to an outside page as it is given now: reads the page on standard input and prints the answer. `amended ANSWER`: ANSWER is
//! the file with the answer that was given before P4 and P5.
use evaluate::amended;
use std::io::{self, Read};
use std::{env, fs};

fn main() -> io::Result<()> {
    let said = fs::read_to_string(env::args().nth(1).expect("a file"))?;
    let mut page = vec![];
    io::stdin().read_to_end(&mut page)?;
    print!("{}", amended::place(&page, &said).now);
    Ok(())
}
