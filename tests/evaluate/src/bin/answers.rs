//! What the program prints for a page, by plain means: reads the page on standard input and prints its answers.
use evaluate::pages;
use std::io::{self, Read};

fn main() -> io::Result<()> {
    let mut page = vec![];
    io::stdin().read_to_end(&mut page)?;
    print!("{}", pages::place(&page));
    Ok(())
}
