//! Reads a plan on standard input and prints the lines of its run.
use std::io::{Read, Write};

fn main() {
    let mut bytes = vec![];
    std::io::stdin().read_to_end(&mut bytes).unwrap();
    std::io::stdout().write_all(reference::run::text(&bytes).as_bytes()).unwrap();
}
