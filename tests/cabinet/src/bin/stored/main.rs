//! Tries the library on the stored cases of tests/stored: `cabinet-stored` prints one line for each part, or where a part differs from its
//! stored lines, and exit status 1.

mod calls_made;
mod damage;
mod plans;

use cabinet::calls::Answered;
use std::path::PathBuf;
use std::process::ExitCode;

/// A part gives the lines that it finds, in order.
type Part = fn() -> Vec<String>;

const PARTS: &[(&str, Part)] = &[("plans", plans::lines), ("calls", calls_made::lines), ("damage", damage::lines)];

/// The path of a file of tests/stored.
fn path(folder: &str, name: &str) -> PathBuf {
    [env!("CARGO_MANIFEST_DIR"), "..", "stored", folder, name].iter().collect()
}

/// The bytes of a file of tests/stored.
fn bytes(folder: &str, name: &str) -> Vec<u8> {
    let path = path(folder, name);
    std::fs::read(&path).unwrap_or_else(|e| panic!("{}: {e}", path.display()))
}

/// What a call gave, once it is seen that it left the words around its fields alone.
fn given<T, const N: usize>(answered: Answered<T, N>) -> (u32, [T; N]) {
    assert!(answered.guards_stand, "a call wrote beside its fields");
    (answered.number, answered.fields)
}

/// The first place at which the lines differ from the stored ones.
fn difference(folder: &str, found: &[String]) -> Option<String> {
    let text = String::from_utf8(bytes(folder, "lines")).expect("stored lines");
    let stored: Vec<&str> = text.lines().collect();
    let at = (0..stored.len().max(found.len())).find(|&i| stored.get(i).copied() != found.get(i).map(String::as_str))?;
    Some(format!("line {} is {:?}, but must be {:?}", at + 1, found.get(at), stored.get(at)))
}

fn main() -> ExitCode {
    for (name, part) in PARTS {
        let found = part();
        if let Some(what) = difference(name, &found) {
            println!("FAILED: stored {name}: {what}");
            return ExitCode::FAILURE;
        }
        println!("stored {name}: {} lines, all as stored", found.len());
    }
    ExitCode::SUCCESS
}
