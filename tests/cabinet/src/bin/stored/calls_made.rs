//! Makes the calls that the files of tests/stored/calls list, on lent words, and tells what each answers. A call is a row of five words:
//! its kind, and four numbers. tests/make_admission_vectors.py writes the files, and the answers from document 01 and from
//! tests/reference.

use crate::{bytes, given};
use cabinet::calls;
use cabinet::guarded::Guarded;
use reference::plan;
use reference::words::BOX_WORDS;

pub fn lines() -> Vec<String> {
    ["sides", "numbers", "tables"].into_iter().flat_map(listed).collect()
}

/// The calls of one file, on words of its own.
fn listed(name: &str) -> Vec<String> {
    let mut lent = Guarded::new(&[0; BOX_WORDS]);
    let mut factors = [0; 8];
    let mut lines = vec![name.to_string()];
    for row in plan::words(&bytes("calls", name)).chunks_exact(5) {
        lines.extend(made(lent.lent_mut(), &mut factors, row));
        assert!(lent.is(&lent.lent().to_vec()), "a call wrote beside the lent words");
    }
    lines
}

/// One call, and its line; a row that sets a factor for the next opening, or a word of the box, has none.
fn made(words: &mut [u32], factors: &mut [u32; 8], row: &[u32]) -> Option<String> {
    let [a, b, c, d] = [row[1], row[2], row[3], row[4]];
    match row[0] {
        0 => return Some(format!("OPEN {}", calls::open(&mut words[..d as usize], a, b, &factors[..c as usize]))),
        1 => return Some(admitted(given(calls::admit(words, [a, b, c, d])))),
        2 => return Some(offered(given(calls::offer(words, a, b)))),
        3 => return Some(stepped(given(calls::step(words)))),
        4 => factors[a as usize] = b,
        5 => words[a as usize] = b,
        kind => panic!("no call has the kind {kind}"),
    }
    None
}

/// An admission, with the connection's number or t.
fn admitted(answer: (u32, [u32; 2])) -> String {
    match answer {
        (0, [connection, 0]) => format!("ADMIT 0 {connection}"),
        (6, [0, t]) => format!("ADMIT 6 {t}"),
        (number, [0, 0]) => format!("ADMIT {number} 0"),
        other => format!("ADMIT with the fields {other:?}"),
    }
}

/// An offer, with the packet's serial.
fn offered((number, [serial]): (u32, [u32; 1])) -> String {
    format!("OFFER {number} {serial}")
}

fn stepped(answer: (u32, [u32; 5])) -> String {
    match answer {
        (0, [0, 0, 0, 0, 0]) => "IDLE".into(),
        (0, [serial, 0, connection, arrival, departure]) => format!("DEPARTED {serial} {connection} {arrival} {departure}"),
        (0, [serial, left, 0, 0, 0]) => format!("SENDING {serial} {left}"),
        (number, [0, 0, 0, 0, 0]) => format!("STEP {number}"),
        other => format!("STEP with the fields {other:?}"),
    }
}
