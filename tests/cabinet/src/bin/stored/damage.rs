//! Damages each word of a stored sound state in turn: a digit for each word, whose bits 1, 2, 4 and 8 say that the words are sound with
//! 0, the value plus one, the value minus one and 4,294,967,295 there.

use crate::bytes;
use cabinet::calls;
use cabinet::guarded::Guarded;
use reference::plan;
use reference::words::BOX_WORDS;

/// Words after the last packet that are damaged too: they are free.
const FREE: usize = 5;
/// Digits on a line.
const WIDTH: usize = 64;

pub fn lines() -> Vec<String> {
    let mut words = plan::words(&bytes("damage", "state"));
    let damaged = words.len() + FREE;
    words.resize(BOX_WORDS, 0);
    let digits: Vec<char> = (0..damaged).map(|place| digit(&mut words, place)).collect();
    digits.chunks(WIDTH).map(|row| row.iter().collect()).collect()
}

/// The four verdicts on one word, as one digit.
fn digit(words: &mut [u32], place: usize) -> char {
    let value = words[place];
    let mut bits = 0;
    for (bit, damage) in [0, value.saturating_add(1), value.saturating_sub(1), u32::MAX].into_iter().enumerate() {
        words[place] = damage;
        bits |= (judged(words) as u32) << bit;
    }
    words[place] = value;
    char::from_digit(bits, 16).expect("four bits")
}

/// Whether the library calls the words sound.
fn judged(words: &[u32]) -> bool {
    let lent = Guarded::new(words);
    let number = calls::is_sound(lent.lent());
    assert!(lent.is(words), "is_sound changed a word");
    assert!(number <= 1, "is_sound gave {number}");
    number == 0
}
