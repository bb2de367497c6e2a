//! Sound states with one to four words changed: each call answers 1 exactly where the reference finds the state not sound, and where it
//! is still sound, what the reference answers.

use cabinet::boxes::{any_with_waiting, newcomer, offer, words_of, EDGES};
use cabinet::call::Call;
use cabinet::chance::Chance;
use cabinet::share;
use cabinet::trial::Trial;
use reference::words::{ACCEPTED, BOX_WORDS, CONNECTIONS, COUNTER, LEFT, LENGTHS, ROWS, WAITING};
use reference::Multiplexer;

const STATES: u64 = 5_000;
const DAMAGES: u64 = 400;
/// Of each kind, sound and not, this share at least: one in so many.
const SHARE: u64 = 10;

pub fn part(seed: u64) -> Result<String, String> {
    let mut sound = 0;
    let states = share::of(STATES);
    for state in 0..states {
        let mut chance = Chance::new(seed, 2, state);
        let waiting = waiting_of(&mut chance, state);
        let mux = any_with_waiting(&mut chance, waiting);
        let words = words_of(&mut chance, &mux, state as usize % 3);
        let mut trial = Trial::new(words.clone());
        for n in 0..DAMAGES {
            let changed = damage(&mut chance, &mux, &mut trial);
            let call = nth_call(n, &mut chance, &mux);
            let failed = |what| format!("state {state}, damage {n} of words {changed:?}: {what}");
            sound += trial.call_on_any(call).map_err(failed)? as u64;
            trial.put(&words);
        }
    }
    let all = states * DAMAGES;
    if sound < all / SHARE || all - sound < all / SHARE {
        return Err(format!("of {all} damaged states {sound} were sound: one kind is hardly tried"));
    }
    Ok(format!("{all} damaged states, {sound} still sound, {} not sound", all - sound))
}

/// Empty, few or full.
fn waiting_of(chance: &mut Chance, state: u64) -> u64 {
    match state % 10 {
        0 | 1 => 0,
        2..=6 => chance.between(1, 12),
        7 | 8 => chance.between(13, 100),
        _ => chance.between(1000, 1024),
    }
}

fn nth_call(n: u64, chance: &mut Chance, mux: &Multiplexer) -> Call {
    match n % 4 {
        0 => Call::IsSound,
        1 => Call::Step,
        2 => offer(chance, mux),
        _ => newcomer(chance, mux),
    }
}

/// Changes one to four words; their places.
fn damage(chance: &mut Chance, mux: &Multiplexer, trial: &mut Trial) -> Vec<usize> {
    if chance.one_in(100) {
        return wrap_lengths(chance, trial);
    }
    let count = chance.pick(&[1, 1, 1, 2, 2, 3, 4]);
    let mut places = vec![];
    while places.len() < count {
        let place = any_place(chance, mux);
        if places.len() + 2 <= count && chance.one_in(3) {
            let other = swapped(chance, mux, place);
            let (a, b) = (trial.words()[place], trial.words()[other]);
            trial.put_word(place, b);
            trial.put_word(other, a);
            places.push(other);
        } else {
            let word = any_word(chance, trial.words(), place);
            trial.put_word(place, word);
        }
        places.push(place);
    }
    places
}

/// Two lengths of queues grow so that the sum of all is the same modulo 2^32.
fn wrap_lengths(chance: &mut Chance, trial: &mut Trial) -> Vec<usize> {
    let first = LENGTHS + chance.below(64) as usize;
    let second = LENGTHS + (first - LENGTHS + chance.between(1, 63) as usize) % 64;
    for place in [first, second] {
        trial.put_word(place, trial.words()[place] ^ 1 << 31);
    }
    vec![first, second]
}

/// A word of the tables, of a packet that waits, or of a free one.
fn any_place(chance: &mut Chance, mux: &Multiplexer) -> usize {
    let used = WAITING + 4 * mux.waiting.len();
    let rows = ROWS + 6 * mux.connections.len();
    let (low, beyond) = match chance.below(12) {
        0 => (0, ROWS),
        1..=3 if rows > ROWS => (ROWS, rows),
        4 => (rows.min(COUNTER - 1), COUNTER),
        5 => (COUNTER, LEFT),
        6 => (LEFT, LENGTHS),
        7 => (LENGTHS, WAITING),
        8..=10 if used > WAITING => (WAITING, used),
        _ if used < BOX_WORDS => (used, BOX_WORDS),
        _ => (0, BOX_WORDS),
    };
    chance.between(low as u64, beyond as u64 - 1) as usize
}

/// The place to swap a word with: the same word of a neighbouring packet, a neighbouring length, or any.
fn swapped(chance: &mut Chance, mux: &Multiplexer, place: usize) -> usize {
    let packets = WAITING..(WAITING + 4 * mux.waiting.len()).saturating_sub(4);
    match place {
        _ if packets.contains(&place) => place + 4,
        LENGTHS..WAITING => LENGTHS + (place - LENGTHS + 1) % 64,
        _ => any_place(chance, mux),
    }
}

fn any_word(chance: &mut Chance, words: &[u32], place: usize) -> u32 {
    let old = words[place];
    let near = chance.pick(&[COUNTER, ACCEPTED, 0, CONNECTIONS]);
    match chance.below(7) {
        0 | 1 => old ^ (1 << chance.below(32)),
        2 => old.wrapping_add(1),
        3 => old.wrapping_sub(1),
        4 => chance.pick(&EDGES),
        5 => words[near].wrapping_add(chance.below(3) as u32).wrapping_sub(1),
        _ => chance.word() >> chance.below(32),
    }
}
