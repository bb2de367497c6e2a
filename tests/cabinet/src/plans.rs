//! Plan files by chance: good ones, and damaged ones.

use crate::boxes::{asked, Settings, EDGES};
use crate::chance::Chance;
use reference::plan::{self, Plan};

pub const LAST_ARRIVAL: u32 = 1_000_000;
pub const MOST_ARRIVALS: u64 = 4096;

/// A plan that reads well, since the reader leaves the ranges of its entries to others.
pub fn readable(chance: &mut Chance) -> Plan {
    let count = if chance.one_in(400) { chance.between(MOST_ARRIVALS - 1, MOST_ARRIVALS) } else { chance.below(24) };
    let connections = if chance.one_in(20) { 32 } else { chance.below(8) };
    Plan {
        interval: any_number(chance),
        cycle: any_number(chance),
        factors: (0..chance.below(9)).map(|_| any_number(chance)).collect(),
        connections: (0..connections).map(|_| [0; 4].map(|_| any_number(chance))).collect(),
        arrivals: arrivals(chance, count),
    }
}

fn any_number(chance: &mut Chance) -> u32 {
    match chance.below(4) {
        0 => chance.word(),
        1 => chance.pick(&EDGES),
        _ => chance.below(70) as u32,
    }
}

/// Arrivals at slots that do not fall, several at one slot, now and then up to the last one that is allowed.
fn arrivals(chance: &mut Chance, count: u64) -> Vec<[u32; 3]> {
    let mut slots: Vec<u32> = vec![];
    let mut slot = 0;
    for _ in 0..count {
        slot += chance.pick(&[0, 0, 0, 1, 1, 2, 200]);
        slots.push(slot);
    }
    if chance.one_in(4) {
        slots.iter_mut().for_each(|s| *s += LAST_ARRIVAL - slot);
    }
    slots.into_iter().map(|slot| [slot, any_number(chance), any_number(chance)]).collect()
}

/// A plan whose box opens and whose connections and arrivals are mostly in range, so that it runs.
pub fn runnable(chance: &mut Chance) -> Plan {
    let settings = if chance.one_in(20) { Settings::any(chance) } else { Settings::small(chance) };
    let mux = settings.opened();
    let connections: Vec<[u32; 4]> = (0..chance.below(12)).map(|_| asked(chance, &mux)).collect();
    let count = chance.below(120);
    let mut arrivals = arrivals(chance, count);
    if !chance.one_in(60) {
        // a run of few slots, since each of a million costs a test of soundness
        let first = arrivals.first().map_or(0, |a| a[0]);
        arrivals.iter_mut().for_each(|a| a[0] -= first);
    }
    for arrival in &mut arrivals {
        arrival[1] = chance.between(0, connections.len() as u64 + 1) as u32;
        let longest = connections.get(arrival[1].wrapping_sub(1) as usize).map_or(1, |c| c[1]);
        let wrong = chance.pick(&EDGES);
        arrival[2] = chance.pick(&[longest, longest, longest, 1, 1, 0, wrong]);
    }
    Plan { interval: settings.interval, cycle: settings.cycle, factors: settings.factors, connections, arrivals }
}

pub fn word_of(bytes: &[u8], place: usize) -> u32 {
    plan::word(&bytes[4 * place..])
}

pub fn put_word(bytes: &mut [u8], place: usize, word: u32) {
    bytes[4 * place..4 * place + 4].copy_from_slice(&word.to_le_bytes());
}

/// Solves the sum word anew, so that the later tests of the reader are reached.
pub fn solve_sum(bytes: &mut [u8]) {
    if bytes.len() >= 40 {
        let sum = plan::words(bytes).iter().fold(0u32, |a, &w| a.wrapping_add(w));
        let old = word_of(bytes, 9);
        put_word(bytes, 9, old.wrapping_sub(sum));
    }
}

/// A good plan, or one that is damaged in one of the ways that the reader must see.
pub fn damaged(chance: &mut Chance) -> Vec<u8> {
    let good = readable(chance);
    let mut bytes = plan::write(&good).expect("a readable plan");
    let solved = !chance.one_in(4);
    match chance.below(9) {
        0 => return bytes,
        1 => return changed_bytes(chance, bytes),
        2 => return resized(chance, bytes),
        3 => {
            bytes = resized(chance, bytes);
            if bytes.len() >= 4 {
                let size = bytes.len() as u32;
                put_word(&mut bytes, 0, size);
            }
        }
        4 | 5 => {
            let place = chance.between(1, 8) as usize;
            change_word(chance, &mut bytes, place);
        }
        6 => {
            let place = chance.between(1, bytes.len() as u64 / 4 - 1) as usize;
            change_word(chance, &mut bytes, place);
        }
        7 => change_slots(chance, &mut bytes, &good),
        _ => move_tables(chance, &mut bytes),
    }
    if solved {
        solve_sum(&mut bytes);
    }
    bytes
}

fn changed_bytes(chance: &mut Chance, mut bytes: Vec<u8>) -> Vec<u8> {
    for _ in 0..chance.between(1, 3) {
        let place = chance.below(bytes.len() as u64) as usize;
        bytes[place] ^= 1 << chance.below(8);
    }
    bytes
}

/// Cut short or made longer, mostly by whole words.
fn resized(chance: &mut Chance, mut bytes: Vec<u8>) -> Vec<u8> {
    let by = chance.between(1, 12) as usize * if chance.one_in(3) { 1 } else { 4 };
    let size = match chance.below(10) {
        0 => chance.below(44) as usize,
        1 if chance.one_in(10) => chance.pick(&[65_532, 65_536, 65_537, 65_540]),
        2..=5 => bytes.len().saturating_sub(by),
        _ => bytes.len() + by,
    };
    bytes.resize(size, chance.word() as u8);
    bytes
}

fn change_word(chance: &mut Chance, bytes: &mut [u8], place: usize) {
    let old = word_of(bytes, place);
    let word = match chance.below(6) {
        0 => chance.pick(&EDGES),
        1 => old ^ (1 << chance.below(32)),
        2 => old.wrapping_add(chance.pick(&[1, 4, 12, 16])),
        3 => old.wrapping_sub(chance.pick(&[1, 4, 12, 16])),
        // counts whose bytes wrap to those of a smaller count
        4 => old ^ chance.pick(&[1 << 30, 1 << 29, 1 << 28, 1 << 31]),
        _ => chance.word(),
    };
    put_word(bytes, place, word);
}

/// Lets slots fall, or puts one beyond the last that is allowed.
fn change_slots(chance: &mut Chance, bytes: &mut [u8], good: &Plan) {
    let count = good.arrivals.len();
    if count == 0 {
        return;
    }
    let first = bytes.len() / 4 - 3 * count;
    let (a, b) = (first + 3 * chance.below(count as u64) as usize, first + 3 * chance.below(count as u64) as usize);
    if chance.one_in(2) {
        let (at_a, at_b) = (word_of(bytes, a), word_of(bytes, b));
        put_word(bytes, a, at_b);
        put_word(bytes, b, at_a);
    } else {
        put_word(bytes, a, chance.pick(&[0, LAST_ARRIVAL, LAST_ARRIVAL + 1, u32::MAX]));
    }
}

/// Tells the same bytes as other tables: four factors make a connection, three connections four arrivals. The layout may be right again.
fn move_tables(chance: &mut Chance, bytes: &mut [u8]) {
    let [mut classes, mut connections, mut arrivals] = [3, 5, 7].map(|place| word_of(bytes, place));
    if chance.one_in(2) && classes >= 4 {
        (classes, connections) = (classes - 4, connections + 1);
    } else if connections >= 3 {
        (connections, arrivals) = (connections - 3, arrivals + 4);
    } else if arrivals >= 4 {
        (connections, arrivals) = (connections + 3, arrivals - 4);
    }
    let at = 40 + 4 * classes;
    for (place, word) in [(3, classes), (5, connections), (6, at), (7, arrivals), (8, at + 16 * connections)] {
        put_word(bytes, place, word);
    }
}
