//! The tables of a plan as bytes, on any bytes: an entry by its place, and the stretch of a slot's arrivals.

use crate::plan;

/// The words of the entry at a place that is counted from 0; a word past the last whole word of the table is 0.
pub fn entry<const N: usize>(table: &[u8], place: usize) -> [u32; N] {
    let mut words = [0; N];
    for (i, word) in words.iter_mut().enumerate() {
        let at = 4 * (place as u128 * N as u128 + i as u128);
        if at + 4 <= table.len() as u128 {
            *word = plan::word(&table[at as usize..]);
        }
    }
    words
}

/// The stretch of a slot in a table of arrivals, as its first byte and its size: from the first entry, at the place `from` or after it,
/// that is not before the slot, up to the next one that is after it. 0 and 0 where it is empty.
pub fn stretch(arrivals: &[u8], from: usize, slot: u32) -> (usize, usize) {
    let count = arrivals.len() / 12;
    let slot_of = |i: usize| plan::word(&arrivals[12 * i..]);
    let Some(first) = (from..count).find(|&i| slot_of(i) >= slot) else {
        return (0, 0);
    };
    let after = (first..count).find(|&i| slot_of(i) > slot).unwrap_or(count);
    if after == first {
        return (0, 0);
    }
    (12 * first, 12 * (after - first))
}
