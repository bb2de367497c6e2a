//! Lengths one short and one long.

use cabinet::boxes::{any_with_waiting, free_words, newcomer, offer, words_of};
use cabinet::call::Call;
use cabinet::calls;
use cabinet::chance::Chance;
use cabinet::plans::{put_word, solve_sum};
use cabinet::share;
use cabinet::tally::Tally;
use cabinet::trial::Trial;
use reference::words::BOX_WORDS;

use crate::plan_files;

const STATES: u64 = 2_000;
const WORDS: [usize; 9] = [0, 1, 11, 274, 275, 4369, 4370, 4371, 4372];
/// D and a factor, whose product is 1,024 or 1,025, or whose factor is at an edge.
const BOUNDS: [(u32, u32); 9] = [(256, 4), (16, 64), (64, 16), (205, 5), (41, 25), (25, 41), (1, 63), (1, 64), (1, 0)];

pub fn part(seed: u64) -> Result<String, String> {
    if calls::box_words() != BOX_WORDS {
        return Err(format!("box_words gave {}", calls::box_words()));
    }
    let mut tally = Tally::default();
    for state in 0..share::of(STATES) {
        let failed = |what| format!("state {state}: {what}");
        let mut chance = Chance::new(seed, 6, state);
        cut_states(&mut chance, &mut tally).map_err(failed)?;
        one_too_many(&mut chance, &mut tally).map_err(failed)?;
        openings(&mut chance, &mut tally).map_err(failed)?;
    }
    plan_sizes(&mut tally)?;
    plan_counts(&mut tally)?;
    Ok(format!("{} calls at the edges of lengths, answers {}", tally.calls(), tally.line(&[0, 1, 2, 13, 15, 17], 1)?))
}

/// A sound state, lent short, exact and long: every call answers 1 where it is short.
fn cut_states(chance: &mut Chance, tally: &mut Tally) -> Result<(), String> {
    let waiting = chance.pick(&[0, 0, 3, 1024]);
    let mux = any_with_waiting(chance, waiting);
    let words = words_of(chance, &mux, 1);
    for count in WORDS {
        for call in [Call::IsSound, Call::Step, offer(chance, &mux), newcomer(chance, &mux)] {
            let sound = Trial::new(words[..count].to_vec()).call_on_any(call)?;
            if sound != (count >= BOX_WORDS) {
                return Err(format!("{count} words were found sound: {sound}"));
            }
            tally.count(!sound as u32);
        }
    }
    Ok(())
}

/// 1,025 waiting packets, in words enough for them, are not sound.
fn one_too_many(chance: &mut Chance, tally: &mut Tally) -> Result<(), String> {
    let mux = any_with_waiting(chance, 1025);
    let mut trial = Trial::new(words_of(chance, &mux, 4));
    for call in [Call::IsSound, Call::Step, offer(chance, &mux), newcomer(chance, &mux)] {
        if trial.call_on_any(call)? {
            return Err("1,025 waiting packets were found sound".into());
        }
        tally.count(1);
    }
    Ok(())
}

/// Openings with 0, 1, 8 and 9 factors, in range and off it, in words short, exact and long.
fn openings(chance: &mut Chance, tally: &mut Tally) -> Result<(), String> {
    for count in WORDS {
        for classes in [0, 1, 8, 9] {
            let factors: Vec<u32> = (1..=classes).collect();
            for interval in [0, 1, 113, 114, 128, 129, 256, 257] {
                let mut trial = Trial::new(free_words(chance, count));
                let (number, _) = trial.open(interval, chance.pick(&[0, 1, 4096, 4096, 4097]), &factors)?;
                tally.count(number);
            }
        }
    }
    for (interval, factor) in BOUNDS {
        let (number, _) = Trial::new(free_words(chance, BOX_WORDS)).open(interval, 1, &[factor])?;
        tally.count(number);
    }
    Ok(())
}

/// Plans of sizes at the edges, whose size word and sum are right; and the same with a wrong size word.
fn plan_sizes(tally: &mut Tally) -> Result<(), String> {
    for size in [0, 1, 3, 4, 8, 36, 39, 40, 41, 43, 44, 65_532, 65_535, 65_536, 65_537, 65_540] {
        let mut bytes = vec![0; size];
        if size >= 40 {
            for (place, word) in [(0, size as u32), (4, 40), (6, 40), (8, 40)] {
                put_word(&mut bytes, place, word);
            }
            solve_sum(&mut bytes);
        }
        tally.count(plan_files::read(&bytes)?);
        if size >= 40 {
            put_word(&mut bytes, 0, size as u32 + 4);
            solve_sum(&mut bytes);
            tally.count(plan_files::read(&bytes)?);
        }
    }
    Ok(())
}

/// Plans whose layout is right, with counts one below, at and one above the most that are allowed.
fn plan_counts(tally: &mut Tally) -> Result<(), String> {
    for classes in 7..=9 {
        for connections in 31..=33 {
            for arrivals in 4095..=4097 {
                let at = 40 + 4 * classes;
                let size = at + 16 * connections + 12 * arrivals;
                let mut bytes = vec![0; size as usize];
                let header = [size, 4, 8, classes, 40, connections, at, arrivals, at + 16 * connections];
                for (place, word) in header.into_iter().enumerate() {
                    put_word(&mut bytes, place, word);
                }
                solve_sum(&mut bytes);
                tally.count(plan_files::read(&bytes)?);
            }
        }
    }
    Ok(())
}
