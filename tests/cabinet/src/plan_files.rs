//! Plan files: read whole and damaged, written into too little and enough room, and their tables on any bytes.

use cabinet::boxes::EDGES;
use cabinet::calls::{self, Answered};
use cabinet::chance::Chance;
use cabinet::guarded::Guarded;
use cabinet::plans::{damaged, readable, LAST_ARRIVAL};
use cabinet::share;
use cabinet::tally::Tally;
use reference::plan::{self, Plan};
use reference::tables;

const READ: u64 = 200_000;
const WRITTEN: u64 = 60_000;
const TABLES: u64 = 200_000;
const LEAST: u64 = 5_000;

/// Places and sizes whose products wrap round.
const HUGE: [usize; 8] = [usize::MAX, usize::MAX / 3 + 1, usize::MAX / 12 + 1, 1 << 63, 1 << 62, (1 << 62) + 1, 1 << 60, (1 << 60) + 1];

pub fn reading(seed: u64) -> Result<String, String> {
    let mut tally = Tally::default();
    let plans = share::of(READ);
    for n in 0..plans {
        let bytes = damaged(&mut Chance::new(seed, 3, n));
        let number = read(&bytes).map_err(|what| format!("plan {n}: {what}"))?;
        tally.count(number);
    }
    Ok(format!("{plans} plans read, answers {}", tally.line(&[0, 13, 14, 15, 16], share::of(LEAST))?))
}

/// Reads a plan and, where it is good, all entries of its tables and the arrivals of its slots.
pub fn read(bytes: &[u8]) -> Result<u32, String> {
    let lent = Guarded::new(bytes);
    let good = plan::read(bytes);
    let expected = match &good {
        Err(number) => Answered::must_be(*number as u32, [0; 8]),
        Ok(plan) => Answered::must_be(0, header(plan)),
    };
    let given = calls::read_plan(lent.lent());
    if given != expected {
        return Err(format!("read_plan gave {given:?}, but must give {expected:?}: {:?}", &bytes[..bytes.len().min(400)]));
    }
    if let Ok(plan) = good {
        all_entries(lent.lent(), &plan)?;
        all_slots(&lent.lent()[expected.fields[7] as usize..], &plan)?;
    }
    if !lent.is(bytes) {
        return Err("reading changed bytes".into());
    }
    Ok(expected.number)
}

/// D, M, and count and offset of each table.
fn header(plan: &Plan) -> [u32; 8] {
    let [classes, connections, arrivals] = [plan.factors.len(), plan.connections.len(), plan.arrivals.len()].map(|n| n as u32);
    let at = 40 + 4 * classes;
    [plan.interval, plan.cycle, classes, 40, connections, at, arrivals, at + 16 * connections]
}

/// Every entry through the library, from the tables that start at their offsets.
fn all_entries(bytes: &[u8], plan: &Plan) -> Result<(), String> {
    let [.., connections_at, _, arrivals_at] = header(plan).map(|n| n as usize);
    let (classes, connections, arrivals) = (&bytes[40..connections_at], &bytes[connections_at..arrivals_at], &bytes[arrivals_at..]);
    for (i, &factor) in plan.factors.iter().enumerate() {
        same("factor", i, calls::factor(classes, i), [factor])?;
    }
    for (i, &entry) in plan.connections.iter().enumerate() {
        same("connection", i, calls::connection(connections, i), entry)?;
    }
    for (i, &entry) in plan.arrivals.iter().enumerate() {
        same("arrival", i, calls::arrival(arrivals, i), entry)?;
    }
    same("factor", plan.factors.len(), calls::factor(classes, plan.factors.len()), [0])?;
    same("connection", plan.connections.len(), calls::connection(connections, plan.connections.len()), [0; 4])?;
    same("arrival", plan.arrivals.len(), calls::arrival(arrivals, plan.arrivals.len()), [0; 3])
}

/// The slots in order, without starting again from the front: each stretch is just the arrivals whose slot it is.
fn all_slots(arrivals: &[u8], plan: &Plan) -> Result<(), String> {
    let mut from = 0;
    while from < plan.arrivals.len() {
        let slot = plan.arrivals[from][0];
        let count = plan.arrivals.iter().filter(|a| a[0] == slot).count();
        same("slot_arrivals", from, calls::slot_arrivals(arrivals, from, slot), [12 * from, 12 * count])?;
        same("slot_arrivals", 0, calls::slot_arrivals(arrivals, 0, slot), [12 * from, 12 * count])?;
        from += count;
        same("slot_arrivals after it", from, calls::slot_arrivals(arrivals, from, slot), [0, 0])?;
    }
    Ok(())
}

fn same<T, const N: usize>(what: &str, place: usize, given: Answered<T, N>, fields: [T; N]) -> Result<(), String>
where
    T: Copy + PartialEq + std::fmt::Debug,
{
    if given == Answered::must_be(0, fields) {
        return Ok(());
    }
    Err(format!("{what} at {place} gave {given:?}, but must give 0, {fields:?}"))
}

pub fn tables_of_any_bytes(seed: u64) -> Result<String, String> {
    let mut stretches = 0;
    let tables = share::of(TABLES);
    for n in 0..tables {
        let mut chance = Chance::new(seed, 4, n);
        let bytes = any_table(&mut chance);
        let lent = Guarded::new(&bytes);
        let place = any_place(&mut chance, bytes.len() as u64 / 4 + 2);
        let from = any_place(&mut chance, bytes.len() as u64 / 12 + 2);
        let slot = if chance.one_in(8) { chance.pick(&EDGES) } else { chance.below(6) as u32 };
        let found = any_entry(lent.lent(), place, from, slot).map_err(|what| format!("table {n}, slot {slot}, {bytes:?}: {what}"))?;
        if !lent.is(&bytes) {
            return Err(format!("table {n}: bytes changed"));
        }
        stretches += found as u64;
    }
    if stretches < share::of(LEAST) {
        return Err(format!("only {stretches} stretches had an arrival"));
    }
    Ok(format!("{tables} tables of any bytes, {stretches} stretches not empty"))
}

/// Whether the stretch of the slot has an arrival.
fn any_entry(table: &[u8], place: usize, from: usize, slot: u32) -> Result<bool, String> {
    same("factor", place, calls::factor(table, place), tables::entry(table, place))?;
    same("connection", place, calls::connection(table, place), tables::entry(table, place))?;
    same("arrival", place, calls::arrival(table, place), tables::entry(table, place))?;
    let (first, size) = tables::stretch(table, from, slot);
    same("slot_arrivals", from, calls::slot_arrivals(table, from, slot), [first, size])?;
    Ok(size > 0)
}

/// Entries whose slots fall and rise, and part of an entry behind them.
fn any_table(chance: &mut Chance) -> Vec<u8> {
    let mut bytes = vec![];
    for _ in 0..chance.below(8) {
        let slot = if chance.one_in(12) { u32::MAX } else { chance.below(5) as u32 };
        for word in [slot, chance.word(), chance.word()] {
            bytes.extend(word.to_le_bytes());
        }
    }
    bytes.extend((0..chance.below(16)).map(|i| 1 + i as u8));
    bytes
}

fn any_place(chance: &mut Chance, most: u64) -> usize {
    if chance.one_in(8) {
        return chance.pick(&HUGE);
    }
    chance.below(most + 1) as usize
}

/// What a writer is lent: D and M, and the three tables as words.
struct Lent {
    header: [u32; 2],
    tables: [Vec<u32>; 3],
}

pub fn writing(seed: u64) -> Result<String, String> {
    let mut tally = Tally::default();
    for n in 0..share::of(WRITTEN) {
        let mut chance = Chance::new(seed, 5, n);
        let lent = any_lent(&mut chance);
        let size = 40 + 4 * lent.tables.iter().map(Vec::len).sum::<usize>();
        for room in [size - 1, size, size + 1, chance.below(size as u64) as usize] {
            tally.count(write(&lent, room).map_err(|what| format!("lent {n}, room {room}: {what}"))?);
        }
    }
    Ok(format!("{} plans written, answers {}", tally.calls(), tally.line(&[0, 15, 16, 17], share::of(LEAST))?))
}

/// The tables of a readable plan, often with one count or slot at an edge or beyond it.
fn any_lent(chance: &mut Chance) -> Lent {
    let plan = readable(chance);
    let mut tables = [plan.factors, plan.connections.concat(), plan.arrivals.concat()];
    let at = chance.below(3) as usize;
    let [_, _, arrivals] = &mut tables;
    match chance.below(8) {
        0 => tables[at].push(chance.word()),
        1 => tables[at].truncate(tables[at].len().saturating_sub(1)),
        2 => tables[at] = vec![7; [chance.between(7, 9), 4 * chance.between(31, 33), 12][at] as usize],
        3 if chance.one_in(20) => *arrivals = vec![7; 3 * chance.between(4095, 4097) as usize],
        4 | 5 if !arrivals.is_empty() => {
            let place = 3 * chance.below(arrivals.len() as u64 / 3) as usize;
            arrivals[place] = chance.pick(&[0, LAST_ARRIVAL, LAST_ARRIVAL + 1, u32::MAX]);
        }
        _ => {}
    }
    Lent { header: [plan.interval, plan.cycle], tables }
}

/// Writes into so much room; what is written reads as the same contents.
fn write(lent: &Lent, room: usize) -> Result<u32, String> {
    let mut expected: Vec<u8> = (0..room).map(|i| i as u8 ^ 0x3C).collect();
    let mut buffer = Guarded::new(&expected);
    let guarded = [0, 1, 2].map(|i| Guarded::new(&lent.tables[i]));
    let [factors, connections, arrivals] = &lent.tables;
    let written = plan::write_lent(lent.header, factors, connections, arrivals, room);
    let must = match &written {
        Ok(bytes) => Answered::must_be(0, [bytes.len() as u32]),
        Err(number) => Answered::must_be(*number as u32, [0]),
    };
    let given = calls::write_plan(lent.header, [0, 1, 2].map(|i| guarded[i].lent()), buffer.lent_mut());
    if given != must {
        return Err(format!("write_plan gave {given:?}, but must give {must:?}"));
    }
    if let Ok(bytes) = &written {
        expected[..bytes.len()].copy_from_slice(bytes);
    }
    if !buffer.is(&expected) || !(0..3).all(|i| guarded[i].is(&lent.tables[i])) {
        return Err(format!("write_plan, which gave {}, left other bytes or words than it must", must.number));
    }
    if let Ok(bytes) = written {
        read(&buffer.lent()[..bytes.len()])?;
    }
    Ok(must.number)
}
