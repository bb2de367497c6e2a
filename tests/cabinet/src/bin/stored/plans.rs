//! The reader, the tables, the walk over the slots and the writer on the plans of tests/stored/plans, and what each answers.
//! tests/plan_reference.py writes the plans and the lines.

use crate::{bytes, given, path};
use cabinet::calls;
use reference::plan;

/// The plans in the order of their lines.
const NAMES: [&str; 32] = [
    "worked",
    "bare",
    "same",
    "full",
    "last",
    "odd",
    "empty",
    "bytes39",
    "bytes41",
    "bytes65540",
    "word0",
    "sum",
    "sum_first",
    "classes9",
    "connections33",
    "arrivals4097",
    "classes_more",
    "connections_more",
    "arrivals_more",
    "classes_wrap",
    "connections_wrap",
    "arrivals_wrap",
    "classes_offset",
    "connections_offset",
    "arrivals_offset",
    "bare_offset",
    "cut",
    "longer",
    "layout_first",
    "falling",
    "falling_last",
    "slot1000001",
];
/// Room for any plan and more, and the byte that fills it.
const ROOM: usize = 70_000;
const FILLER: u8 = 7;

pub fn lines() -> Vec<String> {
    let files = std::fs::read_dir(path("plans", "")).expect("the stored plans").count();
    assert_eq!(files, NAMES.len() + 1, "every stored plan is tried");
    let mut lines: Vec<String> = NAMES.into_iter().flat_map(|name| found(name, &bytes("plans", name))).collect();
    for (factors, connections, arrivals, room) in lent_tables() {
        lines.extend(written([4, 8], [&factors, &connections, &arrivals], room, None));
    }
    lines
}

/// What reading a plan answers and, of a good one, its tables, the walk over its slots and the plan written again.
fn found(name: &str, bytes: &[u8]) -> Vec<String> {
    let (number, fields) = given(calls::read_plan(bytes));
    if number != 0 {
        assert_eq!(fields, [0; 8], "the fields of a refused plan");
        return vec![format!("{name} {number}")];
    }
    let table = |at: usize, width: usize| &bytes[fields[at + 1] as usize..][..width * fields[at] as usize];
    let [factors, connections, arrivals] = [table(2, 4), table(4, 16), table(6, 12)];
    let mut lines = vec![format!("{name} 0{}", shown(&fields))];
    lines.extend((0..factors.len() / 4).map(|i| format!("FACTOR{}", shown(&given(calls::factor(factors, i)).1))));
    lines.extend((0..connections.len() / 16).map(|i| format!("CONNECTION{}", shown(&given(calls::connection(connections, i)).1))));
    lines.extend(walk(arrivals));
    let tables = [factors, connections, arrivals].map(plan::words);
    lines.extend(written([fields[0], fields[1]], [&tables[0], &tables[1], &tables[2]], ROOM, Some(bytes)));
    lines
}

/// Each number behind a space.
fn shown(numbers: &[u32]) -> String {
    numbers.iter().map(|n| format!(" {n}")).collect()
}

/// The slots 0 to 9 in order, each from where the one before it ended, with their first four arrivals.
fn walk(arrivals: &[u8]) -> Vec<String> {
    let (mut lines, mut from) = (vec![], 0);
    for slot in 0..10 {
        let (_, [at, size]) = given(calls::slot_arrivals(arrivals, from, slot));
        let stretch = &arrivals[at..at + size];
        lines.push(format!("SLOT {slot} {}", size / 12));
        for i in 0..4.min(size / 12) {
            lines.push(format!("ARRIVAL {}{}", 1 + from + i, shown(&given(calls::arrival(stretch, i)).1)));
        }
        from += size / 12;
    }
    lines
}

/// What writing these tables into so many bytes answers; then whether the bytes are those of the plan that was read, or, of a refusal,
/// whether the buffer is as it was.
fn written(header: [u32; 2], tables: [&[u32]; 3], room: usize, plan: Option<&[u8]>) -> Vec<String> {
    let mut out = vec![FILLER; ROOM];
    let (number, [size]) = given(calls::write_plan(header, tables, &mut out[..room]));
    if number != 0 {
        let kept = size == 0 && out.iter().all(|&byte| byte == FILLER);
        return vec![format!("WRITTEN {number}"), if kept { "KEPT" } else { "CHANGED" }.into()];
    }
    let mut lines = vec![format!("WRITTEN 0 {size}")];
    if plan.is_some_and(|plan| out.starts_with(plan)) {
        lines.push("SAME".into());
    }
    lines
}

/// Factors, connections and arrivals as words, and the bytes that are lent for their plan: wrong counts, each for another reason; wrong
/// slots; buffers that are too short; and tables that are just taken.
fn lent_tables() -> Vec<(Vec<u32>, Vec<u32>, Vec<u32>, usize)> {
    let ones = |count| vec![1; count];
    let lent = |f, c, a: &[u32], room| (ones(f), ones(c), a.to_vec(), room);
    let falling = [5, 1, 1, 4, 1, 1];
    vec![
        lent(9, 4, &[1; 3], 60_000),
        lent(2, 5, &[1; 3], 60_000),
        lent(2, 132, &[1; 3], 60_000),
        lent(2, 4, &[1; 4], 60_000),
        lent(2, 4, &[1; 12_291], 60_000),
        lent(9, 4, &falling, 0),
        lent(2, 4, &falling, 60_000),
        lent(2, 4, &[1_000_001, 1, 1], 60_000),
        lent(2, 4, &falling, 0),
        lent(2, 4, &[1; 3], 75),
        lent(2, 4, &[1; 3], 76),
        lent(2, 4, &[1_000_000, 1, 1], 60_000),
        lent(8, 128, &[1; 3], 60_000),
    ]
}
