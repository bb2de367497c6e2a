//! Whole runs: a plan's bytes in, the text of its run out.

use cabinet::calls::{self, Answered};
use cabinet::chance::Chance;
use cabinet::guarded::Guarded;
use cabinet::plans::{damaged, runnable};
use cabinet::share;
use reference::{plan, run};

const PLANS: u64 = 3_000;
/// The room that any text needs.
const ROOM: usize = 420_000;

pub fn part(seed: u64) -> Result<String, String> {
    let (mut departed, mut refused) = (0, 0);
    let plans = share::of(PLANS);
    for n in 0..plans {
        let mut chance = Chance::new(seed, 7, n);
        let bytes = if chance.one_in(10) { damaged(&mut chance) } else { plan::write(&runnable(&mut chance)).expect("a readable plan") };
        let room = ROOM + chance.pick(&[0, 0, 1, 77]);
        let text = whole_run(&bytes, room).map_err(|what| format!("plan {n}: {what}"))?;
        departed += text.lines().filter(|line| line.starts_with("DEPART")).count() as u64;
        refused += text.starts_with("REFUSED") as u64;
        if n < 100 {
            short_rooms(&bytes).map_err(|what| format!("plan {n}: {what}"))?;
        }
    }
    if refused < plans / 50 || departed < plans {
        return Err(format!("{refused} of {plans} plans were refused and {departed} packets departed: one kind is hardly tried"));
    }
    Ok(format!("{plans} whole runs, {departed} packets departed, {refused} plans refused"))
}

/// Runs the plan in enough room; the text that it gave.
fn whole_run(bytes: &[u8], room: usize) -> Result<String, String> {
    let text = run::text(bytes);
    let mut expected: Vec<u8> = (0..room).map(|i| (i % 251) as u8).collect();
    let mut buffer = Guarded::new(&expected);
    expected[..text.len()].copy_from_slice(text.as_bytes());
    compare(bytes, &mut buffer, &expected, Answered::must_be(0, [text.len() as u32]))?;
    Ok(text)
}

/// 17 in less than the room, whatever the plan, and no byte changed.
fn short_rooms(bytes: &[u8]) -> Result<(), String> {
    for room in [0, 1, 10, ROOM - 1] {
        let expected: Vec<u8> = (0..room).map(|i| (i % 251) as u8).collect();
        compare(bytes, &mut Guarded::new(&expected), &expected, Answered::must_be(17, [0]))?;
    }
    Ok(())
}

fn compare(bytes: &[u8], buffer: &mut Guarded<u8>, expected: &[u8], must: Answered<u32, 1>) -> Result<(), String> {
    let lent = Guarded::new(bytes);
    let given = calls::run_plan(lent.lent(), buffer.lent_mut());
    let what = || format!("run_plan of {} bytes into {}", bytes.len(), expected.len());
    if given != must {
        return Err(format!("{} gave {given:?}, but must give {must:?}", what()));
    }
    if !lent.is(bytes) {
        return Err(format!("{} changed the plan", what()));
    }
    if !buffer.is(expected) {
        let at = (0..expected.len()).find(|&i| buffer.lent()[i] != expected[i]);
        return Err(format!("{} wrote another text: byte {at:?} (none: outside the room)", what()));
    }
    Ok(())
}
