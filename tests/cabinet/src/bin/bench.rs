//! What a call of the library costs beside the reference on its own structs, turn by turn in one run, as a table in Markdown. After each
//! turn both must have the same words or text. `bench --equal` makes one turn of each and tells no time.

use cabinet::calls;
use reference::words::{self, BOX_WORDS};
use reference::{Connection, Multiplexer, Stepped};
use std::hint::black_box;
use std::time::Instant;

/// Calls in one turn where a call is short, and turns of each row.
const CALLS: u64 = 16;
const TURNS: usize = 4000;
const LONG_TURNS: usize = 60;

/// Whether only the equality of the results is asked for.
fn only_equal() -> bool {
    std::env::args().nth(1).as_deref() == Some("--equal")
}

/// So many turns, or one where nothing is timed.
fn turns(timed: usize) -> usize {
    if only_equal() {
        1
    } else {
        timed
    }
}

/// Nanoseconds of a call.
struct Row {
    name: String,
    library: f64,
    reference: f64,
    soundness: Option<f64>,
}

/// A box in both forms.
struct Pair {
    words: Vec<u32>,
    mux: Multiplexer,
}

impl Pair {
    fn new(mux: Multiplexer) -> Pair {
        let mut words = vec![0; BOX_WORDS];
        words::write(&mux, &mut words);
        Pair { words, mux }
    }
}

/// The words must be those of the box, up to its last packet; those after it are free.
fn same(name: &str, words: &[u32], mux: &Multiplexer) {
    let mut expected = vec![0; BOX_WORDS];
    words::write(mux, &mut expected);
    let used = words::WAITING + 4 * mux.waiting.len();
    assert!(words[..used] == expected[..used], "{name}: the words differ");
}

/// Nanoseconds of one of so many calls.
fn timed(count: u64, mut call: impl FnMut(u64)) -> f64 {
    let start = Instant::now();
    for i in 0..count {
        call(i);
    }
    start.elapsed().as_nanos() as f64 / count as f64
}

/// A row of a call on a box: each side starts each turn with its own copy of the box, and the copy is not timed.
fn on_a_box(
    name: String,
    turns: usize,
    count: u64,
    pair: &Pair,
    library: impl Fn(&mut [u32], u64),
    reference: impl Fn(&mut Multiplexer, u64),
) -> Row {
    let mut best = [f64::MAX; 3];
    let mut words = pair.words.clone();
    for _ in 0..self::turns(turns) {
        words.copy_from_slice(&pair.words);
        let mut mux = pair.mux.clone();
        let taken = [
            timed(count, |i| library(black_box(&mut words), i)),
            timed(count, |i| reference(black_box(&mut mux), i)),
            timed(count, |_| assert_eq!(calls::is_sound(black_box(&pair.words)), 0)),
        ];
        same(&name, &words, &mux);
        best = [0, 1, 2].map(|i| taken[i].min(best[i]));
    }
    Row { name, library: best[0], reference: best[1], soundness: Some(best[2]) }
}

/// A box with so many connections of long bursts, all of one class.
fn box_of(factors: &[u64], class: u64, connections: u64) -> Multiplexer {
    let mut mux = Multiplexer::open(256, 4096, factors).expect("settings in range");
    for _ in 0..connections {
        mux.connections.push(Connection { class, longest: 1, burst: 64, period: 4096 });
        mux.slots.push(vec![]);
    }
    mux
}

/// The box with so many packets of the first sixteen connections waiting.
fn waiting(mut mux: Multiplexer, packets: u64) -> Multiplexer {
    for i in 0..packets {
        assert_eq!(mux.offer(1 + i % CALLS, 1).0, 0);
    }
    mux
}

fn opening() -> Row {
    let factors: [u32; 8] = std::array::from_fn(|i| i as u32 + 1);
    let wide = factors.map(u64::from);
    let mut words = vec![0; BOX_WORDS];
    let mut best = [f64::MAX; 2];
    for _ in 0..turns(TURNS) {
        let library = timed(CALLS, |_| assert_eq!(calls::open(black_box(&mut words), 128, 4096, black_box(&factors)), 0));
        let reference = timed(CALLS, |_| {
            black_box(Multiplexer::open(128, 4096, black_box(&wide)).expect("settings in range"));
        });
        same("open", &words, &Multiplexer::open(128, 4096, &wide).expect("settings in range"));
        best = [library.min(best[0]), reference.min(best[1])];
    }
    Row { name: "open, 8 classes".into(), library: best[0], reference: best[1], soundness: None }
}

/// The 32nd connection, for which every t from 0 to 5,119 is searched.
fn admission() -> Row {
    let mut mux = Multiplexer::open(256, 4096, &[1, 2, 3, 4]).expect("settings in range");
    for i in 0..31 {
        assert_eq!(mux.admit(1 + i % 4, 1, 4, 4096).0, 0);
    }
    let name = "admit, 31 connections stand, taken".into();
    let library = |words: &mut [u32], _| assert_eq!(calls::admit(words, [4, 1, 4, 4096]).number, 0);
    let reference = |mux: &mut Multiplexer, _| assert_eq!(mux.admit(4, 1, 4, 4096).0, 0);
    on_a_box(name, LONG_TURNS, 1, &Pair::new(mux), library, reference)
}

fn offers(name: String, pair: &Pair, first: u64) -> Row {
    let library = |words: &mut [u32], i| assert_eq!(calls::offer(words, (first + i) as u32, 1).number, 0);
    let reference = |mux: &mut Multiplexer, i| assert_eq!(mux.offer(first + i, 1).0, 0);
    on_a_box(name, TURNS, CALLS, pair, library, reference)
}

fn steps(name: String, pair: &Pair) -> Row {
    let library = |words: &mut [u32], _| assert_eq!(calls::step(words).number, 0);
    let reference = |mux: &mut Multiplexer, _| assert!(!matches!(mux.step(), Stepped::Refused(_)));
    on_a_box(name, TURNS, CALLS, pair, library, reference)
}

/// Offers of a class that goes before the thousand packets that wait, so that the library moves them all.
fn offers_before_others() -> Row {
    let mut mux = waiting(box_of(&[1, 4], 2, CALLS), 1000);
    for _ in 0..CALLS {
        mux.connections.push(Connection { class: 1, longest: 1, burst: 64, period: 4096 });
        mux.slots.push(vec![]);
    }
    offers("offer, 1,000 waiting, before them all".into(), &Pair::new(mux), CALLS + 1)
}

fn whole_run() -> Row {
    let connections = vec![[1, 1, 2, 8], [2, 2, 3, 16], [3, 3, 2, 24], [4, 4, 4, 40], [1, 1, 1, 48]];
    let arrivals = (0..4096).map(|i| [i * 3 / 4, 1 + i * 7 % 11 % 6, 1 + i % 4]).collect();
    let plan = reference::plan::Plan { interval: 16, cycle: 240, factors: vec![1, 2, 4, 8], connections, arrivals };
    let bytes = reference::plan::write(&plan).expect("a readable plan");
    let mut text = vec![0; 420_000];
    let mut best = [f64::MAX; 2];
    for _ in 0..turns(LONG_TURNS) {
        let library = timed(1, |_| assert_eq!(calls::run_plan(black_box(&bytes), &mut text).number, 0));
        assert!(text.starts_with(reference::run::text(&bytes).as_bytes()), "whole run: the text differs");
        let reference = timed(1, |_| {
            black_box(reference::run::text(black_box(&bytes)));
        });
        best = [library.min(best[0]), reference.min(best[1])];
    }
    Row { name: "whole run, 4,096 arrivals".into(), library: best[0], reference: best[1], soundness: None }
}

fn print(row: &Row) {
    if only_equal() {
        println!("{}: the same", row.name);
        return;
    }
    let (sound, share) = match row.soundness {
        Some(n) => (format!("{n:.0}"), format!("{:.0} %", 100.0 * n / row.library)),
        None => ("".into(), "".into()),
    };
    let Row { name, library, reference, .. } = row;
    println!("| {name} | {library:.0} | {reference:.0} | {:.2} | {sound} | {share} |", library / reference);
}

fn print_head() {
    println!("| Call | library, ns | reference, ns | ratio | soundness alone, ns | its share of the call |");
    println!("|---|---|---|---|---|---|");
}

fn main() {
    if !only_equal() {
        print_head();
    }
    print(&opening());
    print(&admission());
    for (packets, name) in [(0, "empty"), (100, "100 waiting"), (1000, "1,000 waiting")] {
        let pair = Pair::new(waiting(box_of(&[4], 1, CALLS), packets));
        print(&offers(format!("offer, {name}"), &pair, 1));
        print(&steps(format!("step, {name}"), &pair));
    }
    print(&offers_before_others());
    print(&whole_run());
}
