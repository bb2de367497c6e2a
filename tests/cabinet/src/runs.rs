//! Runs of calls, each compared with the reference: the answer, every field, and every word.

use cabinet::boxes::{any_with_waiting, free_words, newcomer, offer, words_of, Settings};
use cabinet::call::{Call, Outcome};
use cabinet::chance::Chance;
use cabinet::share;
use cabinet::tally::Tally;
use cabinet::trial::Trial;
use reference::words::{self, BOX_WORDS};
use reference::{Connection, Multiplexer, LAST_SLOT};

const RUNS: u64 = 200_000;
/// Every answer that a call on a box can give, but 1, which the damaged states try.
const ANSWERS: [usize; 12] = [0, 2, 3, 4, 5, 6, 7, 8, 9, 10, 11, 12];
const LEAST: u64 = 500;

/// What was seen in all runs.
#[derive(Default)]
struct Seen {
    answers: Tally,
    taken: u64,
    accepted: u64,
    departed: u64,
}

impl Seen {
    fn see(&mut self, call: Call, outcome: Outcome) {
        self.answers.count(outcome.number);
        let done = (outcome.number == 0) as u64;
        match call {
            Call::Admit(_) => self.taken += done,
            Call::Offer(..) => self.accepted += done,
            // a departure is never at slot 0
            Call::Step => self.departed += (outcome.fields[4] > 0) as u64,
            Call::IsSound => {}
        }
    }

    fn line(&self) -> Result<String, String> {
        let Seen { answers, taken, accepted, departed } = self;
        let counts = answers.line(&ANSWERS, share::of(LEAST))?;
        Ok(format!(
            "{} calls, {taken} connections taken, {accepted} packets accepted, {departed} departed, answers {counts}",
            answers.calls()
        ))
    }
}

#[derive(Clone, Copy, Debug)]
enum Kind {
    /// admissions, offers and steps in any order
    Mixed,
    /// all connections offer, twice over, at the slot before a turn and at the turn
    Bursts,
    /// each connection offers as soon as a packet fits
    Edge,
    /// a run goes on where the counter is near its end
    NearEnd,
    /// any sound box, late ones among them
    AnySound,
    /// the store is full or nearly so
    Full,
    /// as many connections as can stand
    Crowded,
}

fn kind(run: u64) -> Kind {
    match run % 50 {
        0..=14 => Kind::Mixed,
        15..=24 => Kind::Bursts,
        25..=34 => Kind::Edge,
        35..=39 => Kind::NearEnd,
        40..=47 => Kind::AnySound,
        48 => Kind::Full,
        _ => Kind::Crowded,
    }
}

struct Run<'a> {
    kind: Kind,
    mux: Multiplexer,
    trial: Trial,
    chance: Chance,
    seen: &'a mut Seen,
    /// how many offers were made at this slot
    offered: usize,
}

pub fn part(seed: u64) -> Result<String, String> {
    let mut seen = Seen::default();
    let runs = share::of(RUNS);
    for run in 0..runs {
        let kind = kind(run);
        one_run(kind, Chance::new(seed, 1, run), &mut seen).map_err(|what| format!("run {run}, {kind:?}: {what}"))?;
    }
    Ok(format!("{runs} runs, {}", seen.line()?))
}

fn one_run(kind: Kind, mut chance: Chance, seen: &mut Seen) -> Result<(), String> {
    let surplus = chance.below(4) as usize;
    let (mux, trial) = match kind {
        Kind::AnySound => {
            let waiting = chance.pick(&[0, 1, 2, 5, 20, 60]);
            constructed(&mut chance, surplus, |chance| any_with_waiting(chance, waiting))
        }
        Kind::Full => constructed(&mut chance, surplus, nearly_full),
        _ => opened(&mut chance, surplus, &mut seen.answers)?,
    };
    let mut run = Run { kind, mux, trial, chance, seen, offered: 0 };
    run.admissions()?;
    if let Kind::NearEnd = kind {
        run.calls(20)?;
        run.go_near_the_end();
    }
    let most = run.length();
    run.calls(most)?;
    run.call(Call::IsSound)?;
    words::read(run.trial.words()).map(|_| ()).ok_or_else(|| "the reference's own words are not sound".to_string())
}

fn constructed(chance: &mut Chance, surplus: usize, make: impl Fn(&mut Chance) -> Multiplexer) -> (Multiplexer, Trial) {
    let mux = make(chance);
    let trial = Trial::new(words_of(chance, &mux, surplus));
    (mux, trial)
}

/// A new box, after an opening that may be refused.
fn opened(chance: &mut Chance, surplus: usize, tally: &mut Tally) -> Result<(Multiplexer, Trial), String> {
    let mut trial = Trial::new(free_words(chance, BOX_WORDS + surplus));
    if chance.one_in(10) {
        let bent = Settings::small(chance).bent(chance);
        let (number, _) = trial.open(bent.interval, bent.cycle, &bent.factors)?;
        tally.count(number);
    }
    let settings = if chance.one_in(400) { Settings::any(chance) } else { Settings::small(chance) };
    let (number, mux) = trial.open(settings.interval, settings.cycle, &settings.factors)?;
    tally.count(number);
    Ok((mux.ok_or("settings in range were refused")?, trial))
}

/// A box of long bursts, whose connections no admission took together, so that more than 1,024 packets fit their envelopes.
fn nearly_full(chance: &mut Chance) -> Multiplexer {
    let mut mux = Multiplexer::open(256, 4096, &[1, 2, 4]).expect("settings in range");
    for i in 0..32 {
        mux.connections.push(Connection { class: 1 + i % 3, longest: 2, burst: 64, period: 4096 });
        mux.slots.push(vec![]);
    }
    mux.counter = chance.below(200);
    let waiting = if chance.one_in(100) { 0 } else { chance.between(990, 1024) };
    for i in 0..waiting {
        assert_eq!(mux.offer(1 + i % 32, 1 + i % 2).0, 0, "a packet fits");
    }
    mux
}

impl Run<'_> {
    fn call(&mut self, call: Call) -> Result<u32, String> {
        let outcome = self.trial.call(call, &mut self.mux)?;
        self.seen.see(call, outcome);
        if !matches!(self.kind, Kind::AnySound | Kind::Full) {
            self.in_time(outcome)?;
        }
        Ok(outcome.number)
    }

    /// In a run from a new box no turn is blocked, no store is full, and no packet leaves after its bound.
    fn in_time(&self, outcome: Outcome) -> Result<(), String> {
        if outcome.number == 10 || outcome.number == 11 {
            return Err(format!("a run from a new box answered {}", outcome.number));
        }
        let [_, _, connection, arrival, departure] = outcome.fields.map(u64::from);
        if departure > 0 {
            let class = self.mux.connections[connection as usize - 1].class;
            let bound = self.mux.factors[class as usize - 1] * self.mux.interval;
            if departure > arrival + bound {
                return Err(format!("a packet that came at {arrival} with the bound {bound} left at {departure}"));
            }
        }
        Ok(())
    }

    fn admissions(&mut self) -> Result<(), String> {
        let asked = match self.kind {
            Kind::AnySound | Kind::Full => 0,
            Kind::Crowded => 36,
            _ => self.chance.between(1, 8),
        };
        for _ in 0..asked {
            let call = match self.kind {
                Kind::Crowded => Call::Admit([self.mux.factors.len() as u32, 1, 1, self.mux.cycle as u32]),
                _ => newcomer(&mut self.chance, &self.mux),
            };
            self.call(call)?;
        }
        Ok(())
    }

    /// How many calls are made after the admissions.
    fn length(&mut self) -> u64 {
        match self.kind {
            Kind::Full if self.mux.waiting.is_empty() => 1200,
            // long enough for the places of the queues to wrap round
            _ if self.chance.one_in(500) => 2000,
            _ => self.chance.between(20, 100),
        }
    }

    fn calls(&mut self, most: u64) -> Result<(), String> {
        let mut refused = 0;
        for _ in 0..most {
            let call = self.next_call();
            let number = self.call(call)?;
            // a step that is refused stays refused
            refused += (number == 11 || number == 12) as u32;
            if refused == 3 {
                break;
            }
        }
        Ok(())
    }

    fn next_call(&mut self) -> Call {
        if self.chance.one_in(60) {
            return newcomer(&mut self.chance, &self.mux);
        }
        match self.kind {
            Kind::Bursts => self.burst(),
            Kind::Edge => self.edge(),
            Kind::Full if !self.chance.one_in(8) => offer(&mut self.chance, &self.mux),
            _ if self.chance.one_in(2) => offer(&mut self.chance, &self.mux),
            _ => Call::Step,
        }
    }

    /// Each connection's longest packet, twice over, where a turn is near; then a step.
    fn burst(&mut self) -> Call {
        let standing = self.mux.connections.len();
        let turn_near = self.mux.counter % self.mux.interval == 0 || (self.mux.counter + 1) % self.mux.interval == 0;
        if turn_near && self.offered < 2 * standing {
            return self.offer_longest(self.offered % standing);
        }
        self.step()
    }

    /// Each packet that fits, and now and then one that does not; then a step.
    fn edge(&mut self) -> Call {
        while self.offered < 3 * self.mux.connections.len() {
            let at = self.offered / 3;
            if self.mux.fits(at as u64 + 1) || self.chance.one_in(10) {
                return self.offer_longest(at);
            }
            self.offered += 1;
        }
        self.step()
    }

    fn offer_longest(&mut self, at: usize) -> Call {
        self.offered += 1;
        Call::Offer(at as u32 + 1, self.mux.connections[at].longest as u32)
    }

    fn step(&mut self) -> Call {
        self.offered = 0;
        Call::Step
    }

    /// The same box later by whole intervals, so that every rank grows alike and its counter is near the end.
    fn go_near_the_end(&mut self) {
        let room = LAST_SLOT - self.chance.below(40) - self.mux.counter;
        let later = room / self.mux.interval * self.mux.interval;
        self.mux.counter += later;
        self.mux.slots.iter_mut().flatten().for_each(|slot| *slot += later as i64);
        self.mux.waiting.iter_mut().for_each(|packet| packet.arrival += later);
        if let Some((packet, _)) = &mut self.mux.link {
            packet.arrival += later;
        }
        let mut moved = self.trial.words().to_vec();
        words::write(&self.mux, &mut moved);
        self.trial.put(&moved);
    }
}
