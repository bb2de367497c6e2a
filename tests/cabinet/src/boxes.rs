//! Boxes by chance: new ones for runs, and any sound contents, which no run need reach.

use crate::call::Call;
use crate::chance::Chance;
use reference::words::{self, BOX_WORDS};
use reference::{Connection, Multiplexer, Packet, LAST_SLOT};

/// Numbers at an edge of some range of document 01, or near one.
pub const EDGES: [u32; 30] = [
    0,
    1,
    2,
    3,
    7,
    8,
    9,
    31,
    32,
    33,
    62,
    63,
    64,
    65,
    255,
    256,
    257,
    1023,
    1024,
    1025,
    4095,
    4096,
    4097,
    1_000_000,
    1_000_001,
    3_999_999_999,
    4_000_000_000,
    4_000_000_001,
    u32::MAX - 1,
    u32::MAX,
];

/// D, M and factors.
pub struct Settings {
    pub interval: u32,
    pub cycle: u32,
    pub factors: Vec<u32>,
}

impl Settings {
    /// In range and small, so that an admission is searched soon.
    pub fn small(chance: &mut Chance) -> Settings {
        let interval = chance.between(1, 8) as u32;
        let cycle = chance.pick(&[1, 2, 4, 6, 8, 12, 12, 16, 24, 24, 30, 48, 48, 60]);
        Settings { interval, cycle, factors: rising(chance, (72 / interval).min(40)) }
    }

    /// Anywhere in range.
    pub fn any(chance: &mut Chance) -> Settings {
        let interval = chance.pick(&[1, 1, 2, 3, 4, 5, 8, 15, 16, 17, 30, 64, 255, 256]);
        let cycle = chance.pick(&[1, 7, 12, 48, 60, 64, 240, 840, 1024, 4095, 4096]);
        Settings { interval, cycle, factors: rising(chance, (1024 / interval).min(63)) }
    }

    /// One of the numbers at an edge, mostly off range.
    pub fn bent(mut self, chance: &mut Chance) -> Settings {
        let edge = chance.pick(&EDGES);
        match chance.below(5) {
            0 => self.interval = edge,
            1 => self.cycle = edge,
            2 => self.factors = vec![1; chance.below(10) as usize],
            3 => self.factors.push(edge),
            _ => {
                let place = chance.below(self.factors.len() as u64) as usize;
                self.factors[place] = edge;
            }
        }
        self
    }

    /// The new box of settings in range.
    pub fn opened(&self) -> Multiplexer {
        let factors: Vec<u64> = self.factors.iter().map(|&f| f as u64).collect();
        Multiplexer::open(self.interval as u64, self.cycle as u64, &factors).expect("settings in range")
    }
}

/// One to eight rising factors up to the largest.
fn rising(chance: &mut Chance, largest: u32) -> Vec<u32> {
    let mut factors: Vec<u32> = (0..chance.between(1, 8)).map(|_| chance.between(1, largest as u64) as u32).collect();
    if chance.one_in(4) {
        factors.push(largest);
    }
    factors.sort();
    factors.dedup();
    factors.truncate(8);
    factors
}

fn divisor(chance: &mut Chance, cycle: u64) -> u64 {
    let divisors: Vec<u64> = (1..=cycle).filter(|t| cycle % t == 0).collect();
    // long periods more often, so that several connections are taken
    let at = chance.below(divisors.len() as u64).max(chance.below(divisors.len() as u64));
    divisors[at as usize]
}

/// A connection in range.
fn connection(chance: &mut Chance, mux: &Multiplexer) -> Connection {
    let class = chance.between(1, mux.factors.len() as u64);
    let longest = if chance.one_in(8) { chance.between(1, 64) } else { chance.between(1, 3) };
    let burst = if chance.one_in(8) { chance.between(1, 64) } else { chance.between(1, 3) };
    Connection { class, longest, burst, period: divisor(chance, mux.cycle) }
}

/// Class, s, b and T of a newcomer, mostly in range.
pub fn asked(chance: &mut Chance, mux: &Multiplexer) -> [u32; 4] {
    let c = connection(chance, mux);
    let mut asked = [c.class, c.longest, c.burst, c.period].map(|n| n as u32);
    if chance.one_in(10) {
        asked[chance.below(4) as usize] = chance.pick(&EDGES);
    }
    asked
}

pub fn newcomer(chance: &mut Chance, mux: &Multiplexer) -> Call {
    Call::Admit(asked(chance, mux))
}

/// An offer, mostly of a connection that stands and of a permitted length.
pub fn offer(chance: &mut Chance, mux: &Multiplexer) -> Call {
    let standing = mux.connections.len() as u64;
    if standing == 0 || chance.one_in(20) {
        let wrong = [0, standing as u32 + 1, chance.pick(&EDGES)];
        return Call::Offer(chance.pick(&wrong), chance.between(0, 3) as u32);
    }
    let n = chance.between(1, standing);
    let longest = mux.connections[n as usize - 1].longest;
    let wrong = [0, longest as u32 + 1, chance.pick(&EDGES)];
    let units = if chance.one_in(20) { chance.pick(&wrong) } else { chance.between(1, longest) as u32 };
    Call::Offer(n as u32, units)
}

/// Any box in which so many packets wait, sound if they are at most 1,024. It need not be one that a run reaches: connections that no
/// admission takes, any allowance, packets that are late.
pub fn any_with_waiting(chance: &mut Chance, waiting: u64) -> Multiplexer {
    let mut mux = Settings::any(chance).opened();
    mux.counter = any_counter(chance, mux.interval);
    let connections = chance.pick(&[1, 2, 3, 8, 17, 31, 32, 32]) - (waiting == 0 && chance.one_in(4)) as u64;
    for _ in 0..connections {
        let c = connection(chance, &mux);
        mux.slots.push(any_history(chance, &c, mux.counter));
        mux.connections.push(c);
    }
    for _ in 0..waiting {
        let packet = any_packet(chance, &mux);
        mux.waiting.push(packet);
    }
    number(chance, &mut mux);
    put_on_link(chance, &mut mux);
    mux
}

/// A counter anywhere, often at the slot before a turn or near its end.
fn any_counter(chance: &mut Chance, interval: u64) -> u64 {
    let near = chance.below(70);
    let counter = match chance.below(6) {
        0 => near / 7,
        1 => chance.below(5000),
        2 => LAST_SLOT - near,
        3 => LAST_SLOT,
        _ => chance.below(LAST_SLOT + 1),
    };
    // the slot before a turn
    if chance.one_in(3) {
        (counter / interval * interval + interval - 1).min(LAST_SLOT)
    } else {
        counter
    }
}

/// None accepted yet, or so many at one slot that any allowance in range is left.
fn any_history(chance: &mut Chance, c: &Connection, counter: u64) -> Vec<i64> {
    if chance.one_in(3) {
        return vec![];
    }
    let recent = (counter + c.period).saturating_sub(chance.below(4 * c.period)).max(1);
    let next = if chance.one_in(4) { chance.between(1, counter + c.period) } else { recent };
    vec![next as i64 - c.period as i64; chance.between(1, c.burst) as usize]
}

/// A packet that can wait now: its rank is not below that of tag 0.
fn any_packet(chance: &mut Chance, mux: &Multiplexer) -> Packet {
    let connection = chance.between(1, mux.connections.len() as u64);
    let c = &mux.connections[connection as usize - 1];
    let turns = mux.counter / mux.interval;
    let earliest = turns.saturating_sub(mux.factors[c.class as usize - 1]) * mux.interval;
    // in the queue tagged 0 often, so that the turn is blocked
    let latest = if chance.one_in(3) { mux.counter.min(earliest + mux.interval - 1) } else { mux.counter };
    Packet { serial: 0, connection, units: chance.between(1, c.longest), arrival: chance.between(earliest, latest) }
}

/// Gives the waiting packets serials: rising through the whole list or, since only those within a queue must rise, in each queue from 1.
fn number(chance: &mut Chance, mux: &mut Multiplexer) {
    let waiting = mux.waiting.len() as u64;
    let most = mux.counter + waiting;
    if chance.one_in(4) {
        let mut last = [0; 64];
        for i in 0..mux.waiting.len() {
            let serial = &mut last[(mux.rank(&mux.waiting[i]) % 64) as usize];
            *serial += 1;
            mux.waiting[i].serial = *serial;
        }
        let largest = last.into_iter().max().unwrap_or(0);
        mux.accepted = any_count(chance, largest, most);
        return;
    }
    mux.accepted = any_count(chance, waiting, most);
    let before = chance.below(mux.accepted - waiting + 1);
    for (i, packet) in mux.waiting.iter_mut().enumerate() {
        packet.serial = before + 1 + i as u64;
    }
}

/// A count of accepted packets, often at an end of its range.
fn any_count(chance: &mut Chance, least: u64, most: u64) -> u64 {
    let within = chance.between(least, most);
    chance.pick(&[least, most, within])
}

/// Puts a packet on the link, half sent, where some connection has packets that long.
fn put_on_link(chance: &mut Chance, mux: &mut Multiplexer) {
    let long: Vec<usize> = (0..mux.connections.len()).filter(|&i| mux.connections[i].longest >= 2).collect();
    if long.is_empty() || mux.accepted == 0 || chance.one_in(2) {
        return;
    }
    let at = chance.pick(&long);
    let units = chance.between(2, mux.connections[at].longest);
    let (serial, arrival) = (chance.between(1, mux.accepted), chance.between(0, mux.counter));
    let packet = Packet { serial, connection: at as u64 + 1, units, arrival };
    mux.link = Some((packet, chance.between(1, units - 1)));
}

/// The words of a box, with chance in the free ones and some more behind them.
pub fn words_of(chance: &mut Chance, mux: &Multiplexer, surplus: usize) -> Vec<u32> {
    let mut all = free_words(chance, BOX_WORDS + surplus);
    words::write(mux, &mut all);
    all
}

/// Words that stand for nothing.
pub fn free_words(chance: &mut Chance, count: usize) -> Vec<u32> {
    let filler = chance.word();
    (0..count as u32).map(|i| filler.wrapping_add(i.wrapping_mul(0x9E37_79B9))).collect()
}
