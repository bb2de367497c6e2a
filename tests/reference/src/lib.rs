//! An independent implementation of the scope document (01), written from its text alone. It shares no code with the crates: packets
//! wait in one list and go by rank, and an offer is judged by looking at every stretch, so that it can be compared with them.

pub mod plan;
pub mod run;
pub mod tables;
pub mod words;

pub const LAST_SLOT: u64 = 4_000_000_000;

#[derive(Clone, Debug, PartialEq)]
pub struct Connection {
    pub class: u64,
    pub longest: u64,
    pub burst: u64,
    pub period: u64,
}

#[derive(Clone, Debug, PartialEq)]
pub struct Packet {
    pub serial: u64,
    pub connection: u64,
    pub units: u64,
    pub arrival: u64,
}

#[derive(Clone, Debug)]
pub struct Multiplexer {
    pub interval: u64,
    pub cycle: u64,
    pub factors: Vec<u64>,
    pub connections: Vec<Connection>,
    /// The slots of the accepted packets of each connection. In a box that is read from words they may lie before slot 0.
    pub slots: Vec<Vec<i64>>,
    pub counter: u64,
    pub accepted: u64,
    pub link: Option<(Packet, u64)>,
    pub waiting: Vec<Packet>,
}

#[derive(Clone, Copy, Debug, PartialEq)]
pub enum Stepped {
    Idle,
    Sending { serial: u64, left: u64 },
    Departed { serial: u64, connection: u64, arrival: u64, departure: u64 },
    Refused(u64),
}

fn between(low: u64, x: u64, high: u64) -> bool {
    low <= x && x <= high
}

impl Multiplexer {
    /// A new box, or refusal 2.
    pub fn open(interval: u64, cycle: u64, factors: &[u64]) -> Result<Multiplexer, u64> {
        let rising = factors.windows(2).all(|w| w[0] < w[1]);
        let good = between(1, interval, 256)
            && between(1, cycle, 4096)
            && between(1, factors.len() as u64, 8)
            && rising
            && factors[0] >= 1
            && factors[factors.len() - 1] <= 63
            && factors[factors.len() - 1] * interval <= 1024;
        if !good {
            return Err(2);
        }
        Ok(Multiplexer {
            interval,
            cycle,
            factors: factors.to_vec(),
            connections: vec![],
            slots: vec![],
            counter: 0,
            accepted: 0,
            link: None,
            waiting: vec![],
        })
    }

    fn bound(&self, class: u64) -> u64 {
        self.factors[class as usize - 1] * self.interval
    }

    /// E(t) of a connection, 0 below 0.
    fn envelope(c: &Connection, t: i64) -> u64 {
        if t < 0 {
            0
        } else {
            c.longest * (c.burst + t as u64 / c.period)
        }
    }

    fn condition(&self, set: &[Connection], t: u64) -> bool {
        let d = self.interval as i64;
        let now = t as i64;
        let mut sum = 0;
        for c in set {
            let dq = self.bound(c.class) as i64;
            sum += if c.class == 1 { Self::envelope(c, now - dq) } else { Self::envelope(c, now + d - dq) };
        }
        if t < sum {
            return false;
        }
        let last = self.bound(self.factors.len() as u64);
        if self.bound(1) <= t && t + self.interval < last {
            let way = set.iter().filter(|c| self.bound(c.class) > t + self.interval).map(|c| c.longest).max().unwrap_or(0);
            if t < sum + way {
                return false;
            }
        }
        true
    }

    /// The answer, the connection's number and t.
    pub fn admit(&mut self, class: u64, longest: u64, burst: u64, period: u64) -> (u64, u64, u64) {
        let good = between(1, class, self.factors.len() as u64)
            && between(1, longest, 64)
            && between(1, burst, 64)
            && between(1, period, self.cycle)
            && self.cycle % period == 0;
        if !good {
            return (3, 0, 0);
        }
        if self.connections.len() == 32 {
            return (4, 0, 0);
        }
        let mut set = self.connections.clone();
        set.push(Connection { class, longest, burst, period });
        let rate: u64 = set.iter().map(|c| c.longest * (self.cycle / c.period)).sum();
        if rate > self.cycle {
            return (5, 0, 0);
        }
        let end = self.bound(self.factors.len() as u64) + self.cycle;
        for t in 0..end {
            if !self.condition(&set, t) {
                return (6, 0, t);
            }
        }
        self.connections = set;
        self.slots.push(vec![]);
        (0, self.connections.len() as u64, 0)
    }

    /// Whether an offer now fits: with it counted, no stretch that ends now has more than it may. Only stretches that start at an
    /// accepted packet, or now, can have.
    pub fn fits(&self, n: u64) -> bool {
        let c = &self.connections[n as usize - 1];
        let slots = &self.slots[n as usize - 1];
        for (i, &x) in slots.iter().enumerate() {
            let count = (slots.len() - i) as u64 + 1;
            if count > c.burst + (self.counter as i64 - x) as u64 / c.period {
                return false;
            }
        }
        c.burst >= 1
    }

    /// What the last accepted packet of a connection left of its allowance: the slot at which one more packet than now fits, and how
    /// many still fitted at its own slot. 0 and b before the first.
    pub fn allowance(&self, n: u64) -> (u64, u64) {
        let c = &self.connections[n as usize - 1];
        let slots = &self.slots[n as usize - 1];
        let Some(&last) = slots.last() else {
            return (0, c.burst);
        };
        // each stretch up to now that starts at an accepted packet, and the packets that it has
        let stretches = || slots.iter().enumerate().map(|(i, &x)| (x, (slots.len() - i) as u64));
        let credit = stretches().map(|(x, count)| c.burst + (last - x) as u64 / c.period - count).min().unwrap_or(c.burst);
        let one_more = |(x, count): (i64, u64)| x + (c.period * (count + credit + 1).saturating_sub(c.burst)) as i64;
        let next = stretches().map(one_more).max().unwrap_or(0);
        (next as u64, credit)
    }

    /// The answer and the serial.
    pub fn offer(&mut self, n: u64, units: u64) -> (u64, u64) {
        if !between(1, n, self.connections.len() as u64) {
            return (7, 0);
        }
        if !between(1, units, self.connections[n as usize - 1].longest) {
            return (8, 0);
        }
        if !self.fits(n) {
            return (9, 0);
        }
        if self.waiting.len() >= 1024 {
            return (10, 0);
        }
        self.accepted += 1;
        self.slots[n as usize - 1].push(self.counter as i64);
        self.waiting.push(Packet { serial: self.accepted, connection: n, units, arrival: self.counter });
        (0, self.accepted)
    }

    pub fn rank(&self, p: &Packet) -> u64 {
        p.arrival / self.interval + self.factors[self.connections[p.connection as usize - 1].class as usize - 1]
    }

    pub fn step(&mut self) -> Stepped {
        if self.counter >= LAST_SLOT {
            return Stepped::Refused(12);
        }
        let chosen = if self.link.is_some() {
            None
        } else {
            (0..self.waiting.len()).min_by_key(|&i| (self.rank(&self.waiting[i]), self.waiting[i].serial))
        };
        let next = self.counter + 1;
        if next % self.interval == 0 {
            let lowest = self.counter / self.interval;
            let blocked = (0..self.waiting.len()).any(|i| Some(i) != chosen && self.rank(&self.waiting[i]) == lowest);
            if blocked {
                return Stepped::Refused(11);
            }
        }
        if let Some(i) = chosen {
            let p = self.waiting.remove(i);
            let units = p.units;
            self.link = Some((p, units));
        }
        self.counter = next;
        match self.link.take() {
            None => Stepped::Idle,
            Some((p, 1)) => Stepped::Departed { serial: p.serial, connection: p.connection, arrival: p.arrival, departure: next },
            Some((p, left)) => {
                let serial = p.serial;
                self.link = Some((p, left - 1));
                Stepped::Sending { serial, left: left - 1 }
            }
        }
    }
}
