//! A box in lent words, from docs/LAYOUT.md. Reading decodes any words, and so is the test of soundness: it gives a box exactly where
//! document 01 calls the state sound.

use crate::{between, Connection, Multiplexer, Packet, LAST_SLOT};

pub const BOX_WORDS: usize = 4371;

const FACTORS: usize = 3;
pub const CONNECTIONS: usize = 11;
pub const ROWS: usize = 12;
pub const COUNTER: usize = 204;
pub const ACCEPTED: usize = 205;
pub const LEFT: usize = 206;
const LINK: usize = 207;
pub const LENGTHS: usize = 211;
pub const WAITING: usize = 275;

/// Writes the box. The words beyond its last waiting packet stay as they are.
pub fn write(mux: &Multiplexer, words: &mut [u32]) {
    words[..LENGTHS].fill(0);
    words[0] = mux.interval as u32;
    words[1] = mux.cycle as u32;
    words[2] = mux.factors.len() as u32;
    for (i, &factor) in mux.factors.iter().enumerate() {
        words[FACTORS + i] = factor as u32;
    }
    words[CONNECTIONS] = mux.connections.len() as u32;
    for (i, c) in mux.connections.iter().enumerate() {
        let (next, credit) = mux.allowance(i as u64 + 1);
        let row = [c.class, c.longest, c.burst, c.period, next, credit];
        words[ROWS + 6 * i..ROWS + 6 * i + 6].copy_from_slice(&row.map(|n| n as u32));
    }
    words[COUNTER] = mux.counter as u32;
    words[ACCEPTED] = mux.accepted as u32;
    if let Some((packet, left)) = &mux.link {
        words[LEFT] = *left as u32;
        write_packet(packet, &mut words[LINK..LINK + 4]);
    }
    write_waiting(mux, words);
}

fn write_packet(p: &Packet, words: &mut [u32]) {
    words.copy_from_slice(&[p.serial, p.connection, p.units, p.arrival].map(|n| n as u32));
}

/// The queues by place, which is the rank mod 64, one after another; within a queue the packets in their order.
fn write_waiting(mux: &Multiplexer, words: &mut [u32]) {
    let place = |p: &Packet| (mux.rank(p) % 64) as usize;
    let mut lengths = [0; 64];
    for p in &mux.waiting {
        lengths[place(p)] += 1;
    }
    let mut starts = [WAITING; 64];
    for k in 1..64 {
        starts[k] = starts[k - 1] + 4 * lengths[k - 1];
    }
    for p in &mux.waiting {
        let at = &mut starts[place(p)];
        write_packet(p, &mut words[*at..*at + 4]);
        *at += 4;
    }
    words[LENGTHS..WAITING].copy_from_slice(&lengths.map(|n| n as u32));
}

/// The box that the words stand for; none where they are not sound.
pub fn read(words: &[u32]) -> Option<Multiplexer> {
    if words.len() < BOX_WORDS {
        return None;
    }
    let mut mux = read_settings(words)?;
    mux.counter = words[COUNTER] as u64;
    mux.accepted = words[ACCEPTED] as u64;
    if mux.counter > LAST_SLOT {
        return None;
    }
    read_connections(words, &mut mux)?;
    read_link(words, &mut mux)?;
    read_waiting(words, &mut mux)?;
    let in_the_box = mux.waiting.len() as u64 + mux.link.is_some() as u64;
    (mux.accepted <= mux.counter + in_the_box).then_some(mux)
}

fn all_zero(words: &[u32]) -> bool {
    words.iter().all(|&w| w == 0)
}

/// D, M and the factors; opening judges their ranges.
fn read_settings(words: &[u32]) -> Option<Multiplexer> {
    let classes = words[2] as usize;
    if classes > 8 || !all_zero(&words[FACTORS + classes..CONNECTIONS]) {
        return None;
    }
    let factors: Vec<u64> = words[FACTORS..FACTORS + classes].iter().map(|&f| f as u64).collect();
    Multiplexer::open(words[0] as u64, words[1] as u64, &factors).ok()
}

fn read_connections(words: &[u32], mux: &mut Multiplexer) -> Option<()> {
    let count = words[CONNECTIONS] as usize;
    if count > 32 || !all_zero(&words[ROWS + 6 * count..COUNTER]) {
        return None;
    }
    for row in words[ROWS..ROWS + 6 * count].chunks(6) {
        let [class, longest, burst, period, next, credit] = [0, 1, 2, 3, 4, 5].map(|i| row[i] as u64);
        let good = between(1, class, mux.factors.len() as u64)
            && between(1, longest, 64)
            && between(1, burst, 64)
            && between(1, period, mux.cycle)
            && mux.cycle % period == 0;
        let full = credit == burst && next == 0;
        let charged = credit < burst && between(1, next, mux.counter + period);
        if !good || !(full || charged) {
            return None;
        }
        // packets that leave just this allowance: all that is spent was spent one period before the next credit comes back
        mux.slots.push(vec![next as i64 - period as i64; (burst - credit) as usize]);
        mux.connections.push(Connection { class, longest, burst, period });
    }
    Some(())
}

/// A packet in the box: its serial counted, its connection standing, its length permitted, its arrival not to come.
fn read_packet(words: &[u32], mux: &Multiplexer) -> Option<Packet> {
    let [serial, connection, units, arrival] = [0, 1, 2, 3].map(|i| words[i] as u64);
    let good = between(1, serial, mux.accepted)
        && between(1, connection, mux.connections.len() as u64)
        && between(1, units, mux.connections[connection as usize - 1].longest)
        && arrival <= mux.counter;
    good.then_some(Packet { serial, connection, units, arrival })
}

fn read_link(words: &[u32], mux: &mut Multiplexer) -> Option<()> {
    let left = words[LEFT] as u64;
    if left == 0 {
        return all_zero(&words[LINK..LENGTHS]).then_some(());
    }
    let packet = read_packet(&words[LINK..LENGTHS], mux)?;
    if left >= packet.units {
        return None;
    }
    mux.link = Some((packet, left));
    Some(())
}

/// The queues. A packet in a queue of no tag has no rank that fits, so that such a queue must be empty.
fn read_waiting(words: &[u32], mux: &mut Multiplexer) -> Option<()> {
    let lengths = &words[LENGTHS..WAITING];
    if lengths.iter().map(|&n| n as u64).sum::<u64>() > 1024 {
        return None;
    }
    let turns = mux.counter / mux.interval;
    let largest = mux.factors[mux.factors.len() - 1];
    let mut packets = words[WAITING..].chunks(4);
    for (place, &length) in lengths.iter().enumerate() {
        let mut last = 0;
        for _ in 0..length {
            let packet = read_packet(packets.next()?, mux)?;
            let rank = mux.rank(&packet);
            if packet.serial <= last || rank % 64 != place as u64 || !between(turns, rank, turns + largest) {
                return None;
            }
            last = packet.serial;
            mux.waiting.push(packet);
        }
    }
    Some(())
}
