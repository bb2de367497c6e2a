//! Plan files, read and written.

#[derive(Clone, Debug, Default, PartialEq)]
pub struct Plan {
    pub interval: u32,
    pub cycle: u32,
    pub factors: Vec<u32>,
    /// class, s, b, T
    pub connections: Vec<[u32; 4]>,
    /// slot, place, length
    pub arrivals: Vec<[u32; 3]>,
}

/// The word whose first byte is the first of these.
pub fn word(bytes: &[u8]) -> u32 {
    u32::from_le_bytes([bytes[0], bytes[1], bytes[2], bytes[3]])
}

pub fn words(bytes: &[u8]) -> Vec<u32> {
    bytes.chunks_exact(4).map(word).collect()
}

/// The contents of a plan, or its refusal.
pub fn read(bytes: &[u8]) -> Result<Plan, u64> {
    let size = bytes.len() as u64;
    if size < 40 || size > 65_536 || size % 4 != 0 || words(bytes)[0] as u64 != size {
        return Err(13);
    }
    let w = words(bytes);
    if w.iter().fold(0u32, |a, &b| a.wrapping_add(b)) != 0 {
        return Err(14);
    }
    let (classes, connections, arrivals) = (w[3] as u64, w[5] as u64, w[7] as u64);
    let at = 40 + 4 * classes;
    let good = classes <= 8
        && connections <= 32
        && arrivals <= 4096
        && w[4] == 40
        && w[6] as u64 == at
        && w[8] as u64 == at + 16 * connections
        && size == at + 16 * connections + 12 * arrivals;
    if !good {
        return Err(15);
    }
    let mut at = 10;
    let mut take = |n: usize| {
        at += n;
        w[at - n..at].to_vec()
    };
    let factors = take(classes as usize);
    let connections: Vec<[u32; 4]> = take(4 * connections as usize).chunks(4).map(|c| [c[0], c[1], c[2], c[3]]).collect();
    let arrivals: Vec<[u32; 3]> = take(3 * arrivals as usize).chunks(3).map(|c| [c[0], c[1], c[2]]).collect();
    if arrivals.windows(2).any(|p| p[1][0] < p[0][0]) || arrivals.iter().any(|a| a[0] > 1_000_000) {
        return Err(16);
    }
    Ok(Plan { interval: w[1], cycle: w[2], factors, connections, arrivals })
}

/// The bytes of a plan, or the refusal of its contents.
pub fn write(p: &Plan) -> Result<Vec<u8>, u64> {
    if p.factors.len() > 8 || p.connections.len() > 32 || p.arrivals.len() > 4096 {
        return Err(15);
    }
    if p.arrivals.windows(2).any(|a| a[1][0] < a[0][0]) || p.arrivals.iter().any(|a| a[0] > 1_000_000) {
        return Err(16);
    }
    let at = 40 + 4 * p.factors.len() as u32;
    let arrivals_at = at + 16 * p.connections.len() as u32;
    let size = arrivals_at + 12 * p.arrivals.len() as u32;
    let mut w = vec![
        size,
        p.interval,
        p.cycle,
        p.factors.len() as u32,
        40,
        p.connections.len() as u32,
        at,
        p.arrivals.len() as u32,
        arrivals_at,
        0,
    ];
    w.extend(&p.factors);
    w.extend(p.connections.iter().flatten());
    w.extend(p.arrivals.iter().flatten());
    w[9] = 0u32.wrapping_sub(w.iter().fold(0u32, |a, &b| a.wrapping_add(b)));
    Ok(w.iter().flat_map(|x| x.to_le_bytes()).collect())
}

/// The bytes of a plan whose tables are lent as words, into a buffer of so many bytes, or the refusal.
pub fn write_lent(header: [u32; 2], factors: &[u32], connections: &[u32], arrivals: &[u32], room: usize) -> Result<Vec<u8>, u64> {
    if connections.len() % 4 != 0 || arrivals.len() % 3 != 0 {
        return Err(15);
    }
    let bytes = write(&Plan {
        interval: header[0],
        cycle: header[1],
        factors: factors.to_vec(),
        connections: connections.chunks(4).map(|c| [c[0], c[1], c[2], c[3]]).collect(),
        arrivals: arrivals.chunks(3).map(|a| [a[0], a[1], a[2]]).collect(),
    })?;
    if bytes.len() > room {
        return Err(17);
    }
    Ok(bytes)
}
