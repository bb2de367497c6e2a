//! The whole run of a plan, from its bytes to the text.

use crate::plan::{self, Plan};
use crate::{Multiplexer, Stepped};
use std::fmt::Write;

pub fn text(bytes: &[u8]) -> String {
    let opened = plan::read(bytes).and_then(|plan| Ok((open(&plan)?, plan)));
    let (mut mux, plan) = match opened {
        Err(n) => return format!("REFUSED {n}\n"),
        Ok(pair) => pair,
    };
    let mut out = String::new();
    let mut numbers = vec![];
    for (i, c) in plan.connections.iter().enumerate() {
        let (answer, number, t) = mux.admit(c[0] as u64, c[1] as u64, c[2] as u64, c[3] as u64);
        numbers.push(number);
        writeln!(out, "ADMIT {} {answer} {t}", i + 1).unwrap();
    }
    slots(&plan, &mut mux, &numbers, &mut out);
    out
}

fn open(plan: &Plan) -> Result<Multiplexer, u64> {
    let factors: Vec<u64> = plan.factors.iter().map(|&f| f as u64).collect();
    Multiplexer::open(plan.interval as u64, plan.cycle as u64, &factors)
}

/// Slot after slot, until no arrivals remain and the box is empty or a step is refused.
fn slots(plan: &Plan, mux: &mut Multiplexer, numbers: &[u64], out: &mut String) {
    let mut next = 0;
    let mut departed = 0;
    while next < plan.arrivals.len() || !mux.waiting.is_empty() || mux.link.is_some() {
        while next < plan.arrivals.len() && plan.arrivals[next][0] as u64 == mux.counter {
            let a = plan.arrivals[next];
            next += 1;
            let place = a[1] as usize;
            let number = if place >= 1 && place <= numbers.len() { numbers[place - 1] } else { 0 };
            let (answer, serial) = mux.offer(number, a[2] as u64);
            writeln!(out, "OFFER {next} {answer} {serial}").unwrap();
        }
        match mux.step() {
            Stepped::Refused(n) => {
                writeln!(out, "STOP {n}").unwrap();
                return;
            }
            Stepped::Departed { serial, connection, arrival, departure } => {
                departed += 1;
                let place = 1 + numbers.iter().position(|&n| n == connection).unwrap();
                writeln!(out, "DEPART {serial} {place} {arrival} {departure}").unwrap();
            }
            _ => {}
        }
    }
    writeln!(out, "END {} {} {departed}", mux.counter, mux.accepted).unwrap();
}
