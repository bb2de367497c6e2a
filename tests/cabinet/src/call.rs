//! A call on the words of a box, made of the library and of the reference.

use crate::calls;
use reference::{Multiplexer, Stepped};

#[derive(Clone, Copy, Debug)]
pub enum Call {
    /// class, s, b and T of the newcomer
    Admit([u32; 4]),
    /// connection and length
    Offer(u32, u32),
    Step,
    IsSound,
}

/// What any of the calls gave; the fields that a call does not have are 0.
#[derive(Clone, Copy, Debug, PartialEq)]
pub struct Outcome {
    pub number: u32,
    pub fields: [u32; 5],
    pub guards_stand: bool,
}

impl Outcome {
    /// What a call must give, by the reference's numbers.
    fn must_be(number: u64, given: &[u64]) -> Outcome {
        let mut fields = [0; 5];
        for (field, &value) in fields.iter_mut().zip(given) {
            *field = value as u32;
        }
        Outcome { number: number as u32, fields, guards_stand: true }
    }

    pub fn refusal(number: u64) -> Outcome {
        Outcome::must_be(number, &[])
    }
}

impl<const N: usize> From<calls::Answered<u32, N>> for Outcome {
    fn from(answered: calls::Answered<u32, N>) -> Outcome {
        let mut fields = [0; 5];
        fields[..N].copy_from_slice(&answered.fields);
        Outcome { number: answered.number, fields, guards_stand: answered.guards_stand }
    }
}

impl Call {
    pub fn of_library(self, words: &mut [u32]) -> Outcome {
        match self {
            Call::Admit(asked) => calls::admit(words, asked).into(),
            Call::Offer(connection, units) => calls::offer(words, connection, units).into(),
            Call::Step => calls::step(words).into(),
            Call::IsSound => Outcome { number: calls::is_sound(words), fields: [0; 5], guards_stand: true },
        }
    }

    /// The same of a sound box.
    pub fn of_reference(self, mux: &mut Multiplexer) -> Outcome {
        match self {
            Call::Admit(asked) => {
                let [class, longest, burst, period] = asked.map(u64::from);
                let (number, connection, t) = mux.admit(class, longest, burst, period);
                Outcome::must_be(number, &[connection, t])
            }
            Call::Offer(connection, units) => {
                let (number, serial) = mux.offer(connection as u64, units as u64);
                Outcome::must_be(number, &[serial])
            }
            Call::Step => match mux.step() {
                Stepped::Idle => Outcome::must_be(0, &[]),
                Stepped::Sending { serial, left } => Outcome::must_be(0, &[serial, left]),
                Stepped::Departed { serial, connection, arrival, departure } => {
                    Outcome::must_be(0, &[serial, 0, connection, arrival, departure])
                }
                Stepped::Refused(number) => Outcome::refusal(number),
            },
            Call::IsSound => Outcome::must_be(0, &[]),
        }
    }
}
