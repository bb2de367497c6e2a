//! Words lent to the library and, beside them, what they must be: each call is compared whole, every word of them too.

use crate::call::{Call, Outcome};
use crate::calls;
use crate::guarded::Guarded;
use reference::{words, Multiplexer};

pub struct Trial {
    lent: Guarded<u32>,
    expected: Vec<u32>,
}

impl Trial {
    pub fn new(words: Vec<u32>) -> Trial {
        Trial { lent: Guarded::new(&words), expected: words }
    }

    /// The words that the library has, which are the ones that they must be.
    pub fn words(&self) -> &[u32] {
        &self.expected
    }

    /// Puts other words into the place of the first ones, on both sides.
    pub fn put(&mut self, words: &[u32]) {
        self.lent.lent_mut()[..words.len()].copy_from_slice(words);
        self.expected[..words.len()].copy_from_slice(words);
    }

    pub fn put_word(&mut self, place: usize, word: u32) {
        self.lent.lent_mut()[place] = word;
        self.expected[place] = word;
    }

    /// Opens a box; the reference's where it is opened.
    pub fn open(&mut self, interval: u32, cycle: u32, factors: &[u32]) -> Result<(u32, Option<Multiplexer>), String> {
        let wide: Vec<u64> = factors.iter().map(|&f| f as u64).collect();
        let (number, opened) = match Multiplexer::open(interval as u64, cycle as u64, &wide) {
            Err(number) => (number as u32, None),
            Ok(_) if self.expected.len() < words::BOX_WORDS => (17, None),
            Ok(mux) => (0, Some(mux)),
        };
        if let Some(mux) = &opened {
            words::write(mux, &mut self.expected);
        }
        let lent = Guarded::new(factors);
        let given = calls::open(self.lent.lent_mut(), interval, cycle, lent.lent());
        let what = || format!("open({interval}, {cycle}, {factors:?}) of {} words", self.expected.len());
        if given != number {
            return Err(format!("{} gave {given}, but must give {number}", what()));
        }
        if !lent.is(factors) {
            return Err(format!("{} changed its factors", what()));
        }
        self.same_words(what)?;
        Ok((number, opened))
    }

    /// Makes a call on a box that is sound, of the library and of the reference.
    pub fn call(&mut self, call: Call, mux: &mut Multiplexer) -> Result<Outcome, String> {
        let expected = call.of_reference(mux);
        if expected.number == 0 {
            words::write(mux, &mut self.expected);
        }
        self.compare(call, expected)
    }

    /// Makes a call on any words; whether they are sound.
    pub fn call_on_any(&mut self, call: Call) -> Result<bool, String> {
        let Some(mut mux) = words::read(&self.expected) else {
            self.compare(call, Outcome::refusal(1))?;
            return Ok(false);
        };
        self.call(call, &mut mux)?;
        Ok(true)
    }

    fn compare(&mut self, call: Call, expected: Outcome) -> Result<Outcome, String> {
        let given = call.of_library(self.lent.lent_mut());
        let what = || format!("{call:?} of {} words", self.expected.len());
        if given != expected {
            return Err(format!("{} gave {given:?}, but must give {expected:?}; the words must then be {}", what(), self.shown()));
        }
        self.same_words(what)?;
        Ok(expected)
    }

    fn same_words(&self, what: impl Fn() -> String) -> Result<(), String> {
        if self.lent.is(&self.expected) {
            return Ok(());
        }
        let differing = (0..self.expected.len()).find(|&i| self.lent.lent()[i] != self.expected[i]);
        Err(match differing {
            Some(i) => format!("{}: word {i} is {}, but must be {}", what(), self.lent.lent()[i], self.expected[i]),
            None => format!("{} changed words outside the lent ones", what()),
        })
    }

    /// The tables of the box and its first packets, for a message.
    fn shown(&self) -> String {
        format!("{:?}", &self.expected[..self.expected.len().min(320)])
    }
}
