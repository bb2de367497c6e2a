//! What was tried, in numbers.

/// How often each answer number was given.
#[derive(Default)]
pub struct Tally(pub [u64; 18]);

impl Tally {
    pub fn count(&mut self, number: u32) {
        self.0[number as usize] += 1;
    }

    pub fn calls(&self) -> u64 {
        self.0.iter().sum()
    }

    /// The counts in one line; an error where one of the numbers was given less than `least` times, so that nothing was tried.
    pub fn line(&self, numbers: &[usize], least: u64) -> Result<String, String> {
        for &n in numbers {
            if self.0[n] < least {
                return Err(format!("answer {n} was given {} times, but must be given {least} times", self.0[n]));
            }
        }
        Ok(numbers.iter().map(|&n| format!("{n}: {}", self.0[n])).collect::<Vec<_>>().join(", "))
    }
}
