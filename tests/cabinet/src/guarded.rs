//! What is lent to the library lies between guards, whose pattern no call may touch.

/// Guard entries on each side; an odd number, so that lent bytes are not aligned as words are.
pub const GUARDS: usize = 9;

/// Entries that can stand in a guard: the pattern differs from place to place, so that a shifted copy is seen too.
pub trait Pattern: Copy + PartialEq {
    fn pattern(place: usize) -> Self;
}

impl Pattern for u8 {
    fn pattern(place: usize) -> u8 {
        0xA5 ^ place as u8
    }
}

impl Pattern for u32 {
    fn pattern(place: usize) -> u32 {
        0xA5C3_96E1 ^ place as u32
    }
}

impl Pattern for usize {
    fn pattern(place: usize) -> usize {
        0xA5C3_96E1_5A3C_691E ^ place
    }
}

/// A lent buffer between its guards.
pub struct Guarded<T> {
    all: Vec<T>,
}

impl<T: Pattern> Guarded<T> {
    pub fn new(lent: &[T]) -> Guarded<T> {
        let guard = (0..GUARDS).map(T::pattern);
        let all = guard.clone().chain(lent.iter().copied()).chain(guard).collect();
        Guarded { all }
    }

    pub fn lent(&self) -> &[T] {
        &self.all[GUARDS..self.all.len() - GUARDS]
    }

    pub fn lent_mut(&mut self) -> &mut [T] {
        let end = self.all.len() - GUARDS;
        &mut self.all[GUARDS..end]
    }

    /// Whether the guards stand and the lent entries are these.
    pub fn is(&self, expected: &[T]) -> bool {
        let (before, rest) = self.all.split_at(GUARDS);
        let (lent, after) = rest.split_at(rest.len() - GUARDS);
        lent == expected && stands(before) && stands(after)
    }
}

/// Whether a guard is as it was made.
pub fn stands<T: Pattern>(guard: &[T]) -> bool {
    guard.iter().enumerate().all(|(i, &g)| g == T::pattern(i))
}
