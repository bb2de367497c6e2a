//! How much is tried: all, or one in so many.

/// This count; the share of it where CABINET_SHARE says one in how many.
pub fn of(count: u64) -> u64 {
    match std::env::var("CABINET_SHARE") {
        Ok(text) => count / text.parse::<u64>().expect("CABINET_SHARE is a number, 1 or more"),
        Err(_) => count,
    }
}
