//! Dice, and loads that panic.
use std::panic::{catch_unwind, resume_unwind, AssertUnwindSafe};

/// What a call gave that may panic by a load's own panic, and by no other.
pub(super) fn caught<T>(call: impl FnOnce() -> T) -> Option<T> {
    match catch_unwind(AssertUnwindSafe(call)) {
        Ok(gave) => Some(gave),
        Err(why) if why.downcast_ref() == Some(&"a load") => None,
        Err(why) => resume_unwind(why),
    }
}

/// A load's own panic.
pub(super) fn panicking<T>() -> T {
    // Without the hook's message.
    resume_unwind(Box::new("a load"))
}

/// The next number of dice that aren't at 0.
pub(super) fn roll(dice: &mut u64) -> u64 {
    *dice ^= *dice << 13;
    *dice ^= *dice >> 7;
    *dice ^= *dice << 17;
    dice.wrapping_mul(0x2545_f491_4f6c_dd1d)
}
