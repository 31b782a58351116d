//! An interrupt during a long search: it is noted, so that what was found until then is still told. A second one ends
//! the program.

use std::sync::atomic::{AtomicBool, Ordering};

static NOTED: AtomicBool = AtomicBool::new(false);

/// Whether there was an interrupt.
pub fn is_noted() -> bool {
    NOTED.load(Ordering::Relaxed)
}

#[cfg(unix)]
mod handler {
    use super::{Ordering, NOTED};

    const INTERRUPT: i32 = 2;
    const BY_DEFAULT: usize = 0;

    extern "C" {
        /// Of the C library; a handler is a function, or 0 for what the system does by itself.
        fn signal(number: i32, handler: usize) -> usize;
    }

    extern "C" fn note(_: i32) {
        NOTED.store(true, Ordering::Relaxed);
        set(BY_DEFAULT);
    }

    fn set(handler: usize) {
        // SAFETY: a handler that sets a flag and a handler does nothing that a signal forbids.
        unsafe { signal(INTERRUPT, handler) };
    }

    pub fn watch() {
        set(note as *const () as usize);
    }
}

#[cfg(not(unix))]
mod handler {
    pub fn watch() {}
}

/// From now on an interrupt is noted.
pub use handler::watch;
