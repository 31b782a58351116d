//! A standard output that was closed by whoever started the program. The runtime opens another in its place, into which answers would
//! vanish, so this is found out before the runtime begins.

/// Whether standard output was closed when the program began.
pub use look::output_is_closed;

#[cfg(target_os = "linux")]
mod look {
    use std::sync::atomic::{AtomicBool, Ordering};

    static CLOSED: AtomicBool = AtomicBool::new(false);

    const OUTPUT: i32 = 1;
    const GET_FLAGS: i32 = 1;

    extern "C" {
        /// Of the C library: -1 for a file that is not open.
        fn fcntl(file: i32, command: i32, ...) -> i32;
    }

    #[used]
    #[link_section = ".init_array"]
    static LOOK: extern "C" fn() = look;

    extern "C" fn look() {
        // SAFETY: the call asks for flags and changes nothing, and the flag here is there from the start.
        let flags = unsafe { fcntl(OUTPUT, GET_FLAGS) };
        CLOSED.store(flags == -1, Ordering::Relaxed);
    }

    pub fn output_is_closed() -> bool {
        CLOSED.load(Ordering::Relaxed)
    }
}

#[cfg(not(target_os = "linux"))]
mod look {
    pub fn output_is_closed() -> bool {
        false
    }
}
