//! Who permits a handover: the proved call (feature `proved`), else the independent one.

#[cfg(feature = "proved")]
mod linked {
    pub use hidokpalu::calls::check_handover;

    pub const PERMIT: &str = "proved handover";
}

#[cfg(not(feature = "proved"))]
mod linked {
    pub use reference::handover::check_handover;

    pub const PERMIT: &str = "independent handover";
}

/// The code of a handover: 0 if it is permitted.
pub use linked::check_handover as code;
pub use linked::PERMIT;
