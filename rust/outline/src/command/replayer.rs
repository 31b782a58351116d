//! Who replays: the proved call (feature `proved`), else the independent one.

#[cfg(feature = "proved")]
mod linked {
    pub use hidokpalu::calls::replay_trace as replay;

    pub const REPLAYER: &str = "proved replay";
}

#[cfg(not(feature = "proved"))]
mod linked {
    pub use reference::replay::replay;

    pub const REPLAYER: &str = "independent replay";
}

/// Replays a trace of an image into a table and an answer; the code.
pub use linked::replay;
pub use linked::REPLAYER;
