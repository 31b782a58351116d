//! Who trims: the proved call (feature `proved`), else the independent one.

#[cfg(feature = "proved")]
mod linked {
    pub const TRIMMER: &str = "proved trimming";

    pub fn trimmed(image: &[u8]) -> Option<Vec<u8>> {
        hidokpalu::trim(image).ok()
    }
}

#[cfg(not(feature = "proved"))]
mod linked {
    pub use reference::trim::trimmed;

    pub const TRIMMER: &str = "independent trimming";
}

/// The image trimmed; none if it is not accepted.
pub use linked::trimmed;
pub use linked::TRIMMER;
