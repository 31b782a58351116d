//! What the programs ask of the operating system and the processor, where Rust's library has no call for it.

pub mod interrupt;
pub mod output;
#[cfg(target_arch = "x86_64")]
pub mod painted;
