//! The proved checker of proof outlines for C11 release-acquire programs, for Rust. `include/hidokpalu.h` says what each call promises;
//! here the same calls have Rust's types: slices, a verdict that is matched on, and an error type for each way in which a call can fail.
//!
//! ```
//! use hidokpalu::{check, Fault, Verdict};
//!
//! match check(b"no image") {
//!     Verdict::Accepted { obligations } => println!("{obligations} obligations are met"),
//!     refused => assert_eq!(refused, Verdict::Malformed { fault: Fault::Length, record: 1 }),
//! }
//! ```
//!
//! The archive comes from `rt lib` in `crates/hidokpalu`. The calls need no heap and keep nothing between them, so any number of threads may
//! make them at once; what they need of the stack is told in the header.

pub mod calls;
#[cfg(feature = "exports")]
pub mod exports;
mod handover;
pub mod header;
mod replay;
mod service;
mod trim;
mod verdict;

pub use calls::{Crossing, Run, Tariff};
pub use handover::{check_handover, replay_handover, HandoverError};
pub use replay::{replay, Replay, StepRefusal, Write};
pub use service::{Bill, BillError, Denied, Rights, Service, ServiceError};
pub use trim::{trim, trim_into, Refused, TrimError};
pub use verdict::{check, Class, Fault, Obligation, Point, Reason, Verdict};

/// What `rt version` said when the archive was linked: the kit that proved and compiled it.
pub const KIT: &str = env!("HIDOKPALU_KIT");
