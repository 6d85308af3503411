//! The verifier of A64 code for Lightweight Fault Isolation, from Rust: `lfi_verifier`, the C library, behind Rust's types.
//!
//! | To | Use |
//! |---|---|
//! | judge code that is there as a whole | [`verify`] |
//! | judge code that comes in pieces | [`Verifier`] |
//! | read a stream of modules, and judge their code as it comes | [`Stream`] |
//! | tell why a word is refused, and how it is mended | [`explain`] |
//! | map a slot, and set the registers | [`SlotMap`], [`registers`] |
//!
//! ```
//! use lfi_verifier::{verify, Profile, Rule, Violation};
//!
//! assert_eq!(verify(&0xD65F_03C0u32.to_le_bytes(), Profile::One), Ok(())); // ret
//! match verify(&0xD400_0001u32.to_le_bytes(), Profile::One) { // svc #0
//!     Err(Violation::Refused(fault)) => assert_eq!((fault.word, fault.rule), (0, Rule::Spelled)),
//!     other => panic!("{other:?}"),
//! }
//! ```
//!
//! The library's contracts are proved of its own code (docs/C.md, "What is proved, tested and believed"). Nothing of this crate
//! is proved: it is a plain layer that keeps, by its types, what docs/C.md asks of a caller. All `unsafe` stands in `calls.rs`.
//! It takes no memory, starts no thread and never panics. A library whose interface isn't [`VERSION`] isn't asked, and what
//! the library answers that this crate doesn't know is an error and never `Ok`.
//!
//! The rules, the profiles, the stream and its faults are those of docs/PROFILE.md. docs/HOST.md says what else a host owes
//! that runs verified code.
#![cfg_attr(not(test), no_std)]
#![deny(unsafe_code, missing_docs)]
#![deny(clippy::panic, clippy::unwrap_used, clippy::expect_used, clippy::indexing_slicing, clippy::arithmetic_side_effects)]

#[allow(missing_docs)]
mod calls;
mod explain;
mod fault;
mod map;
mod status;
mod stream;
mod verify;

pub use explain::{explain, mend, Mend, RefusedWord};
pub use fault::{Fault, Rule, StreamFault, Violation};
pub use map::{registers, ModuleNumber, Registers, SlotMap};
pub use status::Status;
pub use stream::{Ends, Event, Events, Reason, Stream};
pub use verify::{verify, Profile, Verifier, MAX_BYTES, MAX_WORDS};

/// The number of the interface for which this crate is written: `LFI_VERSION` of the header.
pub const VERSION: u32 = 7;

/// The number of the interface of the library that is linked. Where it isn't [`VERSION`], all else fails.
pub fn version() -> u32 {
    calls::version()
}
