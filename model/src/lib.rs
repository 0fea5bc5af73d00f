//! A model of the KATAN and KTANTAN ciphers and of the stepping bench, written from the paper
//! (document 004) and documents 01 and 02. It shares no code with the Rattle crates that it is
//! compared with.

pub mod bench;
pub mod calls;
pub mod cipher;
pub mod driver;
pub mod exchange;
pub mod lists;
pub mod origin;
pub mod random;
pub mod script;
pub mod scripts;
pub mod smudged;
pub mod stream;
pub mod vectors;

pub use bench::{Bench, Reading, Reply, Screen};
pub use calls::Refusal;
pub use cipher::{decrypt, encrypt, registers_at, trace, Variant, ROUNDS};
pub use random::Random;
