//! A second program for the codec, written from the scope paper and the requests
//! after it alone.
//!
//! It shares nothing with the library that it is compared with, and it prefers
//! plainness to speed: every number is an exact fraction, every float is its
//! 32 bits, and no float arithmetic is done anywhere.

pub mod bound;
pub mod card;
pub mod color;
pub mod descriptor;
pub mod fields;
pub mod fixed;
pub mod float;
pub mod fraction;
pub mod groups;
pub mod history;
pub mod layout;
pub mod lines;
pub mod pictures;
pub mod quantization;
pub mod refusal;
pub mod stack;
