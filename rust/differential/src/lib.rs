//! The proved library held against the plain Rust one.
//!
//! Programs are made at random, well-built by construction, damaged in a few
//! places or as raw bytes; buffers are lent too short, just right and too long.
//! Both sides get the same input, and every field of the answer and every byte
//! of every buffer must be the same. The test `million` does this a million
//! times over and prints what it came across.

#![forbid(unsafe_code)]

pub mod areas;
pub mod gotos;
pub mod lent;
pub mod machines;
pub mod programs;
pub mod random;
pub mod routines;
pub mod same;
pub mod texts;
