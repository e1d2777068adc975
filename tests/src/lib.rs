//! A second implementation of the allocator, for Rust and for C, the proved
//! library's C interface, and what the inputs of tests are made of.

pub mod capi;
pub mod exported;
pub mod inputs;
pub mod random;
pub mod reference;
