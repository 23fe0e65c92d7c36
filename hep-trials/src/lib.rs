//! The proved library held to the trials and to the emulator of hep-tools, and timed beside it.
//!
//! - `buffers`: what a run is lent, with marks beyond it
//! - `proved`: the library as an implementation of the batch program
//! - `calls`: what its calls refuse and what they leave alone
//! - `filling`: the call that fills a module held to a plain search
//! - `random`: random inputs, on every processor of the machine

pub mod buffers;
pub mod calls;
pub mod filling;
pub mod proved;
pub mod random;
