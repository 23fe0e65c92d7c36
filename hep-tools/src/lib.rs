//! The test program of the HEP emulator: another emulator of document 01, written from the
//! papers alone, and what is held to it.
//!
//! - `emulator`: images, one step, runs, the batch program
//! - `filling`: which jobs fill a module, a plain search
//! - `generate`: random inputs, images, pairs for isolation and jobs
//! - `trials`: inputs with answers worked out by hand
//! - `compare`: an implementation held to the trials and to the emulator; isolation tried
//! - `benchmark`: workloads for timing
//! - `tool`: what the program `hep` says: text both ways, refused files, traces, reasons, pictures

pub mod benchmark;
pub mod compare;
pub mod emulator;
pub mod filling;
pub mod generate;
pub mod tool;
pub mod trials;
