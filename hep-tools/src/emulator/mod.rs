//! The process execution module of document 01 in flat arrays, for speed.

pub mod arithmetic;
pub mod assemble;
pub mod batch;
pub mod codes;
pub mod draft;
pub mod image;
pub mod machine;
pub mod part;
pub mod psw;
pub mod refusal;
mod step;
