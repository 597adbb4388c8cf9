//! The library's exports as they are, and the calls of the unit that are measured.

pub mod cases;
pub mod export;
