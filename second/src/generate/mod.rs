//! Seeded random papers, sessions and scripts of calls.

pub mod alterations;
pub mod job;
pub mod malformed;
pub mod paper;
pub mod script;
pub mod session;
pub mod spoil;
pub mod trouble;
pub mod turns;
