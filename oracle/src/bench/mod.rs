//! What the bench runs.

pub mod commits;
pub mod filler;
pub mod growth;
pub mod rooms;
pub mod sql;
pub mod turns;
