//! The strip history in plain Rust: a byte-exact store, the book that judges it, and random
//! histories.

pub mod bench;
pub mod damage;
pub mod disk;
pub mod fuzz;
pub mod handover;
pub mod history;
pub mod judge;
pub mod media;
pub mod random;
pub mod relief;
pub mod script;
pub mod shorten;
pub mod store;
