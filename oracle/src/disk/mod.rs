//! `striproom`: a stand-in for the program, and its tests with real files and processes.

pub mod command;
pub mod cores;
pub mod faults;
pub mod found;
pub mod handed;
pub mod kill;
pub mod launch;
pub mod locks;
pub mod odd;
pub mod old;
pub mod process;
pub mod program;
pub mod room;
pub mod same;
pub mod session;
pub mod spoilt;
pub mod stores;
pub mod trace;
pub mod unfit;
pub mod verdict;
pub mod wrong;
