//! The proved report called from Rust, and another planner to compare it with.

pub mod calls;
pub mod halls;
pub mod planner;
pub mod random;
pub mod task;
