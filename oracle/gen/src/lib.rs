//! The generator of cases.

pub mod build;
pub mod good;
pub mod leaf;
pub mod populate;
pub mod rng;
pub mod stage;
pub mod twist;
pub mod types;
