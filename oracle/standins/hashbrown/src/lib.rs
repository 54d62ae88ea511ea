//! Stand-in: the standard library's maps and sets, which are these.

pub use std::collections::{hash_map, HashMap, HashSet};
