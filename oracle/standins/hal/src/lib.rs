//! Stand-in: the greatest number of bind groups.

pub const MAX_BIND_GROUPS: usize = 8;
