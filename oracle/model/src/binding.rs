//! Resources against layout entries, on the content of kind 16 and kind 18 words (bits 26 to 0).

const fn ty(content: u32) -> u32 {
    content >> 23
}

pub fn storable(format: u32) -> bool {
    format < 43 && format != 28 && format != 31
}

/// The view that a texture of this dimension asks for, or none if no view is right.
fn wanted_view(dimension: u32, arrayed: bool) -> Option<u32> {
    match (dimension, arrayed) {
        (0, false) => Some(0),
        (1, false) => Some(1),
        (1, true) => Some(2),
        (3, false) => Some(3),
        (3, true) => Some(4),
        (2, false) => Some(5),
        _ => None,
    }
}

/// `check_binding_use`: 0 or a refusal. `size` and `least` are 0 where there is none.
pub fn check_use(resource: u32, size: u32, entry: u32, least: u32) -> u32 {
    match ty(resource) {
        0 => {
            if ty(entry) != 0 {
                return 22;
            }
            let asked = match (resource >> 3 & 3, resource & 7) {
                (0, _) => 0,
                (1, 1) => 3,
                (1, 3) => 1,
                _ => u32::MAX,
            };
            if asked != entry & 3 {
                23
            } else if least != 0 && least < size {
                25
            } else {
                0
            }
        }
        1 => {
            if ty(entry) != 1 {
                22
            } else if (entry & 3 == 2) != (resource & 1 == 1) {
                28
            } else {
                0
            }
        }
        6 => {
            if entry == resource {
                0
            } else {
                22
            }
        }
        sort => texture(sort, resource, entry),
    }
}

fn texture(sort: u32, resource: u32, entry: u32) -> u32 {
    let view = match ty(entry) {
        2 | 4 => entry & 7,
        5 => 1,
        _ => return 26,
    };
    if wanted_view(resource & 3, resource & 4 != 0) != Some(view) {
        return 26;
    }
    let right = match ty(entry) {
        2 => {
            let same_multi = resource & 8 == entry & 8;
            let sample = entry >> 4 & 7;
            let same_class = match sort {
                2 => match resource >> 4 & 3 {
                    0 => sample == 0 || sample == 1,
                    1 => sample == 3,
                    _ => sample == 4,
                },
                3 => sample == 2,
                _ => false,
            };
            same_class && same_multi
        }
        4 => {
            let format = entry >> 8 & 127;
            if !storable(format) {
                return 30;
            }
            let offered = [1, 2, 3, 7][(entry >> 16 & 3) as usize];
            let access = resource >> 16 & 7;
            sort == 4 && resource >> 8 & 127 == format && (access == offered || (access == 2 && offered == 3))
        }
        _ => sort == 5,
    };
    if right {
        0
    } else {
        27
    }
}

/// `derive_binding_type`: the content of the type word and the least size, or a refusal.
pub fn derive(resource: u32, size: u32, named: bool) -> Result<(u32, u32), u32> {
    let arrayed = resource & 4 != 0;
    let view = match resource & 3 {
        0 => 0,
        1 if arrayed => 2,
        1 => 1,
        2 => 5,
        _ if arrayed => 4,
        _ => 3,
    };
    let multi = resource & 8;
    Ok(match ty(resource) {
        0 => match (resource >> 3 & 3, resource & 7) {
            (0, _) => (0, size),
            (1, 1) => (3, size),
            (1, _) => (1, size),
            _ => return Err(24),
        },
        1 => (1 << 23 | if resource & 1 == 1 { 2 } else { 0 }, 0),
        2 => {
            let sample = match resource >> 4 & 3 {
                0 if named => 0,
                0 => 1,
                1 => 3,
                _ => 4,
            };
            (2 << 23 | sample << 4 | multi | view, 0)
        }
        3 => (2 << 23 | 2 << 4 | multi | view, 0),
        4 => {
            let access = match resource >> 16 & 7 {
                1 => 0,
                2 => 1,
                3 => 2,
                _ => 3,
            };
            (4 << 23 | access << 16 | resource & 0x7f00 | view, 0)
        }
        5 => (5 << 23, 0),
        _ => (6 << 23 | resource & 1, 0),
    })
}
