//! Types and formats.

use crate::Refused;

/// Shape, scalar kind and width of a lone type word.
pub fn lone(word: u32) -> Option<(u32, u32, u32)> {
    if word & !0x3ff != 0x6800_0000 {
        return None;
    }
    good_type(word)
}

/// The type within a kind 13 word, whatever else the word says.
pub fn good_type(word: u32) -> Option<(u32, u32, u32)> {
    let (shape, kind, width) = (word & 15, word >> 4 & 3, word >> 6 & 15);
    (shape < 13 && [1, 2, 4, 8].contains(&width)).then_some((shape, kind, width))
}

const SINT: u32 = 0;
const UINT: u32 = 1;
const FLOAT: u32 = 2;

fn type_word(shape: u32, kind: u32, width: u32) -> u32 {
    0x6800_0000 + shape + 16 * kind + 64 * width
}

/// The first code of each run of vertex formats of one type, and that type. The last run ends before 45.
const VERTEX: [(u32, u32, u32, u32); 16] = [
    (0, 0, UINT, 4),
    (3, 1, UINT, 4),
    (6, 2, UINT, 4),
    (7, 3, UINT, 4),
    (10, 0, SINT, 4),
    (13, 1, SINT, 4),
    (16, 2, SINT, 4),
    (17, 3, SINT, 4),
    (20, 0, FLOAT, 4),
    (26, 1, FLOAT, 4),
    (32, 2, FLOAT, 4),
    (33, 3, FLOAT, 4),
    (41, 0, FLOAT, 8),
    (42, 1, FLOAT, 8),
    (43, 2, FLOAT, 8),
    (44, 3, FLOAT, 8),
];

/// The same for texture formats; the last run ends before 77, and 43 to 50 have no type.
const TEXTURE: [(u32, u32, u32, u32); 20] = [
    (0, 0, FLOAT, 4),
    (4, 0, UINT, 4),
    (7, 0, SINT, 4),
    (10, 1, FLOAT, 4),
    (14, 0, UINT, 8),
    (15, 1, UINT, 4),
    (18, 1, SINT, 4),
    (21, 0, FLOAT, 4),
    (23, 1, FLOAT, 4),
    (25, 3, FLOAT, 4),
    (35, 3, UINT, 4),
    (39, 3, SINT, 4),
    (42, 2, FLOAT, 4),
    (51, 2, FLOAT, 4),
    (52, 3, FLOAT, 4),
    (64, 0, FLOAT, 4),
    (68, 1, FLOAT, 4),
    (72, 2, FLOAT, 4),
    (76, 3, FLOAT, 4),
    (77, 0, 0, 0),
];

fn in_run(table: &[(u32, u32, u32, u32)], code: u32) -> u32 {
    let mut found = 0;
    for &(first, shape, kind, width) in table {
        if first <= code {
            found = type_word(shape, kind, width);
        }
    }
    found
}

pub fn vertex(code: u32) -> Result<u32, Refused> {
    if code > 44 {
        return Err(Refused::alone(82));
    }
    Ok(in_run(&VERTEX, code))
}

pub fn texture(code: u32) -> Result<u32, Refused> {
    match code {
        77.. => Err(Refused::alone(82)),
        43..=50 => Err(Refused::alone(80)),
        _ => Ok(in_run(&TEXTURE, code)),
    }
}

/// The subtype rule on good type words.
pub fn fits(a: u32, b: u32) -> bool {
    let width = |w: u32| w >> 6 & 15;
    let kind = |w: u32| w >> 4 & 3;
    let (from, to) = (a & 15, b & 15);
    let shapes = if from >= 4 || to >= 4 { from == to } else { from <= to };
    width(a) <= width(b) && kind(a) == kind(b) && shapes
}

pub fn subtype(a: u32, b: u32) -> u32 {
    if lone(a).is_none() || lone(b).is_none() {
        82
    } else {
        fits(a, b) as u32
    }
}

pub fn format(code: u32, ty: u32) -> Result<(), Refused> {
    if code > 76 || lone(ty).is_none() {
        return Err(Refused::alone(82));
    }
    let own = texture(code)?;
    if fits(own, ty) {
        Ok(())
    } else {
        Err(Refused { number: 81, details: [own, 0, 0] })
    }
}
