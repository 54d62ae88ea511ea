//! The leaf cases, all of them.

use cases::Case;

const fn word(kind: u32, content: u32) -> u32 {
    kind << 27 | content
}

/// The 208 types: 13 shapes, 4 scalar kinds, 4 widths.
pub fn types() -> Vec<u32> {
    let mut out = Vec::new();
    for shape in 0..13 {
        for kind in 0..4 {
            for width in [1, 2, 4, 8] {
                out.push(word(13, shape | kind << 4 | width << 6));
            }
        }
    }
    out
}

/// Words that are no lone type: other kinds, shapes 13 to 15, other widths, and each bit from 10 up.
pub fn bad_types() -> Vec<u32> {
    let good = word(13, 2 << 4 | 4 << 6);
    let mut out = vec![0, u32::MAX, word(12, 0), word(14, 2 << 4 | 4 << 6)];
    out.extend((13..16).map(|shape| good | shape));
    out.extend((0..16).filter(|w| ![1, 2, 4, 8].contains(w)).map(|w| word(13, 2 << 4 | w << 6)));
    out.extend((10..32).map(|at| good ^ (1 << at)));
    out
}

/// Codes past the last one, some of which are good codes modulo a power of two.
fn codes_past(end: u32) -> Vec<u32> {
    let mut out: Vec<u32> = (end..end + 12).collect();
    out.extend([127, 128, 129, 255, 256, 257, 300, 65535, 65536, 65540, 1 << 31, u32::MAX - 1, u32::MAX]);
    out
}

pub fn vertex() -> Vec<Case> {
    (0..45).chain(codes_past(45)).map(Case::Vertex).collect()
}

pub fn texture() -> Vec<Case> {
    (0..77).chain(codes_past(77)).map(Case::Texture).collect()
}

pub fn subtype() -> Vec<Case> {
    let (good, bad) = (types(), bad_types());
    let mut out = Vec::new();
    for a in &good {
        out.extend(good.iter().map(|b| Case::Subtype(*a, *b)));
    }
    for b in &bad {
        for g in good.iter().step_by(7) {
            out.extend([Case::Subtype(*g, *b), Case::Subtype(*b, *g)]);
        }
        out.extend(bad.iter().map(|c| Case::Subtype(*b, *c)));
    }
    out
}

pub fn format() -> Vec<Case> {
    let (good, bad) = (types(), bad_types());
    let mut out = Vec::new();
    for code in (0..77).chain(codes_past(77)) {
        out.extend(good.iter().chain(&bad).map(|ty| Case::Format(code, *ty)));
    }
    out
}

const PLACE: u32 = word(4, 1 << 23 | 7);

/// The resource sorts, a few of them outside the format (storage access 0, format 28).
pub fn resources() -> Vec<Vec<u32>> {
    let mut out = Vec::new();
    let resource = |ty: u32, content: u32| vec![PLACE, word(16, ty << 23 | content)];
    let mut buffer = |content: u32, size: u32| {
        let mut words = resource(0, content);
        words.push(word(6, size));
        out.push(words);
    };
    buffer(0, 64);
    buffer(0, 1);
    buffer(0, (1 << 27) - 1);
    for access in 0..8 {
        buffer(1 << 3 | access, 64);
    }
    buffer(2 << 3, 64);
    buffer(0, 0);
    buffer(1, 64);
    buffer(2 << 3 | 1, 64);
    buffer(3 << 3, 64);
    for content in 0..3 {
        out.push(resource(1, content));
    }
    for shape in 0..16 {
        for kind in 0..4 {
            out.push(resource(2, shape | kind << 4));
        }
        out.push(resource(3, shape));
        out.push(resource(5, shape));
    }
    for shape in 0..8 {
        for format in [0, 27, 28, 29, 42] {
            for access in 0..8 {
                out.push(resource(4, shape | format << 8 | access << 16));
            }
        }
    }
    for format in [14, 30, 31, 32, 41, 43, 50, 76, 127] {
        out.push(resource(4, 1 | format << 8 | 2 << 16));
    }
    for content in 0..3 {
        out.push(resource(6, content));
    }
    out.push(resource(7, 0));
    // Words missing and words too many.
    out.extend([vec![], vec![PLACE], resource(0, 0)]);
    for ty in [0, 1, 2] {
        let mut words = resource(ty, 1);
        words.extend([word(6, 64), word(6, 64)]);
        out.push(words.clone());
        words.truncate(3);
        out.push(words);
    }
    out
}

/// The entry sorts, a few of them outside the format.
pub fn entries() -> Vec<Vec<u32>> {
    let mut out = Vec::new();
    let mut entry = |ty: u32, content: u32, least: u32| {
        out.push(vec![PLACE, word(18, ty << 23 | content), word(6, least), word(19, 1)]);
    };
    for content in 0..8 {
        for least in [0, 1, 63, 64, 65, (1 << 27) - 1] {
            entry(0, content, least);
        }
    }
    for code in 0..4 {
        entry(1, code, 0);
    }
    for view in 0..6 {
        for multi in 0..2 {
            for sample in 0..5 {
                entry(2, view | multi << 3 | sample << 4, 0);
            }
        }
        for format in [0, 27, 28, 29, 31, 42, 43, 50, 76] {
            for access in 0..4 {
                entry(4, view | format << 8 | access << 16, 0);
            }
        }
    }
    entry(2, 6, 0);
    entry(2, 5 << 4, 0);
    entry(2, 1, 64);
    for format in [14, 30, 32, 41, 77, 127] {
        entry(4, 1 | format << 8 | 2 << 16, 0);
    }
    entry(3, 1, 0);
    entry(5, 0, 0);
    entry(5, 1, 0);
    for content in 0..3 {
        entry(6, content, 0);
    }
    entry(7, 0, 0);
    // Words missing and words too many.
    let good = out[0].clone();
    out.extend([vec![], good[..3].to_vec(), [&good[..], &[0]].concat(), [&good[..], &good[..]].concat()]);
    out
}

/// A word of each sort with each bit turned, and with none turned.
fn turned(word: u32) -> impl Iterator<Item = u32> {
    (0..32).map(move |at| word ^ 1 << at).chain([word])
}

/// Resources with one bit turned somewhere.
fn damaged_resources() -> Vec<Vec<u32>> {
    let mut out = Vec::new();
    let storage = 4 << 23 | 3 << 16 | 27 << 8 | 1;
    for ty in [0, 1 << 3 | 3, 1 << 23, 2 << 23 | 1, 3 << 23 | 1, storage, 5 << 23 | 1, 6 << 23] {
        let tail: &[u32] = if ty >> 23 == 0 { &[word(6, 64)] } else { &[] };
        out.extend(turned(word(16, ty)).map(|w| [&[PLACE, w], tail].concat()));
        out.extend(turned(PLACE).map(|w| [&[w, word(16, ty)], tail].concat()));
    }
    out.extend(turned(word(6, 64)).map(|w| vec![PLACE, word(16, 0), w]));
    out
}

/// Entries with one bit turned somewhere.
fn damaged_entries() -> Vec<Vec<u32>> {
    let mut out = Vec::new();
    let storage = 4 << 23 | 2 << 16 | 27 << 8 | 1;
    for ty in [0, 3, 1 << 23, 2 << 23 | 1, storage, 5 << 23, 6 << 23] {
        let good = [PLACE, word(18, ty), word(6, 0), word(19, 1)];
        for i in 0..4 {
            out.extend(turned(good[i]).map(|w| {
                let mut words = good.to_vec();
                words[i] = w;
                words
            }));
        }
    }
    out
}

pub fn binding_use() -> Vec<Case> {
    let (resources, entries) = (resources(), entries());
    let mut out = Vec::new();
    for resource in &resources {
        out.extend(entries.iter().map(|entry| Case::Use { resource: resource.clone(), entry: entry.clone() }));
    }
    for resource in damaged_resources() {
        for entry in [0, 2 << 23 | 1, 4 << 23 | 2 << 16 | 27 << 8 | 1] {
            let entry = vec![PLACE, word(18, entry), word(6, 0), word(19, 1)];
            out.push(Case::Use { resource: resource.clone(), entry });
        }
    }
    for entry in damaged_entries() {
        for resource in [vec![PLACE, word(16, 0), word(6, 64)], vec![PLACE, word(16, 2 << 23 | 1)]] {
            out.push(Case::Use { resource, entry: entry.clone() });
        }
    }
    out
}

pub fn derive() -> Vec<Case> {
    let mut out = Vec::new();
    for resource in resources().into_iter().chain(damaged_resources()) {
        for named in 0..2 {
            out.push(Case::Derive { resource: resource.clone(), named });
        }
    }
    out
}

pub const SORTS: [&str; 6] = ["vertex", "texture", "subtype", "format", "use", "derive"];

pub fn cases(sort: &str) -> Option<Vec<Case>> {
    Some(match sort {
        "vertex" => vertex(),
        "texture" => texture(),
        "subtype" => subtype(),
        "format" => format(),
        "use" => binding_use(),
        "derive" => derive(),
        _ => return None,
    })
}
