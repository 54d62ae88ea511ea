//! The module pack, checked by position. What is kept of a good pack is where its parts stand and their contents.

use crate::{binding, leaf};

pub struct Resource {
    /// The kind 4 word.
    pub place: u32,
    /// The content of the kind 16 word.
    pub ty: u32,
    /// 0 unless a buffer.
    pub size: u32,
}

pub struct Entry {
    pub stage: u32,
    pub dual: bool,
    pub name: Vec<u8>,
    pub workgroup: [u32; 3],
    /// The content of the kind 9 word.
    pub payload: u32,
    pub mesh: Option<[u32; 3]>,
    pub resources: Vec<usize>,
    pub pairs: Vec<(usize, usize)>,
    pub inputs: Vec<Varying>,
    pub outputs: Vec<Varying>,
}

/// The words of a varying: location and kind 13 word, or a built-in's content.
#[derive(Clone, Copy)]
pub enum Varying {
    Local(u32, u32),
    BuiltIn(u32),
}

impl Varying {
    /// Code and number of a built-in.
    pub fn built_in(self) -> Option<(u32, u32)> {
        match self {
            Varying::Local(..) => None,
            Varying::BuiltIn(content) => Some((content >> 24, content & 255)),
        }
    }
}

pub struct Pack {
    pub limits: [u32; 13],
    pub resources: Vec<Resource>,
    pub entries: Vec<Entry>,
}

const CONTENT: u32 = 0x07ff_ffff;

/// The content of the word at `at`, which must be of this kind.
pub fn content(words: &[u32], at: usize, kind: u32) -> Option<u32> {
    let word = *words.get(at)?;
    (word >> 27 == kind).then_some(word & CONTENT)
}

/// 'Unnamed bits are zero', the codes and the cross rules of a kind 16 content.
fn resource_type_good(content: u32) -> bool {
    let rest = content & 0x7f_ffff;
    match content >> 23 {
        0 => rest < 32 && rest >> 3 < 3 && (rest >> 3 == 1 || rest & 7 == 0),
        1 | 6 => rest < 2,
        2 => rest < 64 && rest >> 4 < 3,
        3 => rest < 16,
        4 => rest & !0x7_7f07 == 0 && rest >> 16 != 0 && binding::storable(rest >> 8 & 127),
        5 => rest < 8,
        _ => false,
    }
}

/// The resource at `at`, and the position after it.
pub fn resource(words: &[u32], at: usize) -> Option<(Resource, usize)> {
    content(words, at, 4)?;
    let place = words[at];
    let ty = content(words, at + 1, 16)?;
    if !resource_type_good(ty) {
        return None;
    }
    if ty >> 23 != 0 {
        return Some((Resource { place, ty, size: 0 }, at + 2));
    }
    let size = content(words, at + 2, 6)?;
    (size > 0).then_some((Resource { place, ty, size }, at + 3))
}

/// A kind 13 word of a varying.
pub fn varying_type_good(word: u32) -> bool {
    word >> 27 == 13
        && word & 0x07f8_0c00 == 0
        && leaf::good_type(word).is_some()
        && word >> 12 & 7 <= 4
        && word >> 15 & 7 <= 5
}

fn varying(words: &[u32], at: usize, output: bool) -> Option<(Varying, usize)> {
    if let Some(location) = content(words, at, 12) {
        let ty = *words.get(at + 1)?;
        return varying_type_good(ty).then_some((Varying::Local(location, ty), at + 2));
    }
    let built_in = content(words, at, 14)?;
    let code = built_in >> 24;
    let good = built_in & 0x00ff_ff00 == 0 && (code < 4 || (code == 4 && output));
    good.then_some((Varying::BuiltIn(built_in), at + 1))
}

fn entry(words: &[u32], start: usize, resources: &[Resource]) -> Option<(Entry, usize)> {
    let head = content(words, start, 7)?;
    let (stage, bytes) = (head >> 24, (head >> 16 & 127) as usize);
    if head & 0x0080_fffc != 0 || stage > 4 || bytes == 0 || bytes > 64 {
        return None;
    }
    let mut at = start + 1;
    let mut name = Vec::new();
    for i in 0..4 * bytes.div_ceil(4) {
        let byte = (*words.get(at + i / 4)? >> (8 * (i % 4))) as u8;
        if (byte == 0) != (i >= bytes) {
            return None;
        }
        if byte != 0 {
            name.push(byte);
        }
    }
    at += bytes.div_ceil(4);

    let mut workgroup = [0; 3];
    for n in &mut workgroup {
        *n = content(words, at, 8)?;
        at += 1;
    }
    let payload = content(words, at, 9)?;
    if payload >> 26 == 0 && payload != 0 {
        return None;
    }
    at += 1;
    let mut mesh = None;
    if head & 2 != 0 {
        let record = [content(words, at, 10)?, content(words, at + 1, 10)?, content(words, at + 2, 10)?];
        if record[2] > 4 {
            return None;
        }
        mesh = Some(record);
        at += 3;
    }

    let counts = content(words, at, 15)?;
    if counts >> 24 != 0 {
        return None;
    }
    at += 1;
    let mut listed = Vec::new();
    for _ in 0..counts >> 18 {
        let index = content(words, at, 5)? as usize;
        if index >= resources.len() {
            return None;
        }
        listed.push(index);
        at += 1;
    }
    let mut pairs = Vec::new();
    for _ in 0..counts >> 12 & 63 {
        let pair = content(words, at, 5)?;
        let (texture, sampler) = ((pair >> 8) as usize, (pair & 255) as usize);
        if !listed.contains(&texture) || !listed.contains(&sampler) {
            return None;
        }
        let sorts = (resources[texture].ty >> 23, resources[sampler].ty >> 23);
        if !matches!(sorts, (2 | 3 | 5, 1)) {
            return None;
        }
        pairs.push((texture, sampler));
        at += 1;
    }
    let mut sides = [Vec::new(), Vec::new()];
    for (side, count) in [(0, counts >> 6 & 63), (1, counts & 63)] {
        let mut clips = 0;
        for _ in 0..count {
            let (v, after) = varying(words, at, side == 1)?;
            clips += matches!(v.built_in(), Some((4, _))) as u32;
            if clips > 1 {
                return None;
            }
            sides[side].push(v);
            at = after;
        }
    }
    let [inputs, outputs] = sides;
    let entry =
        Entry { stage, dual: head & 1 == 1, name, workgroup, payload, mesh, resources: listed, pairs, inputs, outputs };
    Some((entry, at))
}

fn body(words: &[u32]) -> Option<Pack> {
    if words[0] >> 16 != 1 << 11 | 1 {
        return None;
    }
    let counts = content(words, 1, 2)?;
    if counts >> 16 > 128 || counts & 0xffff > 16 {
        return None;
    }
    let mut limits = [0; 13];
    for (i, limit) in limits.iter_mut().enumerate() {
        *limit = content(words, 2 + i, 3)?;
    }
    let mut at = 15;
    let mut resources = Vec::new();
    for _ in 0..counts >> 16 {
        let (r, after) = resource(words, at)?;
        resources.push(r);
        at = after;
    }
    let mut entries: Vec<Entry> = Vec::new();
    for _ in 0..counts & 0xffff {
        let (e, after) = entry(words, at, &resources)?;
        if entries.iter().any(|o| o.stage == e.stage && o.name == e.name) {
            return None;
        }
        entries.push(e);
        at = after;
    }
    (at == words.len()).then_some(Pack { limits, resources, entries })
}

/// The pack, or 1 or 2.
pub fn pack(words: &[u32]) -> Result<Pack, u32> {
    let count = words.len();
    if count < 16 || count > 4096 || (words[0] & 0xffff) as usize != count {
        return Err(1);
    }
    let mut sum = 0u64;
    for word in &words[..count - 1] {
        sum += u64::from(*word);
    }
    if sum % (1 << 32) != u64::from(words[count - 1]) {
        return Err(1);
    }
    body(&words[..count - 1]).ok_or(2)
}
