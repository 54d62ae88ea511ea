//! Request 1/13 of document 02: a type list, an asked type and its binding become varyings.

use crate::leaf;
use crate::pack::content;
use cases::PopulateCall;

enum Type {
    /// A scalar, vector or matrix: bits 9 to 0 of its word.
    Numeric(u32),
    /// The element's number and the length.
    Array(usize, u32),
    /// The number and the binding of each member's type.
    Struct(Vec<(usize, Binding)>),
}

#[derive(Clone, Copy)]
enum Binding {
    None,
    /// The words of kind 12 and 13.
    Local(u32, u32),
    /// The word of kind 14.
    BuiltIn(u32),
}

const CLIP: u32 = 14 << 27 | 4 << 24;

impl Binding {
    fn is_clip(self) -> bool {
        matches!(self, Binding::BuiltIn(CLIP))
    }
}

/// The binding at `at`, and the position after it.
fn binding(words: &[u32], at: usize) -> Option<(Binding, usize)> {
    if content(words, at, 6) == Some(0) {
        return Some((Binding::None, at + 1));
    }
    if content(words, at, 12).is_some() {
        let how = content(words, at + 1, 13)?;
        let good = how & !0x0007_f000 == 0 && how >> 12 & 7 < 5 && how >> 15 & 7 < 6;
        return good.then(|| (Binding::Local(words[at], words[at + 1]), at + 2));
    }
    let built_in = content(words, at, 14)?;
    let good = match built_in >> 24 {
        0..=3 => built_in & 0x00ff_ff00 == 0,
        4 => built_in & 0x00ff_ffff == 0,
        _ => false,
    };
    good.then(|| (Binding::BuiltIn(words[at]), at + 1))
}

/// Clip distances stand on arrays of 1 to 255 f32 alone, and on structs, where nobody looks.
fn fits(types: &[Type], ty: usize, binding: Binding) -> bool {
    const F32: u32 = 2 << 4 | 4 << 6;
    !binding.is_clip()
        || match types[ty] {
            Type::Numeric(_) => false,
            Type::Array(element, length) => (1..256).contains(&length) && matches!(types[element], Type::Numeric(F32)),
            Type::Struct(_) => true,
        }
}

/// The types of a list, and the position after them.
fn list(words: &[u32]) -> Option<(Vec<Type>, usize)> {
    let count = content(words, 0, 21)? as usize;
    if words.len() > 1024 || count > 256 {
        return None;
    }
    let (mut types, mut at) = (Vec::new(), 1);
    for number in 0..count {
        let earlier = |named: u32| Some(named as usize).filter(|named| *named < number);
        at += 1;
        let ty = if let Some(ty) = content(words, at - 1, 22) {
            leaf::good_type(ty).filter(|_| ty < 1 << 10)?;
            Type::Numeric(ty)
        } else if let Some(element) = content(words, at - 1, 23) {
            at += 1;
            Type::Array(earlier(element)?, content(words, at - 1, 6)?)
        } else {
            let count = content(words, at - 1, 24).filter(|count| *count < 1 << 16)?;
            let mut members = Vec::new();
            for _ in 0..count {
                let ty = earlier(content(words, at, 5)?)?;
                let (binding, after) = binding(words, at + 1)?;
                if !fits(&types, ty, binding) {
                    return None;
                }
                members.push((ty, binding));
                at = after;
            }
            Type::Struct(members)
        };
        types.push(ty);
    }
    Some((types, at))
}

/// How many words of a list are no free room, if it is a list.
pub fn used(words: &[u32]) -> Option<usize> {
    list(words).map(|(_, used)| used)
}

struct Walk {
    types: Vec<Type>,
    /// How deep structs nest in each type.
    nesting: Vec<u32>,
    /// How many varyings each struct gives, 64 for more.
    given: Vec<u32>,
}

impl Walk {
    fn new(types: Vec<Type>) -> Self {
        let mut walk = Walk { types, nesting: Vec::new(), given: Vec::new() };
        for ty in &walk.types {
            let (nesting, given) = match ty {
                Type::Numeric(_) => (0, 0),
                Type::Array(element, _) => (walk.nesting[*element], 0),
                Type::Struct(members) => {
                    let deepest = members.iter().map(|(ty, _)| walk.nesting[*ty]).max();
                    let given = members.iter().map(|(ty, binding)| walk.gives(*ty, *binding)).sum::<u32>();
                    (1 + deepest.unwrap_or(0), given.min(64))
                }
            };
            walk.nesting.push(nesting);
            walk.given.push(given);
        }
        walk
    }

    /// How many varyings a type gives under a binding.
    fn gives(&self, ty: usize, binding: Binding) -> u32 {
        match self.types[ty] {
            Type::Numeric(_) => !matches!(binding, Binding::None) as u32,
            Type::Array(..) => binding.is_clip() as u32,
            Type::Struct(_) => self.given[ty],
        }
    }

    fn write(&self, ty: usize, binding: Binding, out: &mut Vec<u32>) {
        match (&self.types[ty], binding) {
            _ if self.gives(ty, binding) == 0 => (),
            (Type::Struct(members), _) => members.iter().for_each(|(ty, binding)| self.write(*ty, *binding, out)),
            (Type::Array(_, length), _) => out.push(CLIP | length),
            (Type::Numeric(ty), Binding::Local(location, how)) => out.extend([location, how | ty]),
            (Type::Numeric(_), Binding::BuiltIn(word)) => out.push(word),
            (Type::Numeric(_), Binding::None) => (),
        }
    }
}

/// The varyings' words and their count, or 90, 91 or 92; the length of the list out aside.
pub fn varyings(call: &PopulateCall) -> Result<(Vec<u32>, u32), u32> {
    let (types, _) = list(&call.types).ok_or(90u32)?;
    let bound = binding(&call.binding, 0).filter(|(_, after)| *after == call.binding.len());
    let (bound, _) = bound.ok_or(90u32)?;
    let asked = call.asked as usize;
    if asked >= types.len() || !fits(&types, asked, bound) {
        return Err(90);
    }
    let walk = Walk::new(types);
    if walk.nesting[asked] > 8 {
        return Err(91);
    }
    let count = walk.gives(asked, bound);
    if count > 63 {
        return Err(92);
    }
    let mut words = Vec::new();
    walk.write(asked, bound, &mut words);
    Ok((words, count))
}

/// The number, the first detail and the list out after the call.
pub fn answer(call: &PopulateCall) -> (u32, u32, Vec<u32>) {
    let mut out = call.out.clone();
    match varyings(call) {
        Ok((words, count)) if words.len() <= out.len() => {
            out[..words.len()].copy_from_slice(&words);
            (0, count, out)
        }
        Ok(_) => (4, 0, out),
        Err(number) => (number, 0, out),
    }
}
