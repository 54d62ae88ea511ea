//! Type lists in parts, and the words that they become. The parts may break any rule.

use crate::build::word;

#[derive(Clone, Copy, Debug)]
pub enum Binding {
    None,
    /// Location and the content of the kind 13 word.
    Local(u32, u32),
    /// Code and number.
    BuiltIn(u32, u32),
}

pub const CLIP: Binding = Binding::BuiltIn(4, 0);

impl Binding {
    pub fn words(&self) -> Vec<u32> {
        match *self {
            Binding::None => vec![word(6, 0)],
            Binding::Local(location, how) => vec![word(12, location), word(13, how)],
            Binding::BuiltIn(code, number) => vec![word(14, (code & 7) << 24 | number)],
        }
    }

    pub fn is_clip(&self) -> bool {
        matches!(self, Binding::BuiltIn(4, _))
    }
}

pub const F32: u32 = 2 << 4 | 4 << 6;

#[derive(Clone, Debug)]
pub enum Type {
    /// The content of the kind 22 word.
    Numeric(u32),
    /// The element's number and the length.
    Array(u32, u32),
    /// The number and the binding of each member's type.
    Struct(Vec<(u32, Binding)>),
}

impl Type {
    fn words(&self) -> Vec<u32> {
        match self {
            Type::Numeric(ty) => vec![word(22, *ty)],
            Type::Array(element, length) => vec![word(23, *element), word(6, *length)],
            Type::Struct(members) => {
                let mut out = vec![word(24, members.len() as u32)];
                for (ty, binding) in members {
                    out.push(word(5, *ty));
                    out.extend(binding.words());
                }
                out
            }
        }
    }
}

/// What is known of a type while a list is made.
#[derive(Clone, Copy, Debug, Default)]
struct Known {
    nesting: u32,
    given: u64,
    steps: u64,
}

/// A list, with what is known of its types. A type that names no earlier one is taken to name nothing.
#[derive(Clone, Debug, Default)]
pub struct List {
    pub types: Vec<Type>,
    known: Vec<Known>,
    pub free: Vec<u32>,
}

impl List {
    pub fn new(types: impl IntoIterator<Item = Type>) -> Self {
        let mut list = Self::default();
        types.into_iter().for_each(|ty| _ = list.add(ty));
        list
    }

    pub fn words(&self) -> Vec<u32> {
        let mut out = vec![word(21, self.types.len() as u32)];
        out.extend(self.types.iter().flat_map(Type::words));
        out.extend(&self.free);
        out
    }

    /// Adds a type and returns its number.
    pub fn add(&mut self, ty: Type) -> u32 {
        let known = |n: u32| self.known.get(n as usize).copied().unwrap_or_default();
        let mut all = Known { steps: 1, ..Known::default() };
        match &ty {
            Type::Numeric(_) => (),
            Type::Array(element, _) => all.nesting = known(*element).nesting,
            Type::Struct(members) => {
                all.nesting = 1;
                for (ty, binding) in members {
                    all.nesting = all.nesting.max(1 + known(*ty).nesting);
                    all.given = all.given.saturating_add(self.gives(*ty, *binding));
                    all.steps = all.steps.saturating_add(known(*ty).steps);
                }
            }
        }
        self.types.push(ty);
        self.known.push(all);
        self.types.len() as u32 - 1
    }

    /// How many varyings a type gives under a binding.
    pub fn gives(&self, ty: u32, binding: Binding) -> u64 {
        match (self.types.get(ty as usize), binding) {
            (Some(Type::Numeric(_)), Binding::None) => 0,
            (Some(Type::Numeric(_)), _) => 1,
            (Some(Type::Array(..)), _) => binding.is_clip() as u64,
            (Some(Type::Struct(_)), _) => self.known[ty as usize].given,
            (None, _) => 0,
        }
    }

    pub fn nesting(&self, ty: u32) -> u32 {
        self.known[ty as usize].nesting
    }

    /// How many types a plain walk over a type comes to.
    pub fn steps(&self, ty: u32) -> u64 {
        self.known[ty as usize].steps
    }

    /// Whether clip distances may stand on a type and say something there.
    pub fn is_clip_array(&self, ty: u32) -> bool {
        match self.types[ty as usize] {
            Type::Array(element, 1..=255) => matches!(self.types[element as usize], Type::Numeric(F32)),
            _ => false,
        }
    }

    /// The numbers of the types of which this holds.
    pub fn of(&self, holds: impl Fn(&Type) -> bool) -> Vec<u32> {
        (0..).zip(&self.types).filter(|(_, ty)| holds(ty)).map(|(n, _)| n).collect()
    }
}
