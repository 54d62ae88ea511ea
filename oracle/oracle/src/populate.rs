//! Cases of `populate` to answers. 90, 91 and 4 are document 02's own and are laid around the Rust here; 92 is given where
//! the Rust pushes more than 63 varyings.

use crate::decode::{self, Binding, NumericTy, Type};
use crate::validation::shader_io_deductions::populate as rust;
use cases::{Answer, PopulateCall};

/// Where the Rust's walk would take more steps than this, it is not run.
const MOST_STEPS: u64 = 200_000;

const F32: NumericTy = NumericTy { shape: 0, kind: 2, width: 4 };

/// Whether a binding may stand on a type: clip distances may not stand on a scalar, vector or matrix, nor on an array
/// that is not of 1 to 255 f32.
fn may_stand(types: &[Type], ty: usize, binding: Option<Binding>) -> bool {
    let Some(Binding::ClipDistances) = binding else {
        return true;
    };
    match &types[ty] {
        Type::Numeric(_) => false,
        Type::Array { element, length: 1..=255 } => matches!(&types[*element], Type::Numeric(ty) if *ty == F32),
        Type::Array { .. } => false,
        Type::Struct(_) => true,
    }
}

/// How deep structs nest in each type.
pub fn nesting(types: &[Type]) -> Vec<usize> {
    let mut found: Vec<usize> = Vec::new();
    for ty in types {
        found.push(match ty {
            Type::Numeric(_) => 0,
            Type::Array { element, .. } => found[*element],
            Type::Struct(members) => members.iter().fold(1, |deepest, m| deepest.max(1 + found[m.ty])),
        });
    }
    found
}

/// How many calls of itself the Rust's walk over each type takes.
fn steps(types: &[Type]) -> Vec<u64> {
    let mut found: Vec<u64> = Vec::new();
    for ty in types {
        found.push(match ty {
            Type::Struct(members) => members.iter().fold(1u64, |all, m| all.saturating_add(found[m.ty])),
            _ => 1,
        });
    }
    found
}

pub fn answer(call: &PopulateCall) -> Answer {
    let refused = |number| Answer::Populate { number, details: [0; 3], out: call.out.clone() };
    let (Ok(types), Ok(binding)) = (decode::type_list(&call.types), decode::lone_binding(&call.binding)) else {
        return refused(90);
    };
    let asked = call.asked as usize;
    let members = types.iter().flat_map(|ty| match ty {
        Type::Struct(members) => &members[..],
        _ => &[],
    });
    let stands = asked < types.len() && may_stand(&types, asked, binding);
    if !stands || members.clone().any(|m| !may_stand(&types, m.ty, m.binding)) {
        return refused(90);
    }
    if nesting(&types)[asked] > 8 {
        return refused(91);
    }
    if steps(&types)[asked] > MOST_STEPS {
        return Answer::Long;
    }
    let (count, words) = rust::pushed(&types, asked, binding, 63);
    if count > 63 {
        return refused(92);
    }
    if call.out.len() < words.len() {
        return refused(4);
    }
    let mut out = call.out.clone();
    out[..words.len()].copy_from_slice(&words);
    Answer::Populate { number: 0, details: [count as u32, 0, 0], out }
}
