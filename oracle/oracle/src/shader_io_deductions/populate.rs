//! `Interface::populate` on type lists. The Rust's built-ins have no places, and all that document 01 calls 'other' are
//! different ones there. So the Rust is run three times: with built-ins of the codes that the list has, then with others
//! that stand for the low and for the high four bits of their places.

use super::*;
use crate::decode::{BuiltInCode, Type};
use std::num::NonZeroU32;

/// What a built-in of the list is for the Rust.
#[derive(Clone, Copy)]
enum Carried {
    Code,
    Low,
    High,
}

/// The built-ins of code 0.
const OTHERS: [naga::BuiltIn; 47] = [
    naga::BuiltIn::Position { invariant: false },
    naga::BuiltIn::Position { invariant: true },
    naga::BuiltIn::ViewIndex,
    naga::BuiltIn::BaseInstance,
    naga::BuiltIn::BaseVertex,
    naga::BuiltIn::CullDistance,
    naga::BuiltIn::InstanceIndex,
    naga::BuiltIn::PointSize,
    naga::BuiltIn::VertexIndex,
    naga::BuiltIn::PointCoord,
    naga::BuiltIn::FrontFacing,
    naga::BuiltIn::Barycentric { perspective: false },
    naga::BuiltIn::Barycentric { perspective: true },
    naga::BuiltIn::SampleIndex,
    naga::BuiltIn::SampleMask,
    naga::BuiltIn::GlobalInvocationId,
    naga::BuiltIn::LocalInvocationId,
    naga::BuiltIn::LocalInvocationIndex,
    naga::BuiltIn::WorkGroupId,
    naga::BuiltIn::WorkGroupSize,
    naga::BuiltIn::NumWorkGroups,
    naga::BuiltIn::NumSubgroups,
    naga::BuiltIn::SubgroupId,
    naga::BuiltIn::SubgroupSize,
    naga::BuiltIn::SubgroupInvocationId,
    naga::BuiltIn::MeshTaskSize,
    naga::BuiltIn::CullPrimitive,
    naga::BuiltIn::PointIndex,
    naga::BuiltIn::LineIndices,
    naga::BuiltIn::TriangleIndices,
    naga::BuiltIn::VertexCount,
    naga::BuiltIn::Vertices,
    naga::BuiltIn::PrimitiveCount,
    naga::BuiltIn::Primitives,
    naga::BuiltIn::RayInvocationId,
    naga::BuiltIn::NumRayInvocations,
    naga::BuiltIn::InstanceCustomData,
    naga::BuiltIn::GeometryIndex,
    naga::BuiltIn::WorldRayOrigin,
    naga::BuiltIn::WorldRayDirection,
    naga::BuiltIn::ObjectRayOrigin,
    naga::BuiltIn::ObjectRayDirection,
    naga::BuiltIn::RayTmin,
    naga::BuiltIn::RayTCurrentMax,
    naga::BuiltIn::ObjectToWorld,
    naga::BuiltIn::WorldToObject,
    naga::BuiltIn::HitKind,
];

/// Builds what the Rust walks over. `made` counts bindings, so that what the Rust ignores or passes through differs
/// from one to the next.
struct Builder {
    carried: Carried,
    made: usize,
}

impl Builder {
    fn built_in(&self, code: BuiltInCode, places: u32) -> naga::BuiltIn {
        match (self.carried, code) {
            (Carried::Low, _) => OTHERS[places as usize % 16],
            (Carried::High, _) => OTHERS[places as usize / 16],
            (Carried::Code, BuiltInCode::Other) => OTHERS[(self.made + places as usize) % OTHERS.len()],
            (Carried::Code, BuiltInCode::PrimitiveIndex) => naga::BuiltIn::PrimitiveIndex,
            (Carried::Code, BuiltInCode::DrawIndex) => naga::BuiltIn::DrawIndex,
            (Carried::Code, BuiltInCode::FragDepth) => naga::BuiltIn::FragDepth,
        }
    }

    fn binding(&mut self, given: Option<decode::Binding>) -> Option<naga::Binding> {
        self.made += 1;
        Some(match given? {
            decode::Binding::Location { location, interpolation, sampling, per_primitive } => naga::Binding::Location {
                location,
                interpolation: coded(&INTERPOLATIONS, interpolation),
                sampling: coded(&SAMPLINGS, sampling),
                per_primitive,
                blend_src: [None, Some(0), Some(1)][self.made % 3],
            },
            decode::Binding::BuiltIn { code, places } => naga::Binding::BuiltIn(self.built_in(code, places)),
            decode::Binding::ClipDistances => naga::Binding::BuiltIn(naga::BuiltIn::ClipDistances),
        })
    }

    fn inner(&mut self, ty: &Type, earlier: &[naga::Handle<naga::Type>]) -> naga::TypeInner {
        match ty {
            Type::Numeric(ty) => {
                let NumericType { dim, scalar } = numeric_type(*ty);
                match dim {
                    NumericDimension::Scalar => naga::TypeInner::Scalar(scalar),
                    NumericDimension::Vector(size) => naga::TypeInner::Vector { size, scalar },
                    NumericDimension::Matrix(columns, rows) => naga::TypeInner::Matrix { columns, rows, scalar },
                }
            }
            // The stride is that of f32; no other is asked for.
            Type::Array { element, length } => naga::TypeInner::Array {
                base: earlier[*element],
                size: NonZeroU32::new(*length).map_or(naga::ArraySize::Dynamic, naga::ArraySize::Constant),
                stride: 4,
            },
            Type::Struct(members) => {
                let member =
                    |m: &decode::Member| naga::StructMember { ty: earlier[m.ty], binding: self.binding(m.binding) };
                naga::TypeInner::Struct { members: members.iter().map(member).collect(), span: 0 }
            }
        }
    }
}

/// What the Rust walks over, and where it begins.
pub struct Walk {
    arena: naga::UniqueArena<naga::Type>,
    asked: naga::Handle<naga::Type>,
    binding: Option<naga::Binding>,
}

impl Walk {
    fn carrying(carried: Carried, types: &[Type], asked: usize, binding: Option<decode::Binding>) -> Self {
        let mut builder = Builder { carried, made: 0 };
        let mut arena = naga::UniqueArena::new();
        let mut handles = Vec::new();
        for ty in types {
            let inner = builder.inner(ty, &handles);
            handles.push(arena.insert(naga::Type { inner }, Default::default()));
        }
        Self { arena, asked: handles[asked], binding: builder.binding(binding) }
    }

    /// With the built-ins of the list's codes.
    pub fn new(types: &[Type], asked: usize, binding: Option<decode::Binding>) -> Self {
        Self::carrying(Carried::Code, types, asked, binding)
    }

    /// The Rust's `populate` and nothing else.
    pub fn run(&self) -> Pushed {
        let mut list = Vec::new();
        Interface::populate(&mut list, self.binding.as_ref(), self.asked, &self.arena);
        Pushed(list)
    }
}

/// What the Rust pushed, in its form.
pub struct Pushed(Vec<Varying>);

impl Pushed {
    pub fn count(&self) -> usize {
        self.0.len()
    }
}

fn code(built_in: &BuiltIn) -> u32 {
    match built_in {
        BuiltIn::PrimitiveIndex => 1,
        BuiltIn::DrawIndex => 2,
        BuiltIn::FragDepth => 3,
        _ => 0,
    }
}

/// The four bits that a built-in stands for.
fn four_bits(v: &Varying) -> u32 {
    match v {
        Varying::BuiltIn(b) => at(&OTHERS[..16], b.to_naga()),
        Varying::Local { .. } => panic!("the runs differ"),
    }
}

/// The count of the pushed varyings and, where there are at most `most`, their words.
pub fn pushed(types: &[Type], asked: usize, binding: Option<decode::Binding>, most: usize) -> (usize, Vec<u32>) {
    let [codes, low, high] = [Carried::Code, Carried::Low, Carried::High]
        .map(|carried| Walk::carrying(carried, types, asked, binding).run());
    assert!(codes.count() == low.count() && low.count() == high.count(), "the runs differ");
    let mut words = Vec::new();
    if codes.count() > most {
        return (codes.count(), words);
    }
    for ((v, low), high) in codes.0.iter().zip(&low.0).zip(&high.0) {
        match v {
            Varying::BuiltIn(BuiltIn::ClipDistances { array_size }) => {
                assert!(v == low && v == high, "the runs differ");
                words.push(14 << 27 | 4 << 24 | array_size);
            }
            Varying::BuiltIn(b) => {
                words.push(14 << 27 | code(b) << 24 | four_bits(high) << 4 | four_bits(low));
            }
            Varying::Local { location, iv } => {
                assert!(v == low && v == high, "the runs differ");
                words.extend([12 << 27 | location, varying_word(iv)]);
            }
        }
    }
    (codes.count(), words)
}
