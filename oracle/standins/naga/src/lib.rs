//! Stand-in: the types that the file names. What only `Interface::new` needs is there to compile and is never run.

use std::fmt;
use std::hash::{Hash, Hasher};
use std::marker::PhantomData;
use std::num::NonZeroU32;
use std::ops::{BitOr, Index};

pub struct Handle<T> {
    index: usize,
    of: PhantomData<fn() -> T>,
}

impl<T> Clone for Handle<T> {
    fn clone(&self) -> Self {
        *self
    }
}

impl<T> Copy for Handle<T> {}

impl<T> PartialEq for Handle<T> {
    fn eq(&self, other: &Self) -> bool {
        self.index == other.index
    }
}

impl<T> Eq for Handle<T> {}

impl<T> Hash for Handle<T> {
    fn hash<H: Hasher>(&self, state: &mut H) {
        self.index.hash(state);
    }
}

impl<T> fmt::Debug for Handle<T> {
    fn fmt(&self, f: &mut fmt::Formatter<'_>) -> fmt::Result {
        write!(f, "[{}]", self.index)
    }
}

#[derive(Clone, Copy, Debug, Default)]
pub struct Span;

#[derive(Debug)]
pub struct Arena<T> {
    items: Vec<T>,
}

impl<T> Default for Arena<T> {
    fn default() -> Self {
        Self::new()
    }
}

impl<T> Arena<T> {
    pub fn new() -> Self {
        Self { items: Vec::new() }
    }

    pub fn append(&mut self, item: T, _span: Span) -> Handle<T> {
        self.items.push(item);
        Handle { index: self.items.len() - 1, of: PhantomData }
    }

    pub fn iter(&self) -> impl Iterator<Item = (Handle<T>, &T)> {
        self.items.iter().enumerate().map(|(index, item)| {
            let of = PhantomData;
            (Handle { index, of }, item)
        })
    }
}

impl<T> Index<Handle<T>> for Arena<T> {
    type Output = T;
    fn index(&self, handle: Handle<T>) -> &T {
        &self.items[handle.index]
    }
}

/// Equal items are kept apart here: what is looked up by a handle is the same.
#[derive(Debug)]
pub struct UniqueArena<T> {
    items: Vec<T>,
}

impl<T> Default for UniqueArena<T> {
    fn default() -> Self {
        Self::new()
    }
}

impl<T> UniqueArena<T> {
    pub fn new() -> Self {
        Self { items: Vec::new() }
    }

    pub fn insert(&mut self, item: T, _span: Span) -> Handle<T> {
        self.items.push(item);
        Handle { index: self.items.len() - 1, of: PhantomData }
    }
}

impl<T> Index<Handle<T>> for UniqueArena<T> {
    type Output = T;
    fn index(&self, handle: Handle<T>) -> &T {
        &self.items[handle.index]
    }
}

#[derive(Clone, Copy, Debug, Eq, Hash, PartialEq)]
pub struct ResourceBinding {
    pub group: u32,
    pub binding: u32,
}

#[derive(Clone, Copy, Debug, Eq, PartialEq)]
pub struct StorageAccess(pub u32);

impl StorageAccess {
    pub const LOAD: Self = Self(1);
    pub const STORE: Self = Self(2);
    pub const ATOMIC: Self = Self(4);

    pub const fn union(self, other: Self) -> Self {
        Self(self.0 | other.0)
    }

    pub fn contains(self, other: Self) -> bool {
        self.0 & other.0 == other.0
    }

    pub fn set(&mut self, other: Self, on: bool) {
        if on {
            self.0 |= other.0;
        } else {
            self.0 &= !other.0;
        }
    }
}

impl BitOr for StorageAccess {
    type Output = Self;
    fn bitor(self, other: Self) -> Self {
        self.union(other)
    }
}

#[derive(Clone, Copy, Debug, Eq, PartialEq)]
pub enum AddressSpace {
    Function,
    Private,
    WorkGroup,
    Uniform,
    Storage { access: StorageAccess },
    Handle,
    Immediate,
    TaskPayload,
}

/// A texture format's code, see the stand-in for the bridge.
#[derive(Clone, Copy, Debug, Eq, PartialEq)]
pub struct StorageFormat(pub u8);

#[derive(Clone, Copy, Debug, Eq, PartialEq)]
pub enum ImageDimension {
    D1,
    D2,
    D3,
    Cube,
}

#[derive(Clone, Copy, Debug, Eq, PartialEq)]
pub enum ImageClass {
    Sampled { kind: ScalarKind, multi: bool },
    Depth { multi: bool },
    External,
    Storage { format: StorageFormat, access: StorageAccess },
}

#[derive(Clone, Copy, Debug, Eq, Ord, PartialEq, PartialOrd)]
#[repr(u8)]
pub enum VectorSize {
    Bi = 2,
    Tri = 3,
    Quad = 4,
}

#[derive(Clone, Copy, Debug, Eq, PartialEq)]
pub enum ScalarKind {
    Sint,
    Uint,
    Float,
    Bool,
    AbstractInt,
    AbstractFloat,
}

#[derive(Clone, Copy, Debug, Eq, PartialEq)]
pub struct Scalar {
    pub kind: ScalarKind,
    pub width: u8,
}

impl Scalar {
    pub const I32: Self = Self::new(ScalarKind::Sint, 4);
    pub const U32: Self = Self::new(ScalarKind::Uint, 4);
    pub const F32: Self = Self::new(ScalarKind::Float, 4);
    pub const U64: Self = Self::new(ScalarKind::Uint, 8);
    pub const F64: Self = Self::new(ScalarKind::Float, 8);

    const fn new(kind: ScalarKind, width: u8) -> Self {
        Self { kind, width }
    }
}

#[derive(Clone, Copy, Debug, Eq, PartialEq)]
pub enum Interpolation {
    Perspective,
    Linear,
    Flat,
    PerVertex,
}

#[derive(Clone, Copy, Debug, Eq, PartialEq)]
pub enum Sampling {
    Center,
    Centroid,
    Sample,
    First,
    Either,
}

#[derive(Clone, Copy, Debug, Eq, PartialEq)]
pub enum BuiltIn {
    Position { invariant: bool },
    ViewIndex,
    BaseInstance,
    BaseVertex,
    ClipDistances,
    CullDistance,
    InstanceIndex,
    PointSize,
    VertexIndex,
    DrawIndex,
    FragDepth,
    PointCoord,
    FrontFacing,
    PrimitiveIndex,
    Barycentric { perspective: bool },
    SampleIndex,
    SampleMask,
    GlobalInvocationId,
    LocalInvocationId,
    LocalInvocationIndex,
    WorkGroupId,
    WorkGroupSize,
    NumWorkGroups,
    NumSubgroups,
    SubgroupId,
    SubgroupSize,
    SubgroupInvocationId,
    MeshTaskSize,
    CullPrimitive,
    PointIndex,
    LineIndices,
    TriangleIndices,
    VertexCount,
    Vertices,
    PrimitiveCount,
    Primitives,
    RayInvocationId,
    NumRayInvocations,
    InstanceCustomData,
    GeometryIndex,
    WorldRayOrigin,
    WorldRayDirection,
    ObjectRayOrigin,
    ObjectRayDirection,
    RayTmin,
    RayTCurrentMax,
    ObjectToWorld,
    WorldToObject,
    HitKind,
}

#[derive(Clone, Copy, Debug, Eq, Hash, PartialEq)]
pub enum ShaderStage {
    Vertex,
    Task,
    Mesh,
    Fragment,
    Compute,
    RayGeneration,
    Miss,
    AnyHit,
    ClosestHit,
}

impl ShaderStage {
    pub fn compute_like(self) -> bool {
        matches!(self, Self::Compute | Self::Task | Self::Mesh)
    }
}

// What `populate` walks over.

#[derive(Clone, Debug)]
pub enum Binding {
    BuiltIn(BuiltIn),
    Location {
        location: u32,
        interpolation: Option<Interpolation>,
        sampling: Option<Sampling>,
        per_primitive: bool,
        blend_src: Option<u32>,
    },
}

#[derive(Clone, Copy, Debug, Eq, PartialEq)]
pub enum ArraySize {
    Constant(NonZeroU32),
    Dynamic,
}

#[derive(Clone, Debug)]
pub struct StructMember {
    pub ty: Handle<Type>,
    pub binding: Option<Binding>,
}

impl PartialEq for StructMember {
    fn eq(&self, _other: &Self) -> bool {
        false
    }
}

#[derive(Clone, Debug, PartialEq)]
pub enum TypeInner {
    Scalar(Scalar),
    Vector { size: VectorSize, scalar: Scalar },
    Matrix { columns: VectorSize, rows: VectorSize, scalar: Scalar },
    Array { base: Handle<Type>, size: ArraySize, stride: u32 },
    Struct { members: Vec<StructMember>, span: u32 },
    Image { dim: ImageDimension, arrayed: bool, class: ImageClass },
    Sampler { comparison: bool },
    AccelerationStructure { vertex_return: bool },
    BindingArray { base: Handle<Type>, size: ArraySize },
}

#[derive(Clone, Debug)]
pub struct Type {
    pub inner: TypeInner,
}

// From here on: named by `Interface::new` alone, which is compiled and never run.

impl TypeInner {
    pub fn size(&self, _context: GlobalContext) -> u32 {
        unimplemented!("never run")
    }
}

pub struct GlobalContext;

pub struct GlobalVariable {
    pub name: Option<String>,
    pub space: AddressSpace,
    pub binding: Option<ResourceBinding>,
    pub ty: Handle<Type>,
}

pub struct FunctionArgument {
    pub ty: Handle<Type>,
    pub binding: Option<Binding>,
}

pub struct FunctionResult {
    pub ty: Handle<Type>,
    pub binding: Option<Binding>,
}

pub struct Function {
    pub arguments: Vec<FunctionArgument>,
    pub result: Option<FunctionResult>,
}

pub enum MeshOutputTopology {
    Points,
    Lines,
    Triangles,
}

pub struct MeshStageInfo {
    pub topology: MeshOutputTopology,
    pub max_vertices: u32,
    pub max_primitives: u32,
    pub vertex_output_type: Handle<Type>,
    pub primitive_output_type: Handle<Type>,
}

pub struct EntryPoint {
    pub name: String,
    pub stage: ShaderStage,
    pub workgroup_size: [u32; 3],
    pub function: Function,
    pub mesh_info: Option<MeshStageInfo>,
    pub task_payload: Option<Handle<GlobalVariable>>,
}

pub struct Module {
    pub types: UniqueArena<Type>,
    pub global_variables: Arena<GlobalVariable>,
    pub entry_points: Vec<EntryPoint>,
}

impl Module {
    pub fn to_ctx(&self) -> GlobalContext {
        GlobalContext
    }
}

pub mod valid {
    use super::{GlobalVariable, Handle, Module};
    use std::collections::HashSet;
    use std::ops::Index;

    #[derive(Clone, Copy, Debug, Default)]
    pub struct ImmediateSlots;

    impl ImmediateSlots {
        pub fn size_for_module(_module: &Module) -> u32 {
            0
        }
    }

    #[derive(Clone, Copy, Debug)]
    pub struct GlobalUse;

    impl GlobalUse {
        pub fn is_empty(&self) -> bool {
            true
        }
    }

    #[derive(Eq, Hash, PartialEq)]
    pub struct SamplingKey {
        pub image: Handle<GlobalVariable>,
        pub sampler: Handle<GlobalVariable>,
    }

    pub struct FunctionInfo {
        pub sampling_set: HashSet<SamplingKey>,
        pub dual_source_blending: bool,
        pub immediate_slots_used: ImmediateSlots,
        pub global_uses: Vec<GlobalUse>,
    }

    impl Index<Handle<GlobalVariable>> for FunctionInfo {
        type Output = GlobalUse;
        fn index(&self, handle: Handle<GlobalVariable>) -> &GlobalUse {
            &self.global_uses[handle.index]
        }
    }

    pub struct ModuleInfo {
        pub entry_points: Vec<FunctionInfo>,
    }

    impl ModuleInfo {
        pub fn get_entry_point(&self, index: usize) -> &FunctionInfo {
            &self.entry_points[index]
        }
    }
}
