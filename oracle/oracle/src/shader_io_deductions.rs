//! The child module of validation.rs that the source lacks. What the file asks of it stands first, as document 01 fixes
//! it; then, because a child sees its parent's private types, what builds these from decoded packs and asks them.

pub mod populate;

use super::*;
use crate::decode::{self, Class, LayoutTy, NumericTy, Place, Space};
use std::num::NonZeroU64;

// What the file asks for.

#[derive(Clone, Copy, Debug)]
pub enum MaxVertexShaderOutputDeduction {
    PointListPrimitiveTopology,
    ClipDistances { array_size: u32 },
}

impl MaxVertexShaderOutputDeduction {
    pub fn for_variables(self) -> u32 {
        match self {
            Self::PointListPrimitiveTopology => 1,
            Self::ClipDistances { array_size } => array_size.div_ceil(4),
        }
    }

    pub fn for_location(self) -> u32 {
        match self {
            Self::PointListPrimitiveTopology => 0,
            Self::ClipDistances { array_size } => array_size.div_ceil(4),
        }
    }
}

/// The number of inter-stage places that a built-in takes. A pack gives this number itself, so that one built-in,
/// front facing, is taken as the carrier of one place, all others take none, and a built-in of a pack is followed by as
/// many carriers as it has places.
#[derive(Clone, Copy, Debug)]
pub struct MaxFragmentShaderInputDeduction(u32);

impl MaxFragmentShaderInputDeduction {
    pub fn from_inter_stage_builtin(builtin: naga::BuiltIn) -> Option<Self> {
        Some(Self((builtin == naga::BuiltIn::FrontFacing) as u32))
    }

    pub fn for_variables(self) -> u32 {
        self.0
    }
}

pub fn display_deductions_as_optional_list<T>(_: &[T], _: impl Fn(&T) -> u32) -> &'static str {
    ""
}

// From meaning to the Rust's structures.

fn vector_size(n: u32) -> naga::VectorSize {
    match n {
        2 => naga::VectorSize::Bi,
        3 => naga::VectorSize::Tri,
        _ => naga::VectorSize::Quad,
    }
}

fn numeric_type(ty: NumericTy) -> NumericType {
    let dim = match ty.shape {
        0 => NumericDimension::Scalar,
        n @ 1..=3 => NumericDimension::Vector(vector_size(n + 1)),
        n => NumericDimension::Matrix(vector_size((n - 4) / 3 + 2), vector_size((n - 4) % 3 + 2)),
    };
    let kind = match ty.kind {
        0 => naga::ScalarKind::Sint,
        1 => naga::ScalarKind::Uint,
        2 => naga::ScalarKind::Float,
        _ => naga::ScalarKind::Bool,
    };
    let width = ty.width as u8;
    NumericType {
        dim,
        scalar: naga::Scalar { kind, width },
    }
}

fn numeric_ty(ty: &NumericType) -> NumericTy {
    NumericTy {
        shape: match ty.dim {
            NumericDimension::Scalar => 0,
            NumericDimension::Vector(n) => n as u32 - 1,
            NumericDimension::Matrix(columns, rows) => 4 + 3 * (columns as u32 - 2) + (rows as u32 - 2),
        },
        kind: match ty.scalar.kind {
            naga::ScalarKind::Sint => 0,
            naga::ScalarKind::Uint => 1,
            naga::ScalarKind::Float => 2,
            _ => 3,
        },
        width: u32::from(ty.scalar.width),
    }
}

const INTERPOLATIONS: [naga::Interpolation; 4] = [
    naga::Interpolation::Perspective,
    naga::Interpolation::Linear,
    naga::Interpolation::Flat,
    naga::Interpolation::PerVertex,
];

const SAMPLINGS: [naga::Sampling; 5] = [
    naga::Sampling::Center,
    naga::Sampling::Centroid,
    naga::Sampling::Sample,
    naga::Sampling::First,
    naga::Sampling::Either,
];

/// The item that a code from 1 names; 0 names none.
fn coded<T: Copy>(list: &[T], code: u32) -> Option<T> {
    list.get((code as usize).checked_sub(1)?).copied()
}

fn code_of<T: PartialEq>(list: &[T], item: Option<T>) -> u32 {
    item.map_or(0, |item| list.iter().position(|i| *i == item).unwrap() as u32 + 1)
}

fn interface_var(v: &decode::Var) -> InterfaceVar {
    InterfaceVar {
        ty: numeric_type(v.ty),
        interpolation: coded(&INTERPOLATIONS, v.interpolation),
        sampling: coded(&SAMPLINGS, v.sampling),
        per_primitive: v.per_primitive,
    }
}

fn varying_word(iv: &InterfaceVar) -> u32 {
    numeric_ty(&iv.ty).word()
        | code_of(&INTERPOLATIONS, iv.interpolation) << 12
        | code_of(&SAMPLINGS, iv.sampling) << 15
        | (iv.per_primitive as u32) << 18
}

fn varyings(list: &[decode::Varying]) -> Vec<Varying> {
    let mut out = Vec::new();
    for v in list {
        match v {
            decode::Varying::Local(var) => out.push(Varying::Local {
                location: var.location,
                iv: interface_var(var),
            }),
            decode::Varying::ClipDistances { array_size } => out.push(Varying::BuiltIn(BuiltIn::ClipDistances {
                array_size: *array_size,
            })),
            decode::Varying::BuiltIn { code, places } => {
                out.push(Varying::BuiltIn(match code {
                    decode::BuiltInCode::Other => BuiltIn::Position { invariant: true },
                    decode::BuiltInCode::PrimitiveIndex => BuiltIn::PrimitiveIndex,
                    decode::BuiltInCode::DrawIndex => BuiltIn::DrawIndex,
                    decode::BuiltInCode::FragDepth => BuiltIn::FragDepth,
                }));
                out.extend((0..*places).map(|_| Varying::BuiltIn(BuiltIn::FrontFacing)));
            }
        }
    }
    out
}

fn topology(code: u32) -> Option<wgt::PrimitiveTopology> {
    use wgt::PrimitiveTopology as T;
    Some(match code {
        0 => T::PointList,
        1 => T::LineList,
        2 => T::LineStrip,
        3 => T::TriangleList,
        4 => T::TriangleStrip,
        _ => return None,
    })
}

fn naga_stage(stage: u32) -> naga::ShaderStage {
    match stage {
        0 => naga::ShaderStage::Vertex,
        1 => naga::ShaderStage::Fragment,
        2 => naga::ShaderStage::Compute,
        3 => naga::ShaderStage::Task,
        _ => naga::ShaderStage::Mesh,
    }
}

fn binding(place: Place) -> naga::ResourceBinding {
    naga::ResourceBinding {
        group: place.group,
        binding: place.binding,
    }
}

fn place(bind: naga::ResourceBinding) -> Place {
    Place {
        group: bind.group,
        binding: bind.binding,
    }
}

fn size(n: u32) -> wgt::BufferSize {
    NonZeroU64::new(n.into()).unwrap()
}

fn resource(r: &decode::Resource) -> Resource {
    use decode::ResourceTy as T;
    let handle = naga::AddressSpace::Handle;
    let (ty, class) = match r.ty {
        T::Buffer { space, size: n } => (
            ResourceType::Buffer { size: size(n) },
            match space {
                Space::Uniform => naga::AddressSpace::Uniform,
                Space::Storage { access } => naga::AddressSpace::Storage {
                    access: naga::StorageAccess(access),
                },
                Space::Other => naga::AddressSpace::Private,
            },
        ),
        T::Sampler { comparison } => (ResourceType::Sampler { comparison }, handle),
        T::Texture { dim, arrayed, class } => (
            ResourceType::Texture {
                dim: match dim {
                    0 => naga::ImageDimension::D1,
                    1 => naga::ImageDimension::D2,
                    2 => naga::ImageDimension::D3,
                    _ => naga::ImageDimension::Cube,
                },
                arrayed,
                class: match class {
                    Class::Sampled { kind, multi } => naga::ImageClass::Sampled {
                        kind: match kind {
                            0 => naga::ScalarKind::Float,
                            1 => naga::ScalarKind::Sint,
                            _ => naga::ScalarKind::Uint,
                        },
                        multi,
                    },
                    Class::Depth { multi } => naga::ImageClass::Depth { multi },
                    Class::Storage { format, access } => naga::ImageClass::Storage {
                        format: naga::StorageFormat(format as u8),
                        access: naga::StorageAccess(access),
                    },
                    Class::External => naga::ImageClass::External,
                },
            },
            handle,
        ),
        T::Acceleration { vertex_return } => (ResourceType::AccelerationStructure { vertex_return }, handle),
    };
    Resource {
        name: None,
        bind: binding(r.place),
        ty,
        class,
    }
}

const VIEWS: [wgt::TextureViewDimension; 6] = [
    wgt::TextureViewDimension::D1,
    wgt::TextureViewDimension::D2,
    wgt::TextureViewDimension::D2Array,
    wgt::TextureViewDimension::Cube,
    wgt::TextureViewDimension::CubeArray,
    wgt::TextureViewDimension::D3,
];

const SAMPLES: [wgt::TextureSampleType; 5] = [
    wgt::TextureSampleType::Float { filterable: true },
    wgt::TextureSampleType::Float { filterable: false },
    wgt::TextureSampleType::Depth,
    wgt::TextureSampleType::Sint,
    wgt::TextureSampleType::Uint,
];

const SAMPLERS: [wgt::SamplerBindingType; 3] = [
    wgt::SamplerBindingType::Filtering,
    wgt::SamplerBindingType::NonFiltering,
    wgt::SamplerBindingType::Comparison,
];

const ACCESSES: [wgt::StorageTextureAccess; 4] = [
    wgt::StorageTextureAccess::ReadOnly,
    wgt::StorageTextureAccess::WriteOnly,
    wgt::StorageTextureAccess::ReadWrite,
    wgt::StorageTextureAccess::Atomic,
];

fn at<T: PartialEq>(list: &[T], item: T) -> u32 {
    list.iter().position(|i| *i == item).unwrap() as u32
}

fn binding_type(ty: LayoutTy, least: u32) -> BindingType {
    match ty {
        LayoutTy::Buffer { storage, read_only, dynamic } => BindingType::Buffer {
            ty: if storage {
                wgt::BufferBindingType::Storage { read_only }
            } else {
                wgt::BufferBindingType::Uniform
            },
            has_dynamic_offset: dynamic,
            min_binding_size: NonZeroU64::new(least.into()),
        },
        LayoutTy::Sampler { code } => BindingType::Sampler(SAMPLERS[code as usize]),
        LayoutTy::Texture { view, multi, sample } => BindingType::Texture {
            sample_type: SAMPLES[sample as usize],
            view_dimension: VIEWS[view as usize],
            multisampled: multi,
        },
        LayoutTy::Storage { view, format, access } => BindingType::StorageTexture {
            access: ACCESSES[access as usize],
            format: wgt::TextureFormat::from_code(format as u8).unwrap(),
            view_dimension: VIEWS[view as usize],
        },
        LayoutTy::External => BindingType::ExternalTexture,
        LayoutTy::Acceleration { vertex_return } => BindingType::AccelerationStructure { vertex_return },
    }
}

fn layout_ty(ty: BindingType) -> (LayoutTy, u32) {
    match ty {
        BindingType::Buffer { ty, has_dynamic_offset: dynamic, min_binding_size } => (
            match ty {
                wgt::BufferBindingType::Uniform => LayoutTy::Buffer { storage: false, read_only: false, dynamic },
                wgt::BufferBindingType::Storage { read_only } => {
                    LayoutTy::Buffer { storage: true, read_only, dynamic }
                }
            },
            min_binding_size.map_or(0, |n| n.get() as u32),
        ),
        BindingType::Sampler(ty) => (LayoutTy::Sampler { code: at(&SAMPLERS, ty) }, 0),
        BindingType::Texture { sample_type, view_dimension, multisampled: multi } => {
            let (view, sample) = (at(&VIEWS, view_dimension), at(&SAMPLES, sample_type));
            (LayoutTy::Texture { view, multi, sample }, 0)
        }
        BindingType::StorageTexture { access, format, view_dimension } => {
            let (view, access) = (at(&VIEWS, view_dimension), at(&ACCESSES, access));
            (LayoutTy::Storage { view, format: format.code().into(), access }, 0)
        }
        BindingType::AccelerationStructure { vertex_return } => (LayoutTy::Acceleration { vertex_return }, 0),
        BindingType::ExternalTexture => (LayoutTy::External, 0),
    }
}

fn layout_entry(e: &decode::LayoutEntry) -> BindGroupLayoutEntry {
    BindGroupLayoutEntry {
        binding: e.place.binding,
        visibility: wgt::ShaderStages(e.visibility),
        ty: binding_type(e.ty, e.least),
        count: None,
    }
}

/// Names become strings as UTF-8 if all of them are UTF-8. Else each byte becomes one character, which keeps unlike
/// names unlike.
pub struct Names {
    utf8: bool,
}

impl Names {
    pub fn of<'a>(mut all: impl Iterator<Item = &'a [u8]>) -> Self {
        Self {
            utf8: all.all(|n| std::str::from_utf8(n).is_ok()),
        }
    }

    pub fn string(&self, bytes: &[u8]) -> String {
        if self.utf8 {
            std::str::from_utf8(bytes).unwrap().to_string()
        } else {
            bytes.iter().map(|b| char::from(*b)).collect()
        }
    }
}

fn limits(l: &[u32]) -> wgt::Limits {
    wgt::Limits {
        max_bind_groups: 8,
        max_inter_stage_shader_variables: l[0],
        max_color_attachments: l[1],
        max_compute_workgroup_size_x: l[2],
        max_compute_workgroup_size_y: l[3],
        max_compute_workgroup_size_z: l[4],
        max_compute_invocations_per_workgroup: l[5],
        max_task_invocations_per_dimension: l[6],
        max_task_invocations_per_workgroup: l[7],
        max_mesh_invocations_per_dimension: l[8],
        max_mesh_invocations_per_workgroup: l[9],
        max_mesh_output_vertices: l[10],
        max_mesh_output_primitives: l[11],
        max_task_payload_size: l[12],
    }
}

/// The interface of a pack. With `cut`, the entry points list their first `cut` resources only.
pub fn interface(pack: &decode::Pack, names: &Names, cut: Option<usize>) -> Interface {
    let mut resources = naga::Arena::new();
    let handles: Vec<naga::Handle<Resource>> = pack
        .resources
        .iter()
        .map(|r| resources.append(resource(r), Default::default()))
        .collect();
    let mut entry_points = FastHashMap::default();
    for e in &pack.entry_points {
        let listed = cut.map_or(e.resources.len(), |n| n.min(e.resources.len()));
        let ep = EntryPoint {
            inputs: varyings(&e.inputs),
            outputs: varyings(&e.outputs),
            resources: e.resources[..listed].iter().map(|i| handles[*i]).collect(),
            spec_constants: Vec::new(),
            sampling_pairs: e.pairs.iter().map(|(t, s)| (handles[*t], handles[*s])).collect(),
            workgroup_size: e.workgroup,
            dual_source_blending: e.dual,
            task_payload_size: e.payload,
            mesh_info: e.mesh.map(|m| EntryPointMeshInfo {
                max_vertices: m.vertices,
                max_primitives: m.primitives,
                primitive_topology: topology(m.topology).unwrap(),
            }),
            immediate_slots_required: Default::default(),
        };
        entry_points.insert((naga_stage(e.stage), names.string(&e.name)), ep);
    }
    Interface {
        limits: limits(&pack.limits),
        resources,
        entry_points,
        immediate_size: 0,
    }
}

// Asking.

pub type Refusal = (u32, [u32; 3]);

fn binding_number(error: &BindingError) -> u32 {
    match error {
        BindingError::Missing => 20,
        BindingError::Invisible => 21,
        BindingError::WrongType { .. } => 22,
        BindingError::WrongAddressSpace { .. } => 23,
        BindingError::WrongBufferAddressSpace { .. } => 24,
        BindingError::WrongBufferSize { .. } => 25,
        BindingError::WrongTextureViewDimension { .. } => 26,
        BindingError::WrongTextureClass { .. } => 27,
        BindingError::WrongSamplerComparison => 28,
        BindingError::InconsistentlyDerivedType => 29,
        BindingError::BadStorageFormat(_) => 30,
    }
}

fn refusal(error: &StageError) -> Refusal {
    use StageError as E;
    match error {
        E::MissingEntryPoint(_) => (10, [0; 3]),
        E::NoEntryPointFound => (11, [0; 3]),
        E::MultipleEntryPointsFound => (12, [0; 3]),
        E::InvalidResource(_) => unreachable!("no such resource is ever made"),
        E::Binding(bind, error) => (binding_number(error), [bind.group, bind.binding, 0]),
        E::Filtering { texture, sampler, error } => {
            let number = match error {
                FilteringError::Float => 32,
                FilteringError::Integer => 33,
            };
            (number, [place(*texture).word(), place(*sampler).word(), 0])
        }
        E::InvalidWorkgroupSize(InvalidWorkgroupSizeError::LimitExceeded { dimensions, .. }) => (40, *dimensions),
        E::InvalidWorkgroupSize(InvalidWorkgroupSizeError::Zero { dimensions }) => (41, *dimensions),
        E::Input { location, error, .. } => {
            let number = match error {
                InputError::Missing => 50,
                InputError::WrongType(_) => 51,
                InputError::InterpolationMismatch(_) => 52,
                InputError::SamplingMismatch(_) => 53,
                InputError::WrongPerPrimitive { .. } => 54,
            };
            (number, [*location, 0, 0])
        }
        E::VertexOutputLocationTooLarge { location, limit, .. } => (60, [*location, *limit, 0]),
        E::TooManyUserDefinedVertexOutputs { num_found, limit, .. } => (61, [*num_found, *limit, 0]),
        E::FragmentInputLocationTooLarge { location, limit, .. } => (62, [*location, *limit, 0]),
        E::TooManyUserDefinedFragmentInputs { num_found, limit, .. } => (63, [*num_found, *limit, 0]),
        E::ColorAttachmentLocationTooLarge { location, limit, .. } => (64, [*location, *limit, 0]),
        E::InvalidDualSourceBlending => (66, [0; 3]),
        E::MissingFragDepthAttachment => (67, [0; 3]),
        E::TooManyMeshVertices { limit, value } => (70, [*value, *limit, 0]),
        E::TooManyMeshPrimitives { limit, value } => (71, [*value, *limit, 0]),
        E::MeshTopologyMismatch => (72, [0; 3]),
        E::TaskPayloadTooLarge { limit, value } => (73, [*value, *limit, 0]),
        E::TaskPayloadMustMatch { .. } => (74, [0; 3]),
        E::InvalidPrimitiveIndex => (75, [0; 3]),
        E::MissingPrimitiveIndex => (76, [0; 3]),
        E::DrawIdError => (77, [0; 3]),
        E::PerVertexNotTriangles => (78, [0; 3]),
    }
}

pub fn vertex_format(format: wgt::VertexFormat) -> u32 {
    numeric_ty(&NumericType::from_vertex_format(format)).word()
}

pub fn texture_format(format: wgt::TextureFormat) -> u32 {
    numeric_ty(&NumericType::from_texture_format(format)).word()
}

pub fn subtype(a: NumericTy, b: NumericTy) -> bool {
    numeric_type(a).is_subtype_of(&numeric_type(b))
}

/// On a mismatch, the type that the format has.
pub fn texture_format_fits(format: wgt::TextureFormat, output: NumericTy) -> Result<(), u32> {
    check_texture_format(format, &numeric_type(output)).map_err(|ty| numeric_ty(&ty).word())
}

pub fn binding_use(r: &decode::Resource, e: &decode::LayoutEntry) -> Result<(), u32> {
    resource(r)
        .check_binding_use(&layout_entry(e))
        .map_err(|error| binding_number(&error))
}

/// The type word and the least-size word of a derived entry.
pub fn derived_type(r: &decode::Resource, named: bool) -> Result<(u32, u32), u32> {
    match resource(r).derive_binding_type(named) {
        Ok(ty) => {
            let (ty, least) = layout_ty(ty);
            Ok((ty.word(), 6 << 27 | least))
        }
        Err(error) => Err(binding_number(&error)),
    }
}

pub fn chosen_name(interface: &Interface, stage: u32) -> Result<String, Refusal> {
    interface
        .finalize_entry_point_name(naga_stage(stage), None)
        .map_err(|error| refusal(&error))
}

/// What a stage check works on, in the Rust's form.
pub struct Workings {
    layouts: BindingLayoutSource,
    sizes: FastHashMap<naga::ResourceBinding, wgt::BufferSize>,
}

impl Workings {
    pub fn new(derived: bool, layout: &decode::Layout, sizes: &[(Place, u32)]) -> Self {
        let mut maps: Vec<bgl::EntryMap> = (0..layout.groups).map(|_| Default::default()).collect();
        for e in &layout.entries {
            match maps[e.place.group as usize].entry(e.place.binding) {
                indexmap::map::Entry::Vacant(v) => v.insert(layout_entry(e)),
                indexmap::map::Entry::Occupied(_) => unreachable!("places differ"),
            };
        }
        let layouts = if derived {
            let mut list: ArrayVec<bgl::EntryMap, { hal::MAX_BIND_GROUPS }> = ArrayVec::new();
            for map in maps {
                list.push(map);
            }
            BindingLayoutSource::Derived(Box::new(list))
        } else {
            BindingLayoutSource::Provided(Arc::new(crate::binding_model::PipelineLayout { groups: maps }))
        };
        let sizes = sizes.iter().map(|(p, n)| (binding(*p), size(*n))).collect();
        Self { layouts, sizes }
    }

    /// The entries as they stand now, in the order in which they were made.
    pub fn entries(&self) -> Vec<decode::LayoutEntry> {
        let back = |group: u32, e: &BindGroupLayoutEntry| {
            let (ty, least) = layout_ty(e.ty);
            decode::LayoutEntry {
                place: Place { group, binding: e.binding },
                ty,
                least,
                visibility: e.visibility.0,
            }
        };
        let maps: &[bgl::EntryMap] = match &self.layouts {
            BindingLayoutSource::Provided(layout) => &layout.groups,
            BindingLayoutSource::Derived(maps) => maps,
        };
        let mut all: Vec<_> = (0u32..)
            .zip(maps)
            .flat_map(|(g, map)| map.items().iter().map(move |i| (i.stamp, g, i)))
            .collect();
        all.sort_by_key(|(stamp, ..)| *stamp);
        all.iter()
            .map(|(_, g, i)| {
                assert_eq!(i.key, i.value.binding);
                back(*g, &i.value)
            })
            .collect()
    }

    pub fn size_of(&self, p: Place) -> Option<u32> {
        self.sizes.get(&binding(p)).map(|n| n.get() as u32)
    }

    pub fn size_count(&self) -> usize {
        self.sizes.len()
    }

    /// The Rust's stage check and nothing else.
    pub fn ask(&mut self, interface: &Interface, name: &str, asked: Asked) -> Found {
        let Asked { stage, io, topology } = asked;
        Found(interface.check_stage(&mut self.layouts, &mut self.sizes, name, stage, io, topology))
    }

    pub fn check_stage(
        &mut self,
        interface: &Interface,
        name: &str,
        call: &cases::StageCall,
        inputs: &decode::StageList,
    ) -> Result<Vec<u32>, Refusal> {
        self.ask(interface, name, Asked::of(call, inputs)).words()
    }
}

/// What a stage check is asked, in the Rust's form.
pub struct Asked {
    stage: ShaderStageForValidation,
    io: StageIo,
    topology: Option<wgt::PrimitiveTopology>,
}

impl Asked {
    pub fn of(call: &cases::StageCall, inputs: &decode::StageList) -> Self {
        let topology = topology(call.topology);
        let stage = match call.stage {
            0 => ShaderStageForValidation::Vertex {
                // Document 01's 'no topology' is not a point list; the Rust has none to give here.
                topology: topology.unwrap_or(wgt::PrimitiveTopology::LineList),
                compare_function: None,
            },
            1 => ShaderStageForValidation::Fragment {
                dual_source_blending: call.dual == 1,
                has_depth_attachment: call.depth == 1,
            },
            2 => ShaderStageForValidation::Compute,
            3 => ShaderStageForValidation::Task,
            _ => ShaderStageForValidation::Mesh,
        };
        let io = StageIo {
            varyings: inputs.varyings.iter().map(|v| (v.location, interface_var(v))).collect(),
            task_payload_size: inputs.payload,
            primitive_index: [None, Some(false), Some(true)][inputs.primitive_index as usize],
        };
        Self { stage, io, topology }
    }
}

/// What a stage check answered, in the Rust's form.
pub struct Found(Result<StageIo, StageError>);

impl Found {
    /// The list handed out, kind 11, kind 9 and the varyings by rising location, or the refusal.
    pub fn words(self) -> Result<Vec<u32>, Refusal> {
        let io = self.0.map_err(|error| refusal(&error))?;
        let primitive_index = match io.primitive_index {
            None => 0,
            Some(false) => 1,
            Some(true) => 2,
        };
        let mut out = vec![
            11 << 27 | primitive_index << 25 | io.varyings.len() as u32,
            9 << 27 | io.task_payload_size.map_or(0, |n| 1 << 26 | n),
        ];
        let mut varyings: Vec<_> = io.varyings.iter().collect();
        varyings.sort_by_key(|(location, _)| **location);
        for (location, iv) in varyings {
            out.extend([12 << 27 | location, varying_word(iv)]);
        }
        Ok(out)
    }
}
