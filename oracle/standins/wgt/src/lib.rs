//! Stand-in: the plain types. Formats stand in the order of document 01's numbers.

use std::num::NonZeroU64;
use std::ops::{BitOr, BitOrAssign};

pub type BufferSize = NonZeroU64;
pub type ShaderLocation = u32;

pub mod error {
    #[derive(Clone, Copy, Debug, Eq, PartialEq)]
    pub enum ErrorType {
        Validation,
    }

    pub trait WebGpuError: core::error::Error {
        fn webgpu_error_type(&self) -> ErrorType;
    }
}

#[derive(Clone, Copy, Debug, Eq, PartialEq)]
pub struct ShaderStages(pub u32);

impl ShaderStages {
    pub const VERTEX: Self = Self(1);
    pub const FRAGMENT: Self = Self(2);
    pub const COMPUTE: Self = Self(4);
    pub const TASK: Self = Self(8);
    pub const MESH: Self = Self(16);

    pub fn contains(self, other: Self) -> bool {
        self.0 & other.0 == other.0
    }
}

impl BitOr for ShaderStages {
    type Output = Self;
    fn bitor(self, other: Self) -> Self {
        Self(self.0 | other.0)
    }
}

impl BitOrAssign for ShaderStages {
    fn bitor_assign(&mut self, other: Self) {
        self.0 |= other.0;
    }
}

#[derive(Clone, Debug, Default)]
pub struct Limits {
    pub max_bind_groups: u32,
    pub max_inter_stage_shader_variables: u32,
    pub max_color_attachments: u32,
    pub max_compute_workgroup_size_x: u32,
    pub max_compute_workgroup_size_y: u32,
    pub max_compute_workgroup_size_z: u32,
    pub max_compute_invocations_per_workgroup: u32,
    pub max_task_invocations_per_dimension: u32,
    pub max_task_invocations_per_workgroup: u32,
    pub max_mesh_invocations_per_dimension: u32,
    pub max_mesh_invocations_per_workgroup: u32,
    pub max_mesh_output_vertices: u32,
    pub max_mesh_output_primitives: u32,
    pub max_task_payload_size: u32,
}

#[derive(Clone, Copy, Debug, Eq, PartialEq)]
pub enum PrimitiveTopology {
    PointList,
    LineList,
    LineStrip,
    TriangleList,
    TriangleStrip,
}

impl PrimitiveTopology {
    pub fn is_triangles(&self) -> bool {
        matches!(self, Self::TriangleList | Self::TriangleStrip)
    }
}

#[derive(Clone, Copy, Debug, Eq, PartialEq)]
pub enum CompareFunction {
    Never,
    Less,
    Equal,
    LessEqual,
    Greater,
    NotEqual,
    GreaterEqual,
    Always,
}

#[derive(Clone, Copy, Debug, Eq, PartialEq)]
pub enum BufferBindingType {
    Uniform,
    Storage { read_only: bool },
}

#[derive(Clone, Copy, Debug, Eq, PartialEq)]
pub enum SamplerBindingType {
    Filtering,
    NonFiltering,
    Comparison,
}

#[derive(Clone, Copy, Debug, Eq, PartialEq)]
pub enum TextureViewDimension {
    D1,
    D2,
    D2Array,
    Cube,
    CubeArray,
    D3,
}

#[derive(Clone, Copy, Debug, Eq, PartialEq)]
pub enum TextureSampleType {
    Float { filterable: bool },
    Depth,
    Sint,
    Uint,
}

#[derive(Clone, Copy, Debug, Eq, PartialEq)]
pub enum StorageTextureAccess {
    ReadOnly,
    WriteOnly,
    ReadWrite,
    Atomic,
}

#[derive(Clone, Copy, Debug, Eq, PartialEq)]
pub enum BindingType {
    Buffer { ty: BufferBindingType, has_dynamic_offset: bool, min_binding_size: Option<BufferSize> },
    Sampler(SamplerBindingType),
    Texture { sample_type: TextureSampleType, view_dimension: TextureViewDimension, multisampled: bool },
    StorageTexture { access: StorageTextureAccess, format: TextureFormat, view_dimension: TextureViewDimension },
    AccelerationStructure { vertex_return: bool },
    ExternalTexture,
}

#[derive(Clone, Copy, Debug, Eq, PartialEq)]
pub struct BindGroupLayoutEntry {
    pub binding: u32,
    pub visibility: ShaderStages,
    pub ty: BindingType,
    pub count: Option<std::num::NonZeroU32>,
}

macro_rules! vertex_formats {
    ($($name:ident)*) => {
        #[derive(Clone, Copy, Debug, Eq, PartialEq)]
        pub enum VertexFormat { $($name),* }

        impl VertexFormat {
            pub const ALL: &'static [Self] = &[$(Self::$name),*];
            pub const NAMES: &'static [&'static str] = &[$(stringify!($name)),*];

            pub fn from_code(code: u32) -> Option<Self> {
                Self::ALL.get(code as usize).copied()
            }
        }
    };
}

vertex_formats! {
    Uint8 Uint16 Uint32
    Uint8x2 Uint16x2 Uint32x2
    Uint32x3
    Uint8x4 Uint16x4 Uint32x4
    Sint8 Sint16 Sint32
    Sint8x2 Sint16x2 Sint32x2
    Sint32x3
    Sint8x4 Sint16x4 Sint32x4
    Unorm8 Unorm16 Snorm8 Snorm16 Float16 Float32
    Unorm8x2 Snorm8x2 Unorm16x2 Snorm16x2 Float16x2 Float32x2
    Float32x3
    Unorm8x4 Snorm8x4 Unorm16x4 Snorm16x4 Float16x4 Float32x4 Unorm10_10_10_2 Unorm8x4Bgra
    Float64 Float64x2 Float64x3 Float64x4
}

#[derive(Clone, Copy, Debug, Eq, PartialEq)]
pub enum AstcBlock {
    B4x4,
}

#[derive(Clone, Copy, Debug, Eq, PartialEq)]
pub enum AstcChannel {
    Unorm,
}

macro_rules! texture_formats {
    ($($name:ident)*) => {
        #[derive(Clone, Copy, Debug, Eq, PartialEq)]
        pub enum TextureFormat {
            $($name,)*
            Astc { block: AstcBlock, channel: AstcChannel },
        }

        impl TextureFormat {
            pub const ALL: &'static [Self] = &[
                $(Self::$name,)*
                Self::Astc { block: AstcBlock::B4x4, channel: AstcChannel::Unorm },
            ];
            pub const NAMES: &'static [&'static str] = &[$(stringify!($name),)* "Astc"];
        }
    };
}

texture_formats! {
    R8Unorm R8Snorm R16Float R32Float
    R8Uint R16Uint R32Uint
    R8Sint R16Sint R32Sint
    Rg8Unorm Rg8Snorm Rg16Float Rg32Float
    R64Uint
    Rg8Uint Rg16Uint Rg32Uint
    Rg8Sint Rg16Sint Rg32Sint
    R16Snorm R16Unorm
    Rg16Snorm Rg16Unorm
    Rgba16Snorm Rgba16Unorm
    Rgba8Unorm Rgba8UnormSrgb Rgba8Snorm Bgra8Unorm Bgra8UnormSrgb Rgb10a2Unorm Rgba16Float Rgba32Float
    Rgba8Uint Rgba16Uint Rgba32Uint Rgb10a2Uint
    Rgba8Sint Rgba16Sint Rgba32Sint
    Rg11b10Ufloat
    Stencil8 Depth16Unorm Depth32Float Depth32FloatStencil8 Depth24Plus Depth24PlusStencil8
    NV12
    P010
    Rgb9e5Ufloat
    Bc1RgbaUnorm Bc1RgbaUnormSrgb Bc2RgbaUnorm Bc2RgbaUnormSrgb Bc3RgbaUnorm Bc3RgbaUnormSrgb
    Bc7RgbaUnorm Bc7RgbaUnormSrgb Etc2Rgb8A1Unorm Etc2Rgb8A1UnormSrgb Etc2Rgba8Unorm Etc2Rgba8UnormSrgb
    Bc4RUnorm Bc4RSnorm EacR11Unorm EacR11Snorm
    Bc5RgUnorm Bc5RgSnorm EacRg11Unorm EacRg11Snorm
    Bc6hRgbUfloat Bc6hRgbFloat Etc2Rgb8Unorm Etc2Rgb8UnormSrgb
}

impl TextureFormat {
    pub fn from_code(code: u8) -> Option<Self> {
        Self::ALL.get(usize::from(code)).copied()
    }

    pub fn code(self) -> u8 {
        Self::ALL.iter().position(|f| *f == self).expect("every format is listed") as u8
    }

    pub fn target_pixel_byte_cost(&self) -> Option<u32> {
        None
    }

    pub fn target_component_alignment(&self) -> Option<u32> {
        None
    }
}
