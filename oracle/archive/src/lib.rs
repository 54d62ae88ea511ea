//! The archive that firmware links, as Rust calls it. See README.md, 'The archive'.

pub mod shapes;
pub mod valgrind;

use library::raw;

/// The numbers of a stage check.
#[derive(Clone, Copy)]
pub struct Codes {
    pub stage: u32,
    pub topology: u32,
    pub mode: u32,
    pub dual: u32,
    pub depth: u32,
}

impl Codes {
    pub fn of(c: &cases::StageCall) -> Self {
        Self { stage: c.stage, topology: c.topology, mode: c.mode, dual: c.dual, depth: c.depth }
    }
}

/// The buffers of a stage check.
pub struct Lent<'a> {
    pub pack: &'a [u32],
    pub layout: &'a mut [u32],
    pub sizes: &'a mut [u32],
    pub inputs: &'a [u32],
    pub out: &'a mut [u32],
    pub name: &'a [u8],
    pub details: &'a mut [u32],
}

#[inline(always)]
pub fn check_stage(lent: &mut Lent, codes: Codes) -> u32 {
    unsafe {
        raw::bokwingi_check_stage(
            lent.pack.as_ptr(),
            lent.pack.len(),
            lent.layout.as_mut_ptr(),
            lent.layout.len(),
            lent.sizes.as_mut_ptr(),
            lent.sizes.len(),
            lent.inputs.as_ptr(),
            lent.inputs.len(),
            lent.out.as_mut_ptr(),
            lent.out.len(),
            lent.name.as_ptr(),
            lent.name.len(),
            codes.stage,
            codes.topology,
            codes.mode,
            codes.dual,
            codes.depth,
            lent.details.as_mut_ptr(),
            lent.details.len(),
        )
    }
}

#[inline(always)]
pub fn entry_point(pack: &[u32], stage: u32, details: &mut [u32]) -> u32 {
    unsafe { raw::bokwingi_entry_point(pack.as_ptr(), pack.len(), stage, details.as_mut_ptr(), details.len()) }
}

#[inline(always)]
pub fn vertex_format(code: u32, details: &mut [u32]) -> u32 {
    unsafe { raw::bokwingi_vertex_format(code, details.as_mut_ptr(), details.len()) }
}

#[inline(always)]
pub fn texture_format(code: u32, details: &mut [u32]) -> u32 {
    unsafe { raw::bokwingi_texture_format(code, details.as_mut_ptr(), details.len()) }
}

#[inline(always)]
pub fn check_texture_format(format: u32, ty: u32, details: &mut [u32]) -> u32 {
    unsafe { raw::bokwingi_check_texture_format(format, ty, details.as_mut_ptr(), details.len()) }
}

#[inline(always)]
pub fn is_subtype_of(a: u32, b: u32) -> u32 {
    unsafe { raw::bokwingi_is_subtype_of(a, b) }
}

/// The buffers of `populate`.
pub struct PopulateLent<'a> {
    pub types: &'a [u32],
    pub binding: &'a [u32],
    pub out: &'a mut [u32],
    pub details: &'a mut [u32],
}

#[inline(always)]
pub fn populate(lent: &mut PopulateLent, asked: u32) -> u32 {
    unsafe {
        raw::bokwingi_populate(
            lent.types.as_ptr(),
            lent.types.len(),
            asked,
            lent.binding.as_ptr(),
            lent.binding.len(),
            lent.out.as_mut_ptr(),
            lent.out.len(),
            lent.details.as_mut_ptr(),
            lent.details.len(),
        )
    }
}
