//! The archive's functions, by their C names.

extern "C" {
    pub fn bokwingi_check_stage(
        pack: *const u32,
        pack_len: usize,
        layout: *mut u32,
        layout_len: usize,
        sizes: *mut u32,
        sizes_len: usize,
        inputs: *const u32,
        inputs_len: usize,
        out: *mut u32,
        out_len: usize,
        name: *const u8,
        name_len: usize,
        stage: u32,
        topology: u32,
        mode: u32,
        dual_source: u32,
        depth: u32,
        details: *mut u32,
        details_len: usize,
    ) -> u32;
    pub fn bokwingi_entry_point(
        pack: *const u32,
        pack_len: usize,
        stage: u32,
        details: *mut u32,
        details_len: usize,
    ) -> u32;
    pub fn bokwingi_vertex_format(code: u32, details: *mut u32, details_len: usize) -> u32;
    pub fn bokwingi_texture_format(code: u32, details: *mut u32, details_len: usize) -> u32;
    pub fn bokwingi_check_texture_format(format: u32, output: u32, details: *mut u32, details_len: usize) -> u32;
    pub fn bokwingi_is_subtype_of(a: u32, b: u32) -> u32;
    pub fn bokwingi_populate(
        types: *const u32,
        types_len: usize,
        asked: u32,
        binding: *const u32,
        binding_len: usize,
        out: *mut u32,
        out_len: usize,
        details: *mut u32,
        details_len: usize,
    ) -> u32;
}
