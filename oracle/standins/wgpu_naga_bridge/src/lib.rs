//! Stand-in: the storage format map as document 01 fixes it. A shader's storage format is a texture format's code, and
//! the storable codes are 0 to 42 but not 28 and 31.

pub fn storable(code: u8) -> bool {
    code <= 42 && code != 28 && code != 31
}

pub fn map_storage_format_to_naga(format: wgt::TextureFormat) -> Option<naga::StorageFormat> {
    let code = format.code();
    storable(code).then_some(naga::StorageFormat(code))
}

pub fn map_storage_format_from_naga(format: naga::StorageFormat) -> wgt::TextureFormat {
    wgt::TextureFormat::from_code(format.0).expect("a texture format's code")
}
