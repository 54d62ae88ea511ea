//! Runs wgpu-core's validation.rs, unchanged, on document 01's packs and lists. See README.md.

extern crate alloc;

pub mod decode;
pub mod fast_hash;

include!(concat!(env!("OUT_DIR"), "/declare.rs"));

pub use fast_hash::{FastHashMap, FastHashSet};

/// Stand-in: names that the file takes from its own crate.
pub mod command {
    #[derive(Clone, Debug)]
    pub enum ColorAttachmentError {
        TooMany { given: usize, limit: usize },
        TooManyBytesPerSample { total: u32, limit: u32 },
    }
}

/// Stand-in: a group's map from binding number to entry.
pub mod device {
    pub mod bgl {
        use crate::fast_hash::FastHasher;
        use std::hash::BuildHasherDefault;

        pub type EntryMap = indexmap::IndexMap<u32, wgt::BindGroupLayoutEntry, BuildHasherDefault<FastHasher>>;
    }
}

/// Stand-in: an error that is never made.
pub mod resource {
    #[derive(Clone, Debug, thiserror::Error)]
    pub enum InvalidResourceError {}

    impl wgt::error::WebGpuError for InvalidResourceError {
        fn webgpu_error_type(&self) -> wgt::error::ErrorType {
            match *self {}
        }
    }
}

/// Stand-in: the layout look-up as document 01 fixes it, the entry at that place or none.
pub mod binding_model {
    pub struct PipelineLayout {
        pub groups: Vec<crate::device::bgl::EntryMap>,
    }

    impl PipelineLayout {
        pub fn get_bgl_entry(&self, group: u32, binding: u32) -> Option<&wgt::BindGroupLayoutEntry> {
            self.groups.get(group as usize)?.get(&binding)
        }
    }
}

mod answers;
pub mod populate;

pub use answers::{answer, silence_panics};

#[cfg(test)]
mod tests {
    const FILE: &str = include_str!(concat!(env!("OUT_DIR"), "/validation.rs"));

    /// The names after `prefix`, in the order in which the file first has them.
    fn first_named(prefix: &str) -> Vec<String> {
        let mut found: Vec<String> = Vec::new();
        for part in FILE.split(prefix).skip(1) {
            let name: String = part.chars().take_while(|c| c.is_alphanumeric() || *c == '_').collect();
            if !name.is_empty() && !found.contains(&name) {
                found.push(name);
            }
        }
        found
    }

    /// Document 01 numbers the formats as the file first names them; the stand-in's order is that.
    #[test]
    fn formats_stand_in_the_order_of_their_first_naming() {
        assert_eq!(first_named("Vf::"), wgt::VertexFormat::NAMES);
        assert_eq!(first_named("Tf::"), wgt::TextureFormat::NAMES);
        assert_eq!((wgt::VertexFormat::ALL.len(), wgt::TextureFormat::ALL.len()), (45, 77));
    }
}
