//! Packs, lists and calls in parts, and the words that they become. The parts may break any rule.

use cases::StageCall;

pub const fn word(kind: u32, content: u32) -> u32 {
    kind << 27 | content & 0x07ff_ffff
}

pub const fn place(group: u32, binding: u32) -> u32 {
    word(4, (group & 15) << 23 | binding & 0x7f_ffff)
}

pub const fn group_of(place: u32) -> u32 {
    place >> 23 & 15
}

#[derive(Clone, Copy, Debug)]
pub struct Resource {
    pub place: u32,
    /// The content of the kind 16 word.
    pub ty: u32,
    /// The size of a buffer.
    pub size: u32,
}

impl Resource {
    pub fn sort(&self) -> u32 {
        self.ty >> 23
    }

    pub fn is_texture(&self) -> bool {
        matches!(self.sort(), 2 | 3 | 5)
    }

    pub fn words(&self) -> Vec<u32> {
        let mut out = vec![self.place, word(16, self.ty)];
        if self.sort() == 0 {
            out.push(word(6, self.size));
        }
        out
    }
}

#[derive(Clone, Copy, Debug)]
pub enum Varying {
    /// Location and the content of the kind 13 word.
    Local(u32, u32),
    /// Code and number.
    BuiltIn(u32, u32),
}

impl Varying {
    pub fn is_local(&self) -> bool {
        matches!(self, Varying::Local(..))
    }

    fn words(&self) -> Vec<u32> {
        match *self {
            Varying::Local(location, ty) => vec![word(12, location), word(13, ty)],
            Varying::BuiltIn(code, number) => vec![word(14, (code & 7) << 24 | number)],
        }
    }
}

#[derive(Clone, Debug)]
pub struct EntryPoint {
    pub stage: u32,
    pub name: Vec<u8>,
    pub workgroup: [u32; 3],
    pub payload: Option<u32>,
    pub mesh: Option<[u32; 3]>,
    pub dual: bool,
    pub resources: Vec<u32>,
    pub pairs: Vec<(u32, u32)>,
    pub inputs: Vec<Varying>,
    pub outputs: Vec<Varying>,
}

impl EntryPoint {
    pub fn words(&self) -> Vec<u32> {
        let mut out = vec![word(
            7,
            self.stage << 24
                | (self.name.len() as u32 & 127) << 16
                | (self.mesh.is_some() as u32) << 1
                | self.dual as u32,
        )];
        for part in self.name.chunks(4) {
            let mut four = [0; 4];
            four[..part.len()].copy_from_slice(part);
            out.push(u32::from_le_bytes(four));
        }
        out.extend(self.workgroup.map(|n| word(8, n)));
        out.push(payload_word(self.payload));
        if let Some(record) = self.mesh {
            out.extend(record.map(|n| word(10, n)));
        }
        let counts = [self.resources.len(), self.pairs.len(), self.inputs.len(), self.outputs.len()];
        out.push(word(15, counts.iter().fold(0, |all, n| all << 6 | *n as u32 & 63)));
        out.extend(self.resources.iter().map(|i| word(5, *i)));
        out.extend(self.pairs.iter().map(|(t, s)| word(5, t << 8 | s)));
        out.extend(self.inputs.iter().flat_map(Varying::words));
        out.extend(self.outputs.iter().flat_map(Varying::words));
        out
    }
}

fn payload_word(payload: Option<u32>) -> u32 {
    word(9, payload.map_or(0, |n| 1 << 26 | n))
}

pub const INTER_STAGE: usize = 0;
pub const COLOURS: usize = 1;
pub const MESH_VERTICES: usize = 10;
pub const MESH_PRIMITIVES: usize = 11;
pub const PAYLOAD: usize = 12;

/// Where the limits on a stage's workgroup stand: three dimensions and the total.
pub fn workgroup_limits(stage: u32) -> Option<[usize; 4]> {
    match stage {
        2 => Some([2, 3, 4, 5]),
        3 => Some([6, 6, 6, 7]),
        4 => Some([8, 8, 8, 9]),
        _ => None,
    }
}

#[derive(Clone, Debug)]
pub struct Pack {
    pub limits: [u32; 13],
    pub resources: Vec<Resource>,
    pub entries: Vec<EntryPoint>,
}

impl Pack {
    pub fn words(&self) -> Vec<u32> {
        let counts = (self.resources.len() as u32) << 16 | self.entries.len() as u32;
        let mut out = vec![0, word(2, counts)];
        out.extend(self.limits.map(|n| word(3, n)));
        out.extend(self.resources.iter().flat_map(Resource::words));
        out.extend(self.entries.iter().flat_map(EntryPoint::words));
        out.push(0);
        seal(&mut out);
        out
    }
}

/// Sets the total and the closing sum.
pub fn seal(words: &mut [u32]) {
    let total = words.len() as u32 & 0xffff;
    words[0] = word(1, 1 << 16 | total);
    close(words);
}

/// Sets the closing sum.
pub fn close(words: &mut [u32]) {
    let last = words.len() - 1;
    words[last] = words[..last].iter().fold(0, |sum: u32, w| sum.wrapping_add(*w));
}

#[derive(Clone, Copy, Debug)]
pub struct LayoutEntry {
    pub place: u32,
    /// The content of the kind 18 word.
    pub ty: u32,
    pub least: u32,
    pub visibility: u32,
}

#[derive(Clone, Debug)]
pub struct Layout {
    pub groups: u32,
    pub entries: Vec<LayoutEntry>,
    pub free: Vec<u32>,
}

impl Layout {
    pub fn words(&self) -> Vec<u32> {
        let mut out = vec![word(17, self.groups << 16 | self.entries.len() as u32)];
        for e in &self.entries {
            out.extend([e.place, word(18, e.ty), word(6, e.least), word(19, e.visibility)]);
        }
        out.extend(&self.free);
        out
    }
}

#[derive(Clone, Debug)]
pub struct Sizes {
    pub records: Vec<(u32, u32)>,
    pub free: Vec<u32>,
}

impl Sizes {
    pub fn words(&self) -> Vec<u32> {
        let mut out = vec![word(20, self.records.len() as u32)];
        for (place, size) in &self.records {
            out.extend([*place, word(6, *size)]);
        }
        out.extend(&self.free);
        out
    }
}

#[derive(Clone, Debug)]
pub struct StageList {
    pub primitive_index: u32,
    pub payload: Option<u32>,
    pub varyings: Vec<(u32, u32)>,
    pub free: Vec<u32>,
}

impl StageList {
    pub fn words(&self) -> Vec<u32> {
        let mut out =
            vec![word(11, self.primitive_index << 25 | self.varyings.len() as u32), payload_word(self.payload)];
        for (location, ty) in &self.varyings {
            out.extend([word(12, *location), word(13, *ty)]);
        }
        out.extend(&self.free);
        out
    }
}

#[derive(Clone, Debug)]
pub struct Call {
    pub pack: Pack,
    /// The entry point that the call means.
    pub target: usize,
    pub layout: Layout,
    pub sizes: Sizes,
    pub inputs: StageList,
    pub out: Vec<u32>,
    pub name: Vec<u8>,
    pub stage: u32,
    pub topology: u32,
    pub mode: u32,
    pub dual: u32,
    pub depth: u32,
}

impl Call {
    pub fn entry(&self) -> &EntryPoint {
        &self.pack.entries[self.target]
    }

    pub fn entry_mut(&mut self) -> &mut EntryPoint {
        &mut self.pack.entries[self.target]
    }

    pub fn call(&self) -> StageCall {
        StageCall {
            pack: self.pack.words(),
            layout: self.layout.words(),
            sizes: self.sizes.words(),
            inputs: self.inputs.words(),
            out: self.out.clone(),
            name: self.name.clone(),
            stage: self.stage,
            topology: self.topology,
            mode: self.mode,
            dual: self.dual,
            depth: self.depth,
        }
    }
}
