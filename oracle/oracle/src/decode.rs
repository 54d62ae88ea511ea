//! From words to meaning: document 01's 'Packs and lists' and document 02's type list, as small readers put together in
//! their order. Written for the oracle alone; the model has its own.

/// Words that do not meet the format.
#[derive(Debug)]
pub struct Bad;

type Read<T> = Result<T, Bad>;

fn ensure(good: bool) -> Read<()> {
    if good {
        Ok(())
    } else {
        Err(Bad)
    }
}

/// The bits `high..=low` of a word.
fn bits(word: u32, high: u32, low: u32) -> u32 {
    (word >> low) & (u32::MAX >> (31 - (high - low)))
}

fn bit(word: u32, at: u32) -> bool {
    bits(word, at, at) == 1
}

/// All bits of `word` outside the given fields are zero; the kind is always a field.
fn only(word: u32, fields: &[(u32, u32)]) -> Read<()> {
    let mut named = 0xf800_0000;
    for &(high, low) in fields {
        for at in low..=high {
            named |= 1 << at;
        }
    }
    ensure(word & !named == 0)
}

fn of_kind(word: u32, kind: u32) -> Read<u32> {
    ensure(word >> 27 == kind)?;
    Ok(word)
}

struct Reader<'a>(&'a [u32]);

impl Reader<'_> {
    fn any(&mut self) -> Read<u32> {
        let (&first, rest) = self.0.split_first().ok_or(Bad)?;
        self.0 = rest;
        Ok(first)
    }

    fn word(&mut self, kind: u32) -> Read<u32> {
        of_kind(self.any()?, kind)
    }

    /// A word whose whole content is one number.
    fn number(&mut self, kind: u32) -> Read<u32> {
        Ok(bits(self.word(kind)?, 26, 0))
    }

    fn many<T>(&mut self, count: u32, one: impl Fn(&mut Self) -> Read<T>) -> Read<Vec<T>> {
        (0..count).map(|_| one(self)).collect()
    }
}

#[derive(Clone, Copy, Debug, Eq, Hash, PartialEq)]
pub struct Place {
    pub group: u32,
    pub binding: u32,
}

impl Place {
    pub fn word(self) -> u32 {
        4 << 27 | self.group << 23 | self.binding
    }
}

fn place(r: &mut Reader) -> Read<Place> {
    let w = r.word(4)?;
    Ok(Place { group: bits(w, 26, 23), binding: bits(w, 22, 0) })
}

#[derive(Clone, Copy, Debug)]
pub enum Space {
    Uniform,
    Storage { access: u32 },
    Other,
}

#[derive(Clone, Copy, Debug)]
pub enum Class {
    Sampled { kind: u32, multi: bool },
    Depth { multi: bool },
    Storage { format: u32, access: u32 },
    External,
}

#[derive(Clone, Copy, Debug)]
pub enum ResourceTy {
    Buffer { space: Space, size: u32 },
    Sampler { comparison: bool },
    Texture { dim: u32, arrayed: bool, class: Class },
    Acceleration { vertex_return: bool },
}

#[derive(Clone, Copy, Debug)]
pub struct Resource {
    pub place: Place,
    pub ty: ResourceTy,
}

pub fn storable(format: u32) -> bool {
    format <= 42 && format != 28 && format != 31
}

fn resource(r: &mut Reader) -> Read<Resource> {
    let place = place(r)?;
    let w = r.word(16)?;
    const TYPE: (u32, u32) = (26, 23);
    let (dim, arrayed, multi) = (bits(w, 1, 0), bit(w, 2), bit(w, 3));
    let texture = |class| ResourceTy::Texture { dim, arrayed, class };
    let ty = match bits(w, 26, 23) {
        0 => {
            only(w, &[TYPE, (4, 3), (2, 0)])?;
            let access = bits(w, 2, 0);
            let space = match bits(w, 4, 3) {
                0 => Space::Uniform,
                1 => Space::Storage { access },
                2 => Space::Other,
                _ => return Err(Bad),
            };
            ensure(access == 0 || matches!(space, Space::Storage { .. }))?;
            let size = r.number(6)?;
            ensure(size >= 1)?;
            ResourceTy::Buffer { space, size }
        }
        1 => {
            only(w, &[TYPE, (0, 0)])?;
            ResourceTy::Sampler { comparison: bit(w, 0) }
        }
        2 => {
            only(w, &[TYPE, (5, 4), (3, 0)])?;
            let kind = bits(w, 5, 4);
            ensure(kind <= 2)?;
            texture(Class::Sampled { kind, multi })
        }
        3 => {
            only(w, &[TYPE, (3, 0)])?;
            texture(Class::Depth { multi })
        }
        4 => {
            only(w, &[TYPE, (18, 16), (14, 8), (2, 0)])?;
            let (format, access) = (bits(w, 14, 8), bits(w, 18, 16));
            ensure(storable(format) && access != 0)?;
            texture(Class::Storage { format, access })
        }
        5 => {
            only(w, &[TYPE, (2, 0)])?;
            texture(Class::External)
        }
        6 => {
            only(w, &[TYPE, (0, 0)])?;
            ResourceTy::Acceleration { vertex_return: bit(w, 0) }
        }
        _ => return Err(Bad),
    };
    Ok(Resource { place, ty })
}

/// A resource alone.
pub fn lone_resource(words: &[u32]) -> Read<Resource> {
    let mut r = Reader(words);
    let found = resource(&mut r)?;
    ensure(r.0.is_empty())?;
    Ok(found)
}

#[derive(Clone, Copy, Debug, Eq, PartialEq)]
pub struct NumericTy {
    /// 0 scalar, 1 to 3 vectors of 2 to 4, 4 and on matrices.
    pub shape: u32,
    pub kind: u32,
    pub width: u32,
}

impl NumericTy {
    pub fn word(self) -> u32 {
        13 << 27 | self.shape | self.kind << 4 | self.width << 6
    }
}

#[derive(Clone, Copy, Debug)]
pub struct Var {
    pub location: u32,
    pub ty: NumericTy,
    pub interpolation: u32,
    pub sampling: u32,
    pub per_primitive: bool,
}

#[derive(Clone, Copy, Debug)]
pub enum BuiltInCode {
    Other,
    PrimitiveIndex,
    DrawIndex,
    FragDepth,
}

#[derive(Clone, Copy, Debug)]
pub enum Varying {
    Local(Var),
    BuiltIn { code: BuiltInCode, places: u32 },
    ClipDistances { array_size: u32 },
}

fn numeric(w: u32) -> Read<NumericTy> {
    let ty = NumericTy { shape: bits(w, 3, 0), kind: bits(w, 5, 4), width: bits(w, 9, 6) };
    ensure(ty.shape <= 12 && matches!(ty.width, 1 | 2 | 4 | 8))?;
    Ok(ty)
}

/// A type alone: a kind 13 word with nothing but the type in it.
pub fn lone_type(w: u32) -> Read<NumericTy> {
    of_kind(w, 13)?;
    only(w, &[(9, 0)])?;
    numeric(w)
}

/// Interpolation and sampling of a kind 13 word.
fn how(w: u32) -> Read<(u32, u32)> {
    let (interpolation, sampling) = (bits(w, 14, 12), bits(w, 17, 15));
    ensure(interpolation <= 4 && sampling <= 5)?;
    Ok((interpolation, sampling))
}

fn local(r: &mut Reader) -> Read<Var> {
    let location = r.number(12)?;
    let w = r.word(13)?;
    only(w, &[(18, 18), (17, 15), (14, 12), (9, 0)])?;
    let (interpolation, sampling) = how(w)?;
    Ok(Var { location, ty: numeric(w)?, interpolation, sampling, per_primitive: bit(w, 18) })
}

fn varying(r: &mut Reader) -> Read<Varying> {
    let next = *r.0.first().ok_or(Bad)?;
    if next >> 27 == 12 {
        return Ok(Varying::Local(local(r)?));
    }
    built_in(r)
}

fn built_in(r: &mut Reader) -> Read<Varying> {
    let w = r.word(14)?;
    only(w, &[(26, 24), (7, 0)])?;
    let places = bits(w, 7, 0);
    let code = match bits(w, 26, 24) {
        0 => BuiltInCode::Other,
        1 => BuiltInCode::PrimitiveIndex,
        2 => BuiltInCode::DrawIndex,
        3 => BuiltInCode::FragDepth,
        4 => return Ok(Varying::ClipDistances { array_size: places }),
        _ => return Err(Bad),
    };
    Ok(Varying::BuiltIn { code, places })
}

#[derive(Clone, Copy, Debug)]
pub struct MeshRecord {
    pub vertices: u32,
    pub primitives: u32,
    pub topology: u32,
}

#[derive(Clone, Debug)]
pub struct EntryPoint {
    pub stage: u32,
    pub name: Vec<u8>,
    pub dual: bool,
    pub workgroup: [u32; 3],
    pub payload: Option<u32>,
    pub mesh: Option<MeshRecord>,
    pub resources: Vec<usize>,
    pub pairs: Vec<(usize, usize)>,
    pub inputs: Vec<Varying>,
    pub outputs: Vec<Varying>,
}

fn payload(r: &mut Reader) -> Read<Option<u32>> {
    let w = r.word(9)?;
    let size = bits(w, 25, 0);
    if bit(w, 26) {
        Ok(Some(size))
    } else {
        ensure(size == 0)?;
        Ok(None)
    }
}

fn name(r: &mut Reader, count: u32) -> Read<Vec<u8>> {
    let words = r.many(count.div_ceil(4), Reader::any)?;
    let mut bytes: Vec<u8> = words.iter().flat_map(|w| w.to_le_bytes()).collect();
    let padding = bytes.split_off(count as usize);
    ensure(bytes.iter().all(|b| *b != 0) && padding.iter().all(|b| *b == 0))?;
    Ok(bytes)
}

fn entry_point(r: &mut Reader, resources: &[Resource]) -> Read<EntryPoint> {
    let head = r.word(7)?;
    only(head, &[(26, 24), (22, 16), (1, 0)])?;
    let stage = bits(head, 26, 24);
    let count = bits(head, 22, 16);
    ensure(stage <= 4 && (1..=64).contains(&count))?;
    let name = name(r, count)?;
    let workgroup = [r.number(8)?, r.number(8)?, r.number(8)?];
    let payload = payload(r)?;
    let mesh = if bit(head, 1) {
        let record = MeshRecord { vertices: r.number(10)?, primitives: r.number(10)?, topology: r.number(10)? };
        ensure(record.topology <= 4)?;
        Some(record)
    } else {
        None
    };

    let counts = r.word(15)?;
    only(counts, &[(23, 0)])?;
    let list = r.many(bits(counts, 23, 18), |r| {
        let index = r.number(5)? as usize;
        ensure(index < resources.len())?;
        Ok(index)
    })?;
    let pairs = r.many(bits(counts, 17, 12), |r| {
        let w = r.word(5)?;
        only(w, &[(15, 0)])?;
        let pair = (bits(w, 15, 8) as usize, bits(w, 7, 0) as usize);
        ensure(list.contains(&pair.0) && list.contains(&pair.1))?;
        ensure(match resources[pair.0].ty {
            ResourceTy::Texture { class, .. } => !matches!(class, Class::Storage { .. }),
            _ => false,
        })?;
        ensure(matches!(resources[pair.1].ty, ResourceTy::Sampler { .. }))?;
        Ok(pair)
    })?;
    let inputs = r.many(bits(counts, 11, 6), varying)?;
    let outputs = r.many(bits(counts, 5, 0), varying)?;
    let clips = |list: &[Varying]| list.iter().filter(|v| matches!(v, Varying::ClipDistances { .. })).count();
    ensure(clips(&inputs) == 0 && clips(&outputs) <= 1)?;
    Ok(EntryPoint {
        stage,
        name,
        dual: bit(head, 0),
        workgroup,
        payload,
        mesh,
        resources: list,
        pairs,
        inputs,
        outputs,
    })
}

#[derive(Clone, Debug)]
pub struct Pack {
    pub limits: Vec<u32>,
    pub resources: Vec<Resource>,
    pub entry_points: Vec<EntryPoint>,
}

fn body(words: &[u32]) -> Read<Pack> {
    let mut r = Reader(words);
    let head = r.word(1)?;
    ensure(bits(head, 26, 16) == 1)?;
    let counts = r.word(2)?;
    let (resource_count, entry_count) = (bits(counts, 26, 16), bits(counts, 15, 0));
    ensure(resource_count <= 128 && entry_count <= 16)?;
    let limits = r.many(13, |r| r.number(3))?;
    let resources = r.many(resource_count, resource)?;
    let entry_points = r.many(entry_count, |r| entry_point(r, &resources))?;
    ensure(r.0.is_empty())?;
    for (i, e) in entry_points.iter().enumerate() {
        ensure(!entry_points[..i].iter().any(|o| o.stage == e.stage && o.name == e.name))?;
    }
    Ok(Pack { limits, resources, entry_points })
}

/// A module pack, or refusal 1 or 2.
pub fn pack(words: &[u32]) -> Result<Pack, u32> {
    if !(16..=4096).contains(&words.len()) || bits(words[0], 15, 0) as usize != words.len() {
        return Err(1);
    }
    let (closing, rest) = words.split_last().unwrap();
    if rest.iter().fold(0u32, |sum, w| sum.wrapping_add(*w)) != *closing {
        return Err(1);
    }
    body(rest).map_err(|Bad| 2)
}

#[derive(Clone, Copy, Debug)]
pub enum LayoutTy {
    Buffer { storage: bool, read_only: bool, dynamic: bool },
    Sampler { code: u32 },
    Texture { view: u32, multi: bool, sample: u32 },
    Storage { view: u32, format: u32, access: u32 },
    External,
    Acceleration { vertex_return: bool },
}

impl LayoutTy {
    pub fn word(self) -> u32 {
        let (ty, content) = match self {
            LayoutTy::Buffer { storage, read_only, dynamic } => {
                (0, storage as u32 | (read_only as u32) << 1 | (dynamic as u32) << 2)
            }
            LayoutTy::Sampler { code } => (1, code),
            LayoutTy::Texture { view, multi, sample } => (2, view | (multi as u32) << 3 | sample << 4),
            LayoutTy::Storage { view, format, access } => (4, view | format << 8 | access << 16),
            LayoutTy::External => (5, 0),
            LayoutTy::Acceleration { vertex_return } => (6, vertex_return as u32),
        };
        18 << 27 | ty << 23 | content
    }
}

#[derive(Clone, Copy, Debug)]
pub struct LayoutEntry {
    pub place: Place,
    pub ty: LayoutTy,
    /// 0 for none.
    pub least: u32,
    pub visibility: u32,
}

impl LayoutEntry {
    pub fn words(self) -> [u32; 4] {
        [self.place.word(), self.ty.word(), 6 << 27 | self.least, 19 << 27 | self.visibility]
    }
}

fn layout_entry(r: &mut Reader) -> Read<LayoutEntry> {
    let place = place(r)?;
    let w = r.word(18)?;
    const TYPE: (u32, u32) = (26, 23);
    let view = bits(w, 2, 0);
    let ty = match bits(w, 26, 23) {
        0 => {
            only(w, &[TYPE, (2, 0)])?;
            let (storage, read_only) = (bit(w, 0), bit(w, 1));
            ensure(storage || !read_only)?;
            LayoutTy::Buffer { storage, read_only, dynamic: bit(w, 2) }
        }
        1 => {
            only(w, &[TYPE, (1, 0)])?;
            let code = bits(w, 1, 0);
            ensure(code <= 2)?;
            LayoutTy::Sampler { code }
        }
        2 => {
            only(w, &[TYPE, (6, 0)])?;
            let sample = bits(w, 6, 4);
            ensure(view <= 5 && sample <= 4)?;
            LayoutTy::Texture { view, multi: bit(w, 3), sample }
        }
        4 => {
            only(w, &[TYPE, (17, 16), (14, 8), (2, 0)])?;
            let format = bits(w, 14, 8);
            ensure(view <= 5 && format <= 76)?;
            LayoutTy::Storage { view, format, access: bits(w, 17, 16) }
        }
        5 => {
            only(w, &[TYPE])?;
            LayoutTy::External
        }
        6 => {
            only(w, &[TYPE, (0, 0)])?;
            LayoutTy::Acceleration { vertex_return: bit(w, 0) }
        }
        _ => return Err(Bad),
    };
    let least = r.number(6)?;
    ensure(least == 0 || matches!(ty, LayoutTy::Buffer { .. }))?;
    let v = r.word(19)?;
    only(v, &[(4, 0)])?;
    Ok(LayoutEntry { place, ty, least, visibility: bits(v, 4, 0) })
}

/// A layout entry alone.
pub fn lone_entry(words: &[u32]) -> Read<LayoutEntry> {
    let mut r = Reader(words);
    let found = layout_entry(&mut r)?;
    ensure(r.0.is_empty())?;
    Ok(found)
}

fn distinct(places: impl Iterator<Item = Place>) -> Read<()> {
    let mut seen = std::collections::HashSet::new();
    for p in places {
        ensure(seen.insert(p))?;
    }
    Ok(())
}

const MOST_LIST_WORDS: usize = 1024;

#[derive(Clone, Debug)]
pub struct Layout {
    pub groups: u32,
    pub entries: Vec<LayoutEntry>,
}

pub fn layout(words: &[u32]) -> Read<Layout> {
    ensure(words.len() <= MOST_LIST_WORDS)?;
    let mut r = Reader(words);
    let head = r.word(17)?;
    let groups = bits(head, 26, 16);
    ensure(groups <= 8)?;
    let entries = r.many(bits(head, 15, 0), layout_entry)?;
    ensure(entries.iter().all(|e| e.place.group < groups))?;
    distinct(entries.iter().map(|e| e.place))?;
    Ok(Layout { groups, entries })
}

pub fn sizes(words: &[u32]) -> Read<Vec<(Place, u32)>> {
    ensure(words.len() <= MOST_LIST_WORDS)?;
    let mut r = Reader(words);
    let head = r.word(20)?;
    only(head, &[(15, 0)])?;
    let records = r.many(bits(head, 15, 0), |r| {
        let record = (place(r)?, r.number(6)?);
        ensure(record.1 >= 1)?;
        Ok(record)
    })?;
    distinct(records.iter().map(|s| s.0))?;
    Ok(records)
}

/// What the asked type or a member of a struct is bound to.
#[derive(Clone, Copy, Debug)]
pub enum Binding {
    Location { location: u32, interpolation: u32, sampling: u32, per_primitive: bool },
    BuiltIn { code: BuiltInCode, places: u32 },
    ClipDistances,
}

fn type_binding(r: &mut Reader) -> Read<Option<Binding>> {
    match r.0.first().ok_or(Bad)? >> 27 {
        6 => {
            ensure(r.number(6)? == 0)?;
            Ok(None)
        }
        12 => {
            let location = r.number(12)?;
            let w = r.word(13)?;
            only(w, &[(18, 18), (17, 15), (14, 12)])?;
            let (interpolation, sampling) = how(w)?;
            Ok(Some(Binding::Location { location, interpolation, sampling, per_primitive: bit(w, 18) }))
        }
        _ => Ok(Some(match built_in(r)? {
            Varying::BuiltIn { code, places } => Binding::BuiltIn { code, places },
            Varying::ClipDistances { array_size } => {
                ensure(array_size == 0)?;
                Binding::ClipDistances
            }
            Varying::Local(_) => unreachable!("no built-in is local"),
        })),
    }
}

/// A binding alone.
pub fn lone_binding(words: &[u32]) -> Read<Option<Binding>> {
    let mut r = Reader(words);
    let found = type_binding(&mut r)?;
    ensure(r.0.is_empty())?;
    Ok(found)
}

#[derive(Clone, Debug)]
pub enum Type {
    Numeric(NumericTy),
    Array { element: usize, length: u32 },
    Struct(Vec<Member>),
}

#[derive(Clone, Copy, Debug)]
pub struct Member {
    pub ty: usize,
    pub binding: Option<Binding>,
}

/// The type with this number in its list; `before` types stand before it.
fn type_record(r: &mut Reader, before: usize) -> Read<Type> {
    let earlier = |n: u32| if (n as usize) < before { Ok(n as usize) } else { Err(Bad) };
    let w = r.any()?;
    Ok(match w >> 27 {
        22 => {
            only(w, &[(9, 0)])?;
            Type::Numeric(numeric(w)?)
        }
        23 => {
            only(w, &[(15, 0)])?;
            Type::Array { element: earlier(bits(w, 15, 0))?, length: r.number(6)? }
        }
        24 => {
            only(w, &[(15, 0)])?;
            Type::Struct(
                r.many(bits(w, 15, 0), |r| Ok(Member { ty: earlier(r.number(5)?)?, binding: type_binding(r)? }))?,
            )
        }
        _ => return Err(Bad),
    })
}

/// A type list. Where clip distances stand is not looked at.
pub fn type_list(words: &[u32]) -> Read<Vec<Type>> {
    ensure(words.len() <= MOST_LIST_WORDS)?;
    let mut r = Reader(words);
    let head = r.word(21)?;
    only(head, &[(15, 0)])?;
    let count = bits(head, 15, 0) as usize;
    ensure(count <= 256)?;
    (0..count).map(|before| type_record(&mut r, before)).collect()
}

#[derive(Clone, Debug)]
pub struct StageList {
    /// 0 none, 1 false, 2 true.
    pub primitive_index: u32,
    pub payload: Option<u32>,
    pub varyings: Vec<Var>,
}

pub fn stage_list(words: &[u32]) -> Read<StageList> {
    ensure(words.len() <= MOST_LIST_WORDS)?;
    let mut r = Reader(words);
    let head = r.word(11)?;
    only(head, &[(26, 25), (15, 0)])?;
    let (primitive_index, count) = (bits(head, 26, 25), bits(head, 15, 0));
    ensure(primitive_index <= 2 && count <= 63)?;
    let payload = payload(&mut r)?;
    let varyings = r.many(count, local)?;
    ensure(varyings.windows(2).all(|v| v[0].location < v[1].location))?;
    Ok(StageList { primitive_index, payload, varyings })
}
