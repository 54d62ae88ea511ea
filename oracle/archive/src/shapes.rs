//! The calls that are counted: small ones, middle ones, the largest, and a series of growing packs; and type lists, of which
//! the largest are made to take long.

use cases::{PopulateCall, StageCall};
use gen::build::*;
use gen::types::{Binding, List, Type, F32};
use model::binding;

/// A vector of four f32.
const VEC4: u32 = 3 | 2 << 4 | 4 << 6;
const PER_VERTEX: u32 = 4 << 12;

/// How much of everything a pack has.
#[derive(Clone, Copy)]
pub struct Measure {
    pub resources: u32,
    pub entries: u32,
    pub listed: u32,
    pub pairs: usize,
    pub varyings: u32,
    pub name: usize,
    pub sorts: Sorts,
}

#[derive(Clone, Copy)]
pub enum Sorts {
    /// Uniform buffers, storage buffers, textures and samplers in turn.
    InTurn,
    /// Of the target's resources one texture, one sampler and else buffers: each pair and each buffer is looked up.
    Buffers,
}

fn resource(sorts: Sorts, i: u32) -> Resource {
    let (uniform, storage, texture, sampler) = (0, 1 << 3 | 1, 2 << 23 | 1, 1 << 23);
    let ty = match sorts {
        Sorts::InTurn => [uniform, storage, texture, sampler][i as usize % 4],
        Sorts::Buffers if i == 76 => texture,
        Sorts::Buffers if i == 77 => sampler,
        Sorts::Buffers => uniform,
    };
    Resource { place: place(i % 8, i), ty, size: 16 * (i + 1) }
}

/// An entry point; its names differ in the last byte only, so that telling them apart takes longest.
fn entry_point(m: &Measure, stage: u32, number: u32) -> EntryPoint {
    let resources: Vec<u32> = (0..m.listed).map(|i| (number + i) % m.resources).collect();
    let of = |sort: u32| resources.iter().copied().filter(move |i| resource(m.sorts, *i).sort() == sort);
    let mut pairs: Vec<(u32, u32)> = of(2).flat_map(|t| of(1).map(move |s| (t, s))).take(m.pairs).collect();
    if let Some(last) = pairs.last() {
        pairs.resize(m.pairs, *last);
    }
    let mut name = vec![b'a'; m.name];
    *name.last_mut().unwrap() = b'a' + number as u8;
    // The last input is per vertex, which only triangles allow.
    let locals = (0..m.varyings).map(|i| Varying::Local(i, if i + 1 < m.varyings { VEC4 } else { VEC4 | PER_VERTEX }));
    let (inputs, outputs) = match stage {
        2 => (vec![Varying::BuiltIn(0, 0)], Vec::new()),
        _ => (locals.clone().collect(), locals.collect()),
    };
    let workgroup = if stage == 2 { [8, 8, 1] } else { [0; 3] };
    EntryPoint { stage, name, workgroup, payload: None, mesh: None, dual: false, resources, pairs, inputs, outputs }
}

/// A pack; the entry points' stages are taken from the list in turn.
pub fn pack(m: &Measure, stages: &[u32]) -> Pack {
    let limits = [64, 63, 256, 256, 64, 256, 128, 1024, 128, 1024, 256, 256, 16384];
    let resources = (0..m.resources).map(|i| resource(m.sorts, i)).collect();
    let entries = (0..m.entries).map(|e| entry_point(m, stages[e as usize % stages.len()], e)).collect();
    Pack { limits, resources, entries }
}

/// How the lists of a call are filled beside what it needs.
#[derive(Clone, Copy)]
pub struct Beside {
    pub layout: usize,
    pub sizes: usize,
    pub inputs: usize,
    /// Whether the places beside share one mark, so that each is compared with all behind it.
    pub one_mark: bool,
    /// Whether what is asked for stands in the opposite order, so that each look-up searches.
    pub reversed: bool,
}

pub const NOTHING: Beside = Beside { layout: 0, sizes: 0, inputs: 0, one_mark: false, reversed: false };
pub const FULL: Beside = Beside { layout: 255, sizes: 511, inputs: 63, one_mark: false, reversed: false };

impl Beside {
    /// A place that no resource has.
    fn place(&self, i: usize) -> u32 {
        match (128 + i as u32, self.one_mark) {
            (n, false) => place(n % 8, n),
            (n, true) => place(0, 1024 * n),
        }
    }

    /// The listed resources in the order in which the lists have them.
    fn listed<'a>(&self, pack: &'a Pack, e: &EntryPoint) -> Vec<(u32, &'a Resource)> {
        let mut out: Vec<_> = e.resources.iter().map(|i| (*i, &pack.resources[*i as usize])).collect();
        if self.reversed {
            out.reverse();
        }
        out
    }
}

/// In provided mode the entries of all listed resources, in derived mode room for them, behind others.
fn layout(pack: &Pack, e: &EntryPoint, mode: u32, beside: &Beside) -> Layout {
    let mut out = Layout { groups: 8, entries: Vec::new(), free: Vec::new() };
    for i in e.resources.len()..beside.layout {
        out.entries.push(LayoutEntry { place: beside.place(i), ty: 0, least: 64, visibility: 31 });
    }
    for (index, r) in beside.listed(pack, e) {
        let named = e.pairs.iter().any(|p| p.0 == index);
        let (ty, least) = binding::derive(r.ty, r.size, named).unwrap();
        match mode {
            0 => out.entries.push(LayoutEntry { place: r.place, ty, least, visibility: 31 }),
            _ => out.free.extend([0; 4]),
        }
    }
    out
}

/// Room for the records of the listed buffers, or behind others the records themselves, with a smaller size.
fn sizes(pack: &Pack, e: &EntryPoint, mode: u32, beside: &Beside) -> Sizes {
    let listed = beside.listed(pack, e).into_iter().map(|(_, r)| r);
    let buffers: Vec<&Resource> = listed.filter(|r| r.sort() == 0).collect();
    let mut out = Sizes { records: Vec::new(), free: Vec::new() };
    for i in buffers.len()..beside.sizes {
        out.records.push((beside.place(i), 64));
    }
    match (mode, beside.sizes) {
        (0, 0) => out.free = vec![0; 2 * buffers.len()],
        _ => out.records.extend(buffers.iter().map(|r| (r.place, 1))),
    }
    out
}

/// What the entry point takes in, with others behind.
fn inputs(e: &EntryPoint, beside: &Beside) -> StageList {
    let mut varyings: Vec<(u32, u32)> = Vec::new();
    for v in &e.inputs {
        if let Varying::Local(location, ty) = *v {
            varyings.push((location, ty));
        }
    }
    for i in varyings.len()..beside.inputs {
        varyings.push((100 + i as u32, VEC4));
    }
    StageList { primitive_index: 0, payload: None, varyings, free: Vec::new() }
}

/// An accepted call on one entry point.
pub fn call(pack: &Pack, target: usize, mode: u32, beside: Beside) -> StageCall {
    let e = &pack.entries[target];
    let locals = e.outputs.iter().filter(|v| v.is_local()).count();
    StageCall {
        pack: pack.words(),
        layout: layout(pack, e, mode, &beside).words(),
        sizes: sizes(pack, e, mode, &beside).words(),
        inputs: inputs(e, &beside).words(),
        out: vec![0; 2 + 2 * locals],
        name: e.name.clone(),
        stage: e.stage,
        topology: 3,
        mode,
        dual: 0,
        depth: 0,
    }
}

/// The same call refused as late as can be: 78 for a per-vertex input without triangles, 41 for a compute stage.
pub fn refused_late(pack: &Pack, target: usize, mode: u32, beside: Beside) -> StageCall {
    let mut pack = pack.clone();
    if pack.entries[target].stage == 2 {
        pack.entries[target].workgroup[2] = 0;
    }
    StageCall { topology: 1, ..call(&pack, target, mode, beside) }
}

/// The largest pack: 4,096 words, 128 resources, 16 entry points of one stage, the last of them with all lists full.
pub fn largest(sorts: Sorts) -> Pack {
    let full = Measure { resources: 128, entries: 16, listed: 63, pairs: 63, varyings: 63, name: 64, sorts };
    let mut p = pack(&Measure { listed: 8, pairs: 4, varyings: 8, ..full }, &[1]);
    p.entries[15] = entry_point(&full, 1, 15);
    gen::stage::fill_to(&mut p, 15, 4096);
    p
}

/// All calls, with their labels.
pub fn all() -> Vec<(String, StageCall)> {
    let sorts = Sorts::InTurn;
    let smallest = Measure { resources: 1, entries: 1, listed: 1, pairs: 0, varyings: 0, name: 4, sorts };
    let small = Measure { resources: 4, entries: 1, listed: 4, pairs: 1, varyings: 2, name: 4, sorts };
    let middle = Measure { resources: 12, entries: 4, listed: 8, pairs: 4, varyings: 6, name: 10, sorts };
    let upper = Measure { resources: 24, entries: 6, listed: 12, pairs: 6, varyings: 8, name: 12, sorts };
    let (in_turn, buffers) = (largest(sorts), largest(Sorts::Buffers));
    let calls = [
        ("smallest vertex", pack(&smallest, &[0]), 0, NOTHING),
        ("small vertex", pack(&small, &[0]), 0, NOTHING),
        ("small fragment", pack(&small, &[1]), 0, NOTHING),
        ("small compute", pack(&small, &[2]), 0, NOTHING),
        ("middle vertex", pack(&middle, &[0, 1, 2]), 3, NOTHING),
        ("middle fragment", pack(&middle, &[0, 1, 2]), 1, NOTHING),
        ("middle compute", pack(&middle, &[0, 1, 2]), 2, NOTHING),
        ("upper middle fragment", pack(&upper, &[0, 1, 2]), 4, NOTHING),
        ("largest", in_turn, 15, FULL),
        ("largest, most look-ups", buffers.clone(), 15, FULL),
        ("largest, most look-ups, reversed", buffers.clone(), 15, Beside { reversed: true, ..FULL }),
        ("largest, one mark for all", buffers, 15, Beside { one_mark: true, ..FULL }),
    ];
    let mut out = Vec::new();
    for (label, pack, target, beside) in &calls {
        for (mode, said) in [(0, "provided"), (1, "derived")] {
            out.push((format!("{label}, {said}"), call(pack, *target, mode, *beside)));
            if matches!(*label, "small fragment" | "small compute" | "middle fragment" | "largest") {
                out.push((format!("{label}, {said}, refused late"), refused_late(pack, *target, mode, *beside)));
            }
        }
    }
    out
}

/// Packs of growing size with one small entry point asked for, an entry point that grows with its lists, and lists of which
/// nothing is asked for.
pub fn series() -> Vec<(String, StageCall)> {
    let (mut out, sorts) = (Vec::new(), Sorts::InTurn);
    for words in [64usize, 128, 256, 512, 1024, 2048, 4096] {
        let part = words as u32 / 64;
        let m = Measure {
            resources: (2 * part).clamp(4, 128),
            entries: part.clamp(2, 16),
            listed: 4,
            pairs: 1,
            varyings: 2,
            name: 8,
            sorts,
        };
        let mut p = pack(&m, &[1]);
        gen::stage::fill_to(&mut p, 0, words);
        out.push((format!("growing pack, {words}"), call(&p, 0, 0, NOTHING)));
    }
    for n in [4u32, 8, 16, 32, 63] {
        let m = Measure { resources: 2 * n, entries: 1, listed: n, pairs: n as usize / 4, varyings: n, name: 8, sorts };
        let beside = Beside { layout: 4 * n as usize, sizes: 8 * n as usize, inputs: n as usize, one_mark: false, reversed: false };
        out.push((format!("growing entry point and lists, {n}"), call(&pack(&m, &[1]), 0, 0, beside)));
    }
    let m = Measure { resources: 1, entries: 1, listed: 0, pairs: 0, varyings: 0, name: 4, sorts };
    for (said, layout, sizes, one_mark) in [
        ("empty lists", 0, 0, false),
        ("255 entries", 255, 0, false),
        ("511 sizes", 0, 511, false),
        ("511 sizes with one mark", 0, 511, true),
    ] {
        let beside = Beside { layout, sizes, one_mark, ..NOTHING };
        out.push((format!("no resources, {said}"), call(&pack(&m, &[0]), 0, 0, beside)));
    }
    out
}

type Member = (u32, Binding);

fn located(ty: u32, location: u32) -> Member {
    (ty, Binding::Local(location, 0))
}

fn unbound(ty: u32) -> Member {
    (ty, Binding::None)
}

/// A call that asks for the last type of a list, with room for all varyings that are let through.
fn populate_call(list: List) -> PopulateCall {
    PopulateCall {
        asked: list.types.len() as u32 - 1,
        types: list.words(),
        binding: Binding::None.words(),
        out: vec![0; 126],
    }
}

/// Vectors at eight locations.
fn eight_members() -> List {
    let mut list = List::new((0..4).map(|shape| Type::Numeric(F32 | shape)));
    list.add(Type::Struct((0..8).map(|i| located(i % 4, i)).collect()));
    list
}

/// 63 varyings, eight structs deep: three members, that struct seven times, that one three times, and five around it.
fn nested() -> List {
    let mut list = List::new([Type::Numeric(F32 | 3)]);
    let mut last = list.add(Type::Struct((0..3).map(|i| located(0, i)).collect()));
    for times in [7, 3, 1, 1, 1, 1, 1] {
        last = list.add(Type::Struct(vec![unbound(last); times]));
    }
    list
}

/// Up to 1,024 words, eight structs deep: a chain of structs with one varying at its end, and structs above that name the chain
/// so many times in turn. The chain has as many members as there is room for. All but the last of each struct are of type 1
/// and give nothing.
fn chains((idle, binding): (Type, Binding), above: &[usize]) -> List {
    let mut list = List::new([Type::Numeric(F32), idle]);
    let length = 8 - above.len() - list.nesting(1) as usize;
    // The first words, the structs above, the heads of the chain, and one word more for the location.
    let taken = list.words().len() + above.iter().map(|times| 1 + 2 * times).sum::<usize>() + length + 1;
    let members = (1024 - taken) / 2;
    let mut last = located(0, 0);
    for level in 0..length {
        let mut made = vec![(1, binding); members / length + (level < members % length) as usize - 1];
        made.push(last);
        last = unbound(list.add(Type::Struct(made)));
    }
    for times in above {
        last = unbound(list.add(Type::Struct(vec![last; *times])));
    }
    list
}

/// All 256 types, structs of one member as far as the words last.
fn most_types() -> List {
    let mut list = List::new([Type::Numeric(F32)]);
    while list.types.len() < 256 {
        list.add(Type::Struct(vec![located(0, list.types.len() as u32)]));
    }
    list
}

/// As many members with a location as fit, many more than are let through.
fn most_members() -> List {
    List::new([Type::Numeric(F32), Type::Struct((0..340).map(|i| located(0, i)).collect())])
}

/// Seven levels of structs that name the one before 72 times, over one without members: a walk that enters them all takes
/// 72 to the power 7 steps and finds nothing.
fn nothing_given() -> List {
    let mut list = List::new([Type::Struct(Vec::new())]);
    for last in 0..7 {
        list.add(Type::Struct(vec![unbound(last); 72]));
    }
    list
}

/// Calls of `populate`, with their labels.
pub fn populate() -> Vec<(String, PopulateCall)> {
    let scalar = || (Type::Numeric(F32), Binding::None);
    let empty = || (Type::Struct(Vec::new()), Binding::None);
    let array = || (Type::Array(0, 4), Binding::BuiltIn(0, 0));
    [
        ("eight members", eight_members()),
        ("nested", nested()),
        ("63 chains of seven, unbound members", chains(scalar(), &[63])),
        ("63 chains of five, unbound members", chains(scalar(), &[7, 3, 3])),
        ("63 chains of four, empty structs", chains(empty(), &[7, 3, 3])),
        ("63 chains of five, arrays", chains(array(), &[7, 3, 3])),
        ("most types", most_types()),
        ("most members", most_members()),
        ("structs that give nothing", nothing_given()),
    ]
    .map(|(label, list)| (format!("populate, {label}"), populate_call(list)))
    .into()
}
