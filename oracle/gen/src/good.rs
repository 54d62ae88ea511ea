//! Calls that are accepted, or nearly always: realistic packs with lists that fit them.

use crate::build::*;
use crate::rng::Rng;
use model::binding;

const F32: u32 = 2 << 4 | 4 << 6;

pub fn numeric_type(rng: &mut Rng) -> u32 {
    match rng.below(4) {
        0 => F32,
        1 => F32 | rng.range(1, 3),
        2 => rng.below(4) | rng.below(3) << 4 | 4 << 6,
        _ => rng.below(13) | rng.below(4) << 4 | rng.pick(&[1, 2, 4, 8]) << 6,
    }
}

pub fn storable_format(rng: &mut Rng) -> u32 {
    loop {
        let code = match rng.below(4) {
            0 => rng.pick(&[27, 29, 30, 32]),
            1 => rng.pick(&[0, 3, 6, 14, 42]),
            _ => rng.below(43),
        };
        if binding::storable(code) {
            return code;
        }
    }
}

pub fn a_place(rng: &mut Rng) -> u32 {
    let group = if rng.once_in(12) { rng.below(8) } else { rng.below(3) };
    let binding = match rng.below(16) {
        0 => 0x7f_ffff - rng.below(3),
        1 => rng.below(0x80_0000),
        _ => rng.below(24),
    };
    place(group, binding)
}

pub fn a_size(rng: &mut Rng) -> u32 {
    match rng.below(8) {
        0 => 1,
        1 => 0x7ff_ffff - rng.below(2),
        2 => rng.range(1, 0x7ff_ffff),
        3 => 64,
        _ => 16 * rng.range(1, 40),
    }
}

/// A resource's type. With `fits` one that some layout entry fits.
pub fn resource_type(rng: &mut Rng, fits: bool) -> u32 {
    let odd = !fits;
    let dims = if odd { rng.below(8) } else { rng.pick(&[0, 1, 1, 1, 2, 3, 5, 5, 7]) };
    match rng.below(20) {
        0..=4 => 0,
        5..=8 => {
            if odd {
                rng.pick(&[8, 9, 10, 11, 12, 13, 14, 15, 16])
            } else {
                rng.pick(&[9, 11])
            }
        }
        9..=11 => 1 << 23 | rng.once_in(3) as u32,
        12..=15 => 2 << 23 | rng.pick(&[0, 0, 0, 1, 2]) << 4 | (rng.once_in(4) as u32) << 3 | dims,
        16 => 3 << 23 | (rng.once_in(3) as u32) << 3 | dims,
        17 => {
            let access = if odd { rng.range(1, 7) } else { rng.pick(&[1, 2, 3, 7]) };
            4 << 23 | access << 16 | storable_format(rng) << 8 | dims
        }
        18 => 5 << 23 | if odd { dims } else { 1 },
        _ => 6 << 23 | rng.below(2),
    }
}

pub fn a_resource(rng: &mut Rng) -> Resource {
    let fits = !rng.once_in(30);
    Resource { place: a_place(rng), ty: resource_type(rng, fits), size: a_size(rng) }
}

pub fn a_name(rng: &mut Rng) -> Vec<u8> {
    match rng.below(12) {
        0 => b"m".to_vec(),
        1 => b"mai".to_vec(),
        2 => b"main1".to_vec(),
        3 => "entrée_é".as_bytes().to_vec(),
        4 => (0..64).map(|_| b'a' + rng.below(3) as u8).collect(),
        5 => {
            let n = rng.range(1, 64);
            (0..n).map(|_| b'a' + rng.below(26) as u8).collect()
        }
        6 => b"vs_main".to_vec(),
        7 => b"fs_main".to_vec(),
        _ => b"main".to_vec(),
    }
}

pub fn room(rng: &mut Rng, count: usize) -> Vec<u32> {
    let sort = rng.below(3);
    (0..count)
        .map(|_| match sort {
            0 => 0,
            1 => rng.word(),
            _ => word(rng.pick(&[4, 6, 18, 19, 12, 13]), rng.word()),
        })
        .collect()
}

pub fn limits(rng: &mut Rng) -> [u32; 13] {
    let mut l = [16, 8, 256, 256, 64, 256, 128, 1024, 128, 1024, 256, 256, 16384];
    if rng.once_in(3) {
        l[INTER_STAGE] = rng.pick(&[1, 2, 3, 4, 5, 8, 15, 31, 60]);
        l[COLOURS] = rng.pick(&[0, 1, 2, 4, 8, 63]);
    }
    if rng.once_in(3) {
        for at in 2..10 {
            l[at] = rng.range(1, 12);
        }
        l[5] = rng.range(1, 300);
        l[7] = rng.range(1, 300);
        l[9] = rng.range(1, 300);
    }
    if rng.once_in(3) {
        for at in 10..13 {
            l[at] = rng.range(0, 200);
        }
    }
    if rng.once_in(40) {
        l[rng.index(13)] = 0x7ff_ffff;
    }
    l
}

fn local_word(rng: &mut Rng, per_vertex: bool) -> u32 {
    let mut ty = numeric_type(rng);
    if rng.flip() {
        ty |= rng.range(0, 3) << 12 | rng.range(0, 5) << 15;
    }
    if per_vertex && rng.once_in(6) {
        ty = ty & !0x7000 | 4 << 12;
    }
    if rng.once_in(8) {
        ty |= 1 << 18;
    }
    ty
}

/// Distinct locations below `limit`, at most `most` of them.
pub fn locations(rng: &mut Rng, limit: u32, most: u32) -> Vec<u32> {
    let most = most.min(limit).min(63);
    let wanted = if rng.once_in(8) { most } else { rng.below(most.min(6) + 1) };
    let mut out: Vec<u32> = if limit <= 512 { (0..limit).collect() } else { (0..512).collect() };
    if rng.flip() {
        rng.shuffle(&mut out);
    }
    out.truncate(wanted as usize);
    out
}

/// What is fixed before an entry point is made.
pub struct Setting {
    pub limits: [u32; 13],
    pub topology: u32,
}

fn workgroup(rng: &mut Rng, limits: &[u32; 13], stage: u32) -> [u32; 3] {
    let Some([x, y, z, total]) = workgroup_limits(stage) else {
        return if rng.once_in(4) { [rng.below(300), 0, 1] } else { [1, 1, 1] };
    };
    let mut left = limits[total].max(1);
    let mut out = [1; 3];
    let mut order = [0, 1, 2];
    rng.shuffle(&mut order);
    for i in order {
        let most = limits[[x, y, z][i]].min(left).max(1);
        out[i] = if rng.once_in(3) { most } else { rng.range(1, most) };
        left /= out[i];
    }
    out
}

pub fn an_entry_point(rng: &mut Rng, resources: &[Resource], setting: &Setting, stage: u32) -> EntryPoint {
    let limits = &setting.limits;
    let triangles = matches!(setting.topology, 3 | 4);

    let mut list: Vec<u32> = (0..resources.len() as u32).collect();
    rng.shuffle(&mut list);
    let wanted = if rng.once_in(6) { 63 } else { rng.range(0, 5) };
    list.truncate(wanted as usize);
    if rng.once_in(40) && !list.is_empty() && list.len() < 60 {
        list.push(list[0]);
    }
    let of = |want: fn(&Resource) -> bool| -> Vec<u32> {
        list.iter().copied().filter(|i| want(&resources[*i as usize])).collect()
    };
    let (textures, samplers) = (of(Resource::is_texture), of(|r| r.sort() == 1));
    let mut pairs = Vec::new();
    if !textures.is_empty() && !samplers.is_empty() {
        for _ in 0..rng.range(0, 3) {
            pairs.push((rng.pick(&textures), rng.pick(&samplers)));
        }
    }

    let (mut inputs, mut outputs) = (Vec::new(), Vec::new());
    let locals = |rng: &mut Rng, limit: u32, most: u32, into: &mut Vec<Varying>, per_vertex: bool| {
        for location in locations(rng, limit, most) {
            into.push(Varying::Local(location, local_word(rng, per_vertex)));
        }
    };
    match stage {
        0 => {
            locals(rng, 63, 63, &mut inputs, triangles);
            for v in &mut inputs {
                if let Varying::Local(_, ty) = v {
                    *ty &= !(1 << 18);
                }
            }
            if rng.once_in(3) && inputs.len() < 60 {
                inputs.push(Varying::BuiltIn(rng.pick(&[0, 2]), 0));
            }
            let mut clip = 0;
            if rng.once_in(3) {
                let n = rng.range(0, 8);
                if n.div_ceil(4) + 2 < limits[INTER_STAGE] {
                    outputs.push(Varying::BuiltIn(4, n));
                    clip = n.div_ceil(4);
                }
            }
            if rng.flip() {
                outputs.push(Varying::BuiltIn(0, 0));
            }
            let limit = limits[INTER_STAGE];
            let point = (setting.topology == 0) as u32;
            let most = limit.saturating_sub(clip + point).min(60);
            locals(rng, limit - limit.min(clip), most, &mut outputs, false);
        }
        1 => {
            let mut taken = 0;
            for _ in 0..rng.below(3) {
                let places = rng.below(2);
                if taken + places < limits[INTER_STAGE] {
                    inputs.push(Varying::BuiltIn(0, places));
                    taken += places;
                }
            }
            if rng.once_in(3) && taken < limits[INTER_STAGE] {
                inputs.push(Varying::BuiltIn(1, 1));
                taken += 1;
            }
            let most = limits[INTER_STAGE].saturating_sub(taken).min(58);
            locals(rng, limits[INTER_STAGE], most, &mut inputs, triangles);
            locals(rng, limits[COLOURS], 60, &mut outputs, false);
            if rng.once_in(3) {
                outputs.push(Varying::BuiltIn(rng.pick(&[0, 3]), 0));
            }
        }
        _ => {
            for _ in 0..rng.below(4) {
                let code = if stage == 2 { 0 } else { rng.pick(&[0, 2]) };
                inputs.push(Varying::BuiltIn(code, 0));
            }
            if stage == 4 {
                locals(rng, 100, 60, &mut outputs, false);
                if rng.flip() {
                    outputs.push(Varying::BuiltIn(rng.pick(&[0, 1]), 0));
                }
            }
            if stage == 3 && rng.flip() {
                outputs.push(Varying::BuiltIn(0, 0));
            }
        }
    }
    rng.shuffle(&mut inputs);
    rng.shuffle(&mut outputs);

    let has_payload = if stage >= 3 { rng.flip() } else { rng.once_in(10) };
    let payload = has_payload.then(|| match rng.below(4) {
        0 => limits[PAYLOAD].min(0x3ff_ffff),
        1 => 0,
        _ => rng.below(limits[PAYLOAD].min(0x3ff_ffff) + 1),
    });
    let has_mesh = if stage == 4 { !rng.once_in(4) } else { rng.once_in(25) };
    let most = |rng: &mut Rng, at: usize| if rng.flip() { limits[at] } else { rng.below(limits[at] + 1) };
    let mesh = has_mesh.then(|| [most(rng, MESH_VERTICES), most(rng, MESH_PRIMITIVES), setting.topology.min(4)]);
    EntryPoint {
        stage,
        name: a_name(rng),
        workgroup: workgroup(rng, limits, stage),
        payload,
        mesh,
        dual: rng.flip(),
        resources: list,
        pairs,
        inputs,
        outputs,
    }
}

/// A layout entry's type and least size that a resource fits, if there is one.
pub fn fitting(rng: &mut Rng, r: &Resource, filtering: bool) -> (u32, u32) {
    let (mut ty, mut least) = binding::derive(r.ty, r.size, true).unwrap_or((0, 0));
    match r.sort() {
        0 => {
            ty |= (rng.once_in(3) as u32) << 2;
            least = match rng.below(4) {
                0 => 0,
                1 => r.size.saturating_add(1).min(0x7ff_ffff),
                _ => r.size,
            };
        }
        1 => {
            if ty & 3 == 0 && !filtering {
                ty |= 1;
            }
        }
        4 if ty >> 16 & 3 == 1 && rng.flip() => ty = ty & !(3 << 16) | 2 << 16,
        _ => (),
    }
    (ty, least)
}

fn layout(rng: &mut Rng, pack: &Pack, entry: &EntryPoint, derived: bool) -> Layout {
    let mut entries: Vec<LayoutEntry> = Vec::new();
    let stage_bit = 1 << entry.stage;
    for index in &entry.resources {
        let r = &pack.resources[*index as usize];
        if entries.iter().any(|e| e.place == r.place) {
            continue;
        }
        let (ty, least) = if derived {
            if !rng.once_in(3) {
                continue;
            }
            let named = entry.pairs.iter().any(|p| p.0 == *index);
            binding::derive(r.ty, r.size, named).unwrap_or((0, 0))
        } else {
            let with_integers = entry.pairs.iter().any(|(t, s)| {
                let texture = &pack.resources[*t as usize];
                s == index && texture.sort() == 2 && texture.ty >> 4 & 3 != 0
            });
            let filtering = !with_integers && !rng.once_in(4);
            let (mut ty, least) = fitting(rng, r, filtering);
            let unpaired = !entry.pairs.iter().any(|p| p.0 == *index);
            if r.sort() == 2 && r.ty >> 4 & 3 == 0 && unpaired && rng.flip() {
                ty |= 1 << 4;
            }
            (ty, least)
        };
        let visibility = if derived { rng.below(32) } else { rng.below(32) | stage_bit };
        entries.push(LayoutEntry { place: r.place, ty, least, visibility });
    }
    for _ in 0..rng.pick(&[0, 0, 1, 2, 5]) {
        let r = a_resource(rng);
        let taken = entries.iter().any(|e| e.place == r.place) || pack.resources.iter().any(|o| o.place == r.place);
        if !taken {
            let (ty, least) = fitting(rng, &r, true);
            let visibility = rng.below(32);
            entries.push(LayoutEntry { place: r.place, ty, least, visibility });
        }
    }
    rng.shuffle(&mut entries);
    let used = entries.iter().map(|e| group_of(e.place) + 1);
    let listed = entry.resources.iter().map(|i| group_of(pack.resources[*i as usize].place) + 1);
    let least = used.chain(listed).max().unwrap_or(0).min(8);
    let groups = if rng.flip() { 8 } else { least };
    let missing = entry.resources.len() * 4;
    let most = 1024 - 1 - 4 * entries.len();
    let extra = rng.index(9);
    let free = room(rng, (missing + extra).min(most));
    Layout { groups, entries, free }
}

fn sizes(rng: &mut Rng, pack: &Pack, entry: &EntryPoint) -> Sizes {
    let mut records: Vec<(u32, u32)> = Vec::new();
    for index in &entry.resources {
        let r = &pack.resources[*index as usize];
        if rng.once_in(3) && !records.iter().any(|s| s.0 == r.place) {
            let size = match rng.below(4) {
                0 => r.size,
                1 => r.size.saturating_sub(1).max(1),
                2 => (r.size + 1).min(0x7ff_ffff),
                _ => a_size(rng),
            };
            records.push((r.place, size));
        }
    }
    if rng.once_in(3) {
        let p = a_place(rng);
        if !records.iter().any(|s| s.0 == p) {
            records.push((p, a_size(rng)));
        }
    }
    rng.shuffle(&mut records);
    let extra = rng.index(5);
    let free = room(rng, entry.resources.len() * 2 + extra);
    Sizes { records, free }
}

fn wider(rng: &mut Rng, ty: u32) -> u32 {
    let (shape, width) = (ty & 15, ty >> 6 & 15);
    let width = if rng.once_in(3) { (width * 2).min(8) } else { width };
    let shape = if shape < 4 && rng.flip() { rng.range(shape, 3) } else { shape };
    ty & !0x3cf | shape | width << 6
}

fn stage_list(rng: &mut Rng, entry: &EntryPoint) -> StageList {
    let mut varyings: Vec<(u32, u32)> = Vec::new();
    for v in &entry.inputs {
        let Varying::Local(location, ty) = *v else {
            continue;
        };
        if varyings.iter().any(|g| g.0 == location) {
            continue;
        }
        let given = match entry.stage {
            0 => {
                let shape = if rng.flip() { rng.below(13) } else { ty & 15 };
                let width = if rng.once_in(3) { rng.pick(&[1, 2, 4, 8]) } else { ty >> 6 & 15 };
                let other = if rng.once_in(4) { rng.below(5) << 12 | rng.below(6) << 15 } else { 0 };
                ty & 0x30 | shape | width << 6 | other
            }
            _ => wider(rng, ty),
        };
        varyings.push((location, given));
    }
    for _ in 0..rng.pick(&[0, 0, 1, 4]) {
        let location = if rng.once_in(5) { rng.below(1 << 27) } else { rng.below(64) };
        if varyings.len() < 63 && !varyings.iter().any(|g| g.0 == location) {
            varyings.push((location, local_word(rng, true)));
        }
    }
    varyings.sort();
    let reads = entry.inputs.iter().any(|v| matches!(v, Varying::BuiltIn(1, _)));
    let primitive_index = match (entry.stage, reads) {
        (1, true) => rng.pick(&[0, 2]),
        (1, false) => rng.pick(&[0, 1]),
        _ => rng.below(3),
    };
    let draws = entry.inputs.iter().any(|v| matches!(v, Varying::BuiltIn(2, _)));
    let payload = match entry.stage {
        4 => entry.payload,
        _ => rng.once_in(5).then(|| rng.below(300)),
    };
    let payload = if entry.stage == 4 && draws { None } else { payload };
    let extra = rng.index(4);
    let free = room(rng, extra);
    StageList { primitive_index, payload, varyings, free }
}

/// Lists, codes and name that fit the target entry point of a pack.
pub fn a_call(rng: &mut Rng, pack: Pack, target: usize, topology: u32, mode: u32) -> Call {
    let entry = &pack.entries[target];
    let layout = layout(rng, &pack, entry, mode == 1);
    let sizes = sizes(rng, &pack, entry);
    let inputs = stage_list(rng, entry);
    let locals = entry.outputs.iter().filter(|v| v.is_local()).count();
    let extra = if rng.flip() { 0 } else { rng.index(6) };
    let out = room(rng, 2 + 2 * locals + extra);
    let depth = if entry.outputs.iter().any(|v| matches!(v, Varying::BuiltIn(3, _))) { 1 } else { rng.below(2) };
    let dual = if entry.dual { rng.below(2) } else { 0 };
    let (name, stage) = (entry.name.clone(), entry.stage);
    let mut call = Call { pack, target, layout, sizes, inputs, out, name, stage, topology, mode, dual, depth };
    if call.stage == 4 && call.inputs.payload.is_none() {
        call.entry_mut().payload = None;
    }
    call
}

/// A good call on a pack of usual size.
pub fn call(rng: &mut Rng) -> Call {
    let stage = rng.pick(&[0, 0, 0, 1, 1, 1, 2, 3, 4, 4]);
    let topology = match rng.below(12) {
        0 if stage != 0 => 5,
        1 | 2 => 0,
        _ => rng.below(5),
    };
    let mode = rng.below(2);
    let setting = Setting { limits: limits(rng), topology };

    let mut resources: Vec<Resource> = Vec::new();
    let wanted = match rng.below(30) {
        0 => rng.range(20, 128),
        1..=20 => rng.range(0, 4),
        _ => rng.range(3, 10),
    };
    for _ in 0..wanted {
        let mut r = a_resource(rng);
        if resources.iter().any(|o| o.place == r.place) {
            r.place = place(rng.below(8), rng.below(4096));
        }
        resources.push(r);
        if rng.once_in(50) {
            // A twin: the same place again, the same type or another size.
            r.size = if rng.flip() { a_size(rng) } else { r.size };
            resources.push(r);
        }
    }
    resources.truncate(128);

    let others = match rng.below(12) {
        0 => rng.range(4, 8),
        1..=6 => 0,
        _ => rng.range(1, 2),
    };
    let target = rng.index(others as usize + 1);
    let mut entries: Vec<EntryPoint> = Vec::new();
    for i in 0..=others as usize {
        let s = if i == target { stage } else { rng.below(5) };
        let mut e = an_entry_point(rng, &resources, &setting, s);
        while entries.iter().any(|o| o.stage == e.stage && o.name == e.name) {
            e.name.truncate(50);
            e.name.push(b'0' + rng.below(10) as u8);
        }
        if i != target && rng.flip() {
            e.resources.truncate(2);
            e.pairs.clear();
        }
        entries.push(e);
    }
    let pack = Pack { limits: setting.limits, resources, entries };
    a_call(rng, pack, target, topology, mode)
}
