//! The steps of one stage check, in document 01's order.

use crate::pack::{Entry, Pack, Varying};
use crate::{binding, leaf, lists, pack, Refused};
use cases::StageCall;

pub const VERTEX: u32 = 0;
pub const FRAGMENT: u32 = 1;
pub const COMPUTE: u32 = 2;
pub const TASK: u32 = 3;
pub const MESH: u32 = 4;

type Step = Result<(), Refused>;

fn refuse(number: u32, details: [u32; 3]) -> Step {
    Err(Refused { number, details })
}

fn codes_good(c: &StageCall) -> bool {
    c.stage <= 4 && c.topology <= 5 && c.mode <= 1 && c.dual <= 1 && c.depth <= 1
}

pub fn entry_of<'a>(pack: &'a Pack, stage: u32, name: &[u8]) -> Option<&'a Entry> {
    pack.entries.iter().find(|e| e.stage == stage && e.name == name)
}

fn locals(list: &[Varying]) -> impl Iterator<Item = (u32, u32)> + '_ {
    list.iter().filter_map(|v| match v {
        Varying::Local(location, ty) => Some((*location, *ty)),
        Varying::BuiltIn(_) => None,
    })
}

fn built_ins(list: &[Varying]) -> impl Iterator<Item = (u32, u32)> + '_ {
    list.iter().filter_map(|v| v.built_in())
}

fn has_built_in(list: &[Varying], code: u32) -> bool {
    built_ins(list).any(|b| b.0 == code)
}

/// Group and binding of a place word.
fn at_place(number: u32, place: u32) -> Refused {
    Refused { number, details: [place >> 23 & 15, place & 0x7f_ffff, 0] }
}

fn provided_resources(pack: &Pack, entry: &Entry, call: &mut StageCall) -> Step {
    for index in &entry.resources {
        let r = &pack.resources[*index];
        if r.ty >> 23 == 0 && !lists::record_size(&mut call.sizes, r.place, r.size) {
            return Err(at_place(5, r.place));
        }
        let Some(at) = lists::entry_at(&call.layout, r.place) else {
            return Err(at_place(20, r.place));
        };
        if call.layout[at + 3] >> call.stage & 1 == 0 {
            return Err(at_place(21, r.place));
        }
        let (ty, least) = (call.layout[at + 1] & 0x07ff_ffff, call.layout[at + 2] & 0x07ff_ffff);
        let number = binding::check_use(r.ty, r.size, ty, least);
        if number != 0 {
            return Err(at_place(number, r.place));
        }
    }
    Ok(())
}

fn derived_resources(pack: &Pack, entry: &Entry, call: &mut StageCall) -> Step {
    let groups = call.layout[0] >> 16 & 0x7ff;
    for index in &entry.resources {
        let r = &pack.resources[*index];
        if r.place >> 23 & 15 >= groups {
            return Err(at_place(20, r.place));
        }
        let named = entry.pairs.iter().any(|p| p.0 == *index);
        let (ty, least) = binding::derive(r.ty, r.size, named).map_err(|number| at_place(number, r.place))?;
        let (ty, least) = (18 << 27 | ty, 6 << 27 | least);
        match lists::entry_at(&call.layout, r.place) {
            Some(at) if call.layout[at + 1] != ty || call.layout[at + 2] != least => {
                return Err(at_place(29, r.place));
            }
            Some(at) => call.layout[at + 3] |= 1 << call.stage,
            None => {
                if !lists::push(&mut call.layout, &[r.place, ty, least, 19 << 27 | 1 << call.stage]) {
                    return Err(at_place(5, r.place));
                }
            }
        }
    }
    Ok(())
}

/// The refusal of one pair over a provided layout, or 0.
pub fn pair(pack: &Pack, layout: &[u32], (texture, sampler): (usize, usize)) -> u32 {
    let entry_type = |index: usize| {
        lists::entry_at(layout, pack.resources[index].place).map_or(u32::MAX, |at| layout[at + 1] & 0x07ff_ffff)
    };
    let filtering = entry_type(sampler) == 1 << 23;
    let slot = entry_type(texture);
    let sample = match slot >> 23 {
        2 => slot >> 4 & 7,
        5 => 0,
        _ => return 34,
    };
    match (filtering, sample) {
        (true, 1) => 32,
        (true, 3 | 4) => 33,
        _ => 0,
    }
}

fn pairs(pack: &Pack, entry: &Entry, layout: &[u32]) -> Step {
    for p in &entry.pairs {
        let number = pair(pack, layout, *p);
        if number != 0 {
            return refuse(number, [pack.resources[p.0].place, pack.resources[p.1].place, 0]);
        }
    }
    Ok(())
}

/// The three limits on a workgroup's dimensions and the limit on their product.
pub fn workgroup_limits(pack: &Pack, stage: u32) -> Option<([u32; 3], u32)> {
    let l = &pack.limits;
    match stage {
        COMPUTE => Some(([l[2], l[3], l[4]], l[5])),
        TASK => Some(([l[6]; 3], l[7])),
        MESH => Some(([l[8]; 3], l[9])),
        _ => None,
    }
}

fn workgroup(pack: &Pack, entry: &Entry) -> Step {
    let Some((each, total)) = workgroup_limits(pack, entry.stage) else {
        return Ok(());
    };
    let size = entry.workgroup;
    let product: u128 = size.iter().map(|n| u128::from(*n)).product();
    if (0..3).any(|i| size[i] > each[i]) || product > u128::from(total) {
        return refuse(40, size);
    }
    if size.contains(&0) {
        return refuse(41, size);
    }
    Ok(())
}

const PER_PRIMITIVE: u32 = 1 << 18;

fn input(stage: u32, own: u32, given: Option<u32>) -> u32 {
    let Some(given) = given else {
        return 50;
    };
    let differ = |high: u32, low: u32| (own ^ given) << (31 - high) >> (31 - high + low) != 0;
    match stage {
        VERTEX if differ(5, 4) => 51,
        VERTEX if own & PER_PRIMITIVE != 0 => 54,
        VERTEX => 0,
        FRAGMENT if differ(14, 12) => 52,
        FRAGMENT if differ(17, 15) => 53,
        FRAGMENT if !leaf::fits(own, given) => 51,
        FRAGMENT if differ(18, 18) => 54,
        FRAGMENT => 0,
        _ => 51,
    }
}

fn inputs(entry: &Entry, list: &[u32]) -> Step {
    for (location, ty) in locals(&entry.inputs) {
        let number = input(entry.stage, ty, lists::provided(list, location));
        if number != 0 {
            return refuse(number, [location, 0, 0]);
        }
    }
    Ok(())
}

fn vertex_outputs(pack: &Pack, entry: &Entry, topology: u32) -> Step {
    let limit = pack.limits[0];
    let clip: i64 = built_ins(&entry.outputs).filter(|b| b.0 == 4).map(|b| i64::from(b.1 + 3) / 4).sum();
    let places = i64::from(limit) - (topology == 0) as i64 - clip;
    let highest = i64::from(limit) - 1 - clip;
    if places < 0 || highest < 0 {
        return refuse(65, [0; 3]);
    }
    for (location, _) in locals(&entry.outputs) {
        if i64::from(location) > highest {
            return refuse(60, [location, limit, 0]);
        }
    }
    let found = locals(&entry.outputs).count() as u32;
    if i64::from(found) > places {
        return refuse(61, [found, limit, 0]);
    }
    Ok(())
}

fn fragment_sides(pack: &Pack, entry: &Entry, call: &StageCall) -> Step {
    let (limit, colours) = (pack.limits[0], pack.limits[1]);
    let taken: u32 = built_ins(&entry.inputs).map(|b| b.1).sum();
    if taken > limit {
        return refuse(65, [0; 3]);
    }
    for (location, _) in locals(&entry.inputs) {
        if location >= limit {
            return refuse(62, [location, limit, 0]);
        }
    }
    let found = locals(&entry.inputs).count() as u32;
    if found > limit - taken {
        return refuse(63, [found, limit, 0]);
    }
    for (location, _) in locals(&entry.outputs) {
        if location >= colours {
            return refuse(64, [location, colours, 0]);
        }
    }
    if call.dual == 1 && !entry.dual {
        return refuse(66, [0; 3]);
    }
    if has_built_in(&entry.outputs, 3) && call.depth == 0 {
        return refuse(67, [0; 3]);
    }
    Ok(())
}

fn last_steps(pack: &Pack, entry: &Entry, call: &StageCall) -> Step {
    let l = &pack.limits;
    if let Some([vertices, primitives, topology]) = entry.mesh {
        if vertices > l[10] {
            return refuse(70, [vertices, l[10], 0]);
        }
        if primitives > l[11] {
            return refuse(71, [primitives, l[11], 0]);
        }
        if topology != call.topology {
            return refuse(72, [0; 3]);
        }
    }
    let size = entry.payload & 0x03ff_ffff;
    if entry.payload != 0 && size > l[12] {
        return refuse(73, [size, l[12], 0]);
    }
    let given = call.inputs[1] & 0x07ff_ffff;
    if entry.stage == MESH && given != entry.payload {
        return refuse(74, [0; 3]);
    }
    if entry.stage == FRAGMENT {
        let reads = has_built_in(&entry.inputs, 1);
        match call.inputs[0] >> 25 & 3 {
            1 if reads => return refuse(75, [0; 3]),
            2 if !reads => return refuse(76, [0; 3]),
            _ => (),
        }
    }
    if entry.stage == MESH && given != 0 && has_built_in(&entry.inputs, 2) {
        return refuse(77, [0; 3]);
    }
    let per_vertex = locals(&entry.inputs).any(|(_, ty)| ty >> 12 & 7 == 4);
    if per_vertex && call.topology != 3 && call.topology != 4 {
        return refuse(78, [0; 3]);
    }
    Ok(())
}

fn hand_out(entry: &Entry, out: &mut [u32]) {
    let mut kept: Vec<(u32, u32)> = Vec::new();
    for (location, ty) in locals(&entry.outputs) {
        kept.retain(|k| k.0 != location);
        kept.push((location, ty));
    }
    kept.sort();
    let writes = has_built_in(&entry.inputs, 1) || has_built_in(&entry.outputs, 1);
    let primitive_index = match entry.stage {
        MESH => 1 + writes as u32,
        _ => 0,
    };
    out[0] = 11 << 27 | primitive_index << 25 | kept.len() as u32;
    out[1] = 9 << 27 | entry.payload;
    for (i, (location, ty)) in kept.iter().enumerate() {
        out[2 + 2 * i] = 12 << 27 | location;
        out[3 + 2 * i] = *ty;
    }
}

/// Judges the call and writes its lists in place.
pub fn check(call: &mut StageCall) -> Step {
    let pack = pack::pack(&call.pack).map_err(Refused::alone)?;
    if !codes_good(call)
        || !lists::layout_good(&call.layout)
        || !lists::sizes_good(&call.sizes)
        || !lists::stage_good(&call.inputs)
    {
        return refuse(3, [0; 3]);
    }
    let Some(entry) = entry_of(&pack, call.stage, &call.name) else {
        return refuse(10, [0; 3]);
    };
    if call.out.len() < 2 + 2 * locals(&entry.outputs).count() {
        return refuse(4, [0; 3]);
    }

    if call.mode == 0 {
        provided_resources(&pack, entry, call)?;
        pairs(&pack, entry, &call.layout)?;
    } else {
        derived_resources(&pack, entry, call)?;
    }
    workgroup(&pack, entry)?;
    inputs(entry, &call.inputs)?;
    match entry.stage {
        VERTEX => vertex_outputs(&pack, entry, call.topology)?,
        FRAGMENT => fragment_sides(&pack, entry, call)?,
        _ => (),
    }
    last_steps(&pack, entry, call)?;
    hand_out(entry, &mut call.out);
    Ok(())
}
