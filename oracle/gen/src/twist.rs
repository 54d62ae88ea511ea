//! Changes to a good call, each aimed at some refusals or at a boundary.

use crate::build::*;
use crate::good;
use crate::rng::Rng;

type Twist = fn(&mut Rng, &mut Call);

/// Twists inside the formats.
pub const TWISTS: &[Twist] = &[
    drop_layout_entry,
    hide,
    other_entry_type,
    entry_field,
    entry_field,
    entry_field,
    least_size,
    least_size,
    other_resource_type,
    resource_field,
    resource_field,
    fewer_groups,
    short_room,
    short_room,
    failing_pair,
    failing_pair,
    failing_pair,
    storage_format,
    storage_format,
    workgroup,
    workgroup,
    workgroup,
    workgroup_limit,
    one_limit,
    drop_input,
    input_type,
    input_type,
    input_interpolation,
    input_sampling,
    input_per_primitive,
    input_per_primitive,
    extra_input,
    output_location,
    output_location,
    many_outputs,
    fragment_location,
    many_inputs,
    clip,
    places,
    inter_stage_limit,
    inter_stage_limit,
    dual_source,
    depth,
    mesh_record,
    mesh_record,
    mesh_record,
    payload,
    payload,
    primitive_index,
    primitive_index,
    draw_index,
    per_vertex,
    per_vertex,
    topology,
    other_name,
    other_stage,
    short_out,
    same_location,
    other_mode,
    twin,
    twin,
    bad_codes,
    odd_name,
    big_workgroup_limits,
    odd_built_in,
    repeat_index,
];

/// Twists that break a format's rule.
pub const BREAKS: &[Twist] = &[
    misfile_resource,
    misfile_resource,
    misfile_resource,
    misfile_entry,
    misfile_entry,
    misfile_entry,
    misfile_varying,
    misfile_varying,
    bad_layout,
    bad_layout,
    bad_layout,
    bad_sizes,
    bad_sizes,
    bad_stage_list,
    bad_stage_list,
    long_list,
    bad_codes,
];

/// A listed resource of the target: its index in the pack.
fn listed(rng: &mut Rng, c: &Call) -> Option<usize> {
    let list = &c.entry().resources;
    (!list.is_empty()).then(|| rng.pick(list) as usize)
}

/// The layout entry at a listed resource's place.
fn used_entry<'a>(rng: &mut Rng, c: &'a mut Call) -> Option<&'a mut LayoutEntry> {
    let place = c.pack.resources[listed(rng, c)?].place;
    c.layout.entries.iter_mut().find(|e| e.place == place)
}

fn drop_layout_entry(rng: &mut Rng, c: &mut Call) {
    if let Some(i) = listed(rng, c) {
        let place = c.pack.resources[i].place;
        c.layout.entries.retain(|e| e.place != place);
    }
}

fn hide(rng: &mut Rng, c: &mut Call) {
    let bit = 1u32.checked_shl(c.stage).unwrap_or(0);
    if let Some(e) = used_entry(rng, c) {
        e.visibility &= !bit;
    }
}

fn any_entry_type(rng: &mut Rng) -> u32 {
    match rng.below(6) {
        0 => rng.pick(&[0, 1, 3, 4, 5, 7]),
        1 => 1 << 23 | rng.below(3),
        2 => 2 << 23 | rng.below(6) | rng.below(2) << 3 | rng.below(5) << 4,
        3 => 4 << 23 | rng.below(6) | any_format(rng) << 8 | rng.below(4) << 16,
        4 => 5 << 23,
        _ => 6 << 23 | rng.below(2),
    }
}

fn any_format(rng: &mut Rng) -> u32 {
    match rng.below(4) {
        0 => rng.pick(&[28, 31]),
        1 => rng.range(42, 51),
        _ => rng.below(77),
    }
}

fn other_entry_type(rng: &mut Rng, c: &mut Call) {
    let ty = any_entry_type(rng);
    if let Some(e) = used_entry(rng, c) {
        e.ty = ty;
        if ty >> 23 != 0 {
            e.least = 0;
        }
    }
}

fn entry_field(rng: &mut Rng, c: &mut Call) {
    let (view, sample, format, access) = (rng.below(6), rng.below(5), any_format(rng), rng.below(4));
    let which = rng.below(4);
    let Some(e) = used_entry(rng, c) else {
        return;
    };
    match e.ty >> 23 {
        0 => {
            let others = [0, 1, 3, 4, 5, 7];
            e.ty = rng.pick(&others);
        }
        1 => e.ty = 1 << 23 | rng.below(3),
        2 => match which {
            0 => e.ty = e.ty & !7 | view,
            1 => e.ty ^= 8,
            _ => e.ty = e.ty & !0x70 | sample << 4,
        },
        4 => match which {
            0 => e.ty = e.ty & !7 | view,
            1 => e.ty = e.ty & !0x7f00 | format << 8,
            _ => e.ty = e.ty & !(3 << 16) | access << 16,
        },
        6 => e.ty ^= 1,
        _ => (),
    }
}

fn least_size(rng: &mut Rng, c: &mut Call) {
    let buffers: Vec<u32> =
        c.entry().resources.iter().copied().filter(|i| c.pack.resources[*i as usize].sort() == 0).collect();
    if buffers.is_empty() {
        return;
    }
    let r = c.pack.resources[rng.pick(&buffers) as usize];
    if let Some(e) = c.layout.entries.iter_mut().find(|e| e.place == r.place && e.ty >> 23 == 0) {
        e.least = match rng.below(5) {
            0 => 0,
            1 => r.size,
            2 => (r.size + 1).min(0x7ff_ffff),
            3 => 1,
            _ => r.size - 1,
        };
    }
}

fn other_resource_type(rng: &mut Rng, c: &mut Call) {
    if let Some(i) = listed(rng, c) {
        let odd = rng.flip();
        c.pack.resources[i].ty = good::resource_type(rng, odd);
        let resources = c.pack.resources.clone();
        for e in &mut c.pack.entries {
            e.pairs.retain(|(t, s)| resources[*t as usize].is_texture() && resources[*s as usize].sort() == 1);
        }
    }
}

fn resource_field(rng: &mut Rng, c: &mut Call) {
    let Some(i) = listed(rng, c) else {
        return;
    };
    let dims = rng.below(8);
    let format = good::storable_format(rng);
    let which = rng.below(4);
    let r = &mut c.pack.resources[i];
    match r.sort() {
        0 => match which {
            0 => r.size = good::a_size(rng),
            1 => r.ty = 2 << 3,
            2 => r.ty = 0,
            _ => r.ty = 1 << 3 | rng.below(8),
        },
        1 | 6 => r.ty ^= 1,
        2 => match which {
            0 => r.ty = r.ty & !7 | dims,
            1 => r.ty ^= 8,
            _ => r.ty = r.ty & !0x30 | rng.below(3) << 4,
        },
        3 => match which {
            0 => r.ty ^= 8,
            _ => r.ty = r.ty & !7 | dims,
        },
        4 => match which {
            0 => r.ty = r.ty & !7 | dims,
            1 => r.ty = r.ty & !0x7f00 | format << 8,
            _ => r.ty = r.ty & !(7 << 16) | rng.range(1, 7) << 16,
        },
        _ => r.ty = r.ty & !7 | dims,
    }
}

/// Fewer groups; entries past the count go.
fn fewer_groups(rng: &mut Rng, c: &mut Call) {
    let groups = rng.below(9);
    if rng.flip() {
        if let Some(i) = listed(rng, c) {
            let place = &mut c.pack.resources[i].place;
            *place = *place & !(15 << 23) | rng.below(16) << 23;
        }
    }
    c.layout.groups = groups;
    c.layout.entries.retain(|e| group_of(e.place) < groups);
}

fn short_room(rng: &mut Rng, c: &mut Call) {
    let some = rng.index(3 * c.entry().resources.len() + 2);
    if c.mode == 1 {
        c.layout.free.truncate(if rng.flip() { some.min(7) } else { some });
    } else {
        c.sizes.free.truncate(if rng.flip() { some.min(3) } else { some });
        if rng.flip() {
            c.sizes.records.truncate(1);
        }
    }
}

/// One pair, or several, with a filtering sampler on a texture that is not for filtering.
fn failing_pair(rng: &mut Rng, c: &mut Call) {
    let pairs = c.entry().pairs.clone();
    if pairs.is_empty() {
        // Make one out of what is listed.
        let (texture, sampler) = (c.pack.resources.len() as u32, c.pack.resources.len() as u32 + 1);
        if texture > 120 || c.entry().resources.len() > 60 {
            return;
        }
        let kind = rng.below(3);
        let places = [place(0, 5000 + rng.below(100)), place(1, 5000 + rng.below(100))];
        let taken = |p: u32| c.layout.entries.iter().any(|e| e.place == p);
        if taken(places[0]) || taken(places[1]) {
            return;
        }
        let view = 1;
        c.pack.resources.push(Resource { place: places[0], ty: 2 << 23 | kind << 4 | view, size: 0 });
        c.pack.resources.push(Resource { place: places[1], ty: 1 << 23, size: 0 });
        let bit = 1u32.checked_shl(c.stage).unwrap_or(0);
        let sample = [rng.below(2), 3, 4][kind as usize];
        if c.mode == 0 {
            c.layout.groups = c.layout.groups.max(2);
            for (place, ty) in [(places[0], 2 << 23 | sample << 4 | view), (places[1], 1 << 23 | rng.pick(&[0, 0, 1]))]
            {
                c.layout.entries.push(LayoutEntry { place, ty, least: 0, visibility: bit });
            }
        } else if c.layout.groups < 2 {
            c.layout.groups = 2;
        }
        let e = c.entry_mut();
        e.resources.extend([texture, sampler]);
        e.pairs.push((texture, sampler));
        let free = good::room(rng, 8);
        c.layout.free.extend(free);
        return;
    }
    let (t, s) = rng.pick(&pairs);
    let texture = c.pack.resources[t as usize];
    let sampler = c.pack.resources[s as usize];
    let comparison = sampler.ty & 1 == 1;
    for e in &mut c.layout.entries {
        if e.place == texture.place && e.ty >> 23 == 2 && texture.ty >> 4 & 3 == 0 {
            e.ty = e.ty & !0x70 | 1 << 4;
        }
        if e.place == sampler.place && e.ty >> 23 == 1 && !comparison {
            e.ty = 1 << 23;
        }
    }
}

/// A storage entry under a texture of the same dimension, often with a format that is not for storage.
fn storage_format(rng: &mut Rng, c: &mut Call) {
    let textures: Vec<u32> =
        c.entry().resources.iter().copied().filter(|i| matches!(c.pack.resources[*i as usize].sort(), 2..=5)).collect();
    if textures.is_empty() {
        if c.pack.resources.len() < 128 && c.entry().resources.len() < 63 {
            let access = rng.range(1, 7);
            let ty = 4 << 23 | access << 16 | good::storable_format(rng) << 8 | rng.pick(&[0, 1, 2, 3, 5, 7]);
            let r = Resource { place: place(0, 6000 + rng.below(9)), ty, size: 0 };
            let (found, least) = good::fitting(rng, &r, true);
            c.layout.groups = c.layout.groups.max(1);
            let visibility = 31;
            if !c.layout.entries.iter().any(|e| e.place == r.place) && c.layout.entries.len() < 255 {
                c.layout.entries.push(LayoutEntry { place: r.place, ty: found, least, visibility });
            }
            let index = c.pack.resources.len() as u32;
            c.pack.resources.push(r);
            c.entry_mut().resources.push(index);
        }
        return;
    }
    let r = c.pack.resources[rng.pick(&textures) as usize];
    let view = [0, 1, 5, 3, 0, 2, 5, 4][(r.ty & 7) as usize];
    let format = any_format(rng);
    if let Some(e) = c.layout.entries.iter_mut().find(|e| e.place == r.place) {
        e.ty = 4 << 23 | rng.below(4) << 16 | format << 8 | view;
        e.least = 0;
    }
}

fn workgroup(rng: &mut Rng, c: &mut Call) {
    let limits = c.pack.limits;
    let Some(at) = workgroup_limits(c.entry().stage) else {
        c.entry_mut().workgroup = [rng.below(4), 0, 0x7ff_ffff];
        return;
    };
    let i = rng.index(3);
    let each = limits[at[i]];
    let total = limits[at[3]];
    let most = 0x7ff_ffff;
    let e = c.entry_mut();
    match rng.below(9) {
        0 => e.workgroup[i] = 0,
        1 => e.workgroup[i] = each,
        2 => e.workgroup[i] = (each + 1).min(most),
        3 => e.workgroup = [limits[at[0]], limits[at[1]], limits[at[2]]],
        4 => {
            // A product of exactly the total, or one more.
            let wanted = total.saturating_add(rng.below(2)).min(most);
            e.workgroup = [1, 1, 1];
            e.workgroup[i] = wanted;
        }
        5 => e.workgroup = [0, 1, most],
        6 => e.workgroup = [1 << 16, 1 << 16, rng.below(3)],
        7 => {
            let x = rng.range(1, each.max(1));
            e.workgroup[i] = x;
            e.workgroup[(i + 1) % 3] = (total / x).min(most);
        }
        _ => {
            e.workgroup[i] = 0;
            e.workgroup[(i + 1) % 3] = each.saturating_add(rng.below(2)).min(most);
        }
    }
}

fn workgroup_limit(rng: &mut Rng, c: &mut Call) {
    let Some(at) = workgroup_limits(c.entry().stage) else {
        return;
    };
    let size = c.entry().workgroup;
    let i = rng.index(4);
    let exact = if i < 3 { size[i] } else { size.iter().fold(1, |all: u32, n| all.saturating_mul(*n)).min(0x7ff_ffff) };
    c.pack.limits[at[i]] = match rng.below(3) {
        0 => exact,
        1 => exact.saturating_sub(1),
        _ => 0,
    };
}

fn one_limit(rng: &mut Rng, c: &mut Call) {
    let at = rng.index(13);
    c.pack.limits[at] = match rng.below(4) {
        0 => 0,
        1 => 1,
        2 => rng.below(20),
        _ => rng.below(1 << 27),
    };
}

fn a_given(rng: &mut Rng, c: &mut Call) -> Option<usize> {
    let wanted: Vec<u32> = c
        .entry()
        .inputs
        .iter()
        .filter_map(|v| match v {
            Varying::Local(location, _) => Some(*location),
            _ => None,
        })
        .collect();
    if wanted.is_empty() {
        extra_input(rng, c);
        return None;
    }
    let location = rng.pick(&wanted);
    c.inputs.varyings.iter().position(|v| v.0 == location)
}

fn drop_input(rng: &mut Rng, c: &mut Call) {
    if let Some(i) = a_given(rng, c) {
        c.inputs.varyings.remove(i);
    }
}

fn input_type(rng: &mut Rng, c: &mut Call) {
    if let Some(i) = a_given(rng, c) {
        let ty = &mut c.inputs.varyings[i].1;
        *ty = match rng.below(4) {
            0 => *ty & !0x30 | rng.below(4) << 4,
            1 => *ty & !0x3c0 | rng.pick(&[1, 2, 4, 8]) << 6,
            2 => *ty & !15 | rng.below(13),
            _ => *ty & !0x3ff | good::numeric_type(rng),
        };
    }
}

fn input_interpolation(rng: &mut Rng, c: &mut Call) {
    if let Some(i) = a_given(rng, c) {
        let ty = &mut c.inputs.varyings[i].1;
        *ty = *ty & !0x7000 | rng.below(5) << 12;
    }
}

fn input_sampling(rng: &mut Rng, c: &mut Call) {
    if let Some(i) = a_given(rng, c) {
        let ty = &mut c.inputs.varyings[i].1;
        *ty = *ty & !0x3_8000 | rng.below(6) << 15;
    }
}

fn input_per_primitive(rng: &mut Rng, c: &mut Call) {
    let Some(i) = a_given(rng, c) else {
        return;
    };
    let location = c.inputs.varyings[i].0;
    if rng.flip() {
        c.inputs.varyings[i].1 ^= 1 << 18;
    } else {
        for v in &mut c.entry_mut().inputs {
            if let Varying::Local(l, ty) = v {
                if *l == location {
                    *ty ^= 1 << 18;
                }
            }
        }
    }
}

/// A local input on any stage, given or not.
fn extra_input(rng: &mut Rng, c: &mut Call) {
    if c.entry().inputs.len() > 60 {
        return;
    }
    let location = if rng.once_in(4) { rng.below(1 << 27) } else { rng.below(16) };
    let ty = good::numeric_type(rng);
    c.entry_mut().inputs.push(Varying::Local(location, ty));
    if rng.flip() && c.inputs.varyings.len() < 63 && !c.inputs.varyings.iter().any(|v| v.0 == location) {
        c.inputs.varyings.push((location, ty));
        c.inputs.varyings.sort();
    }
}

fn clip_part(e: &EntryPoint) -> u32 {
    e.outputs
        .iter()
        .map(|v| match v {
            Varying::BuiltIn(4, n) => n.div_ceil(4),
            _ => 0,
        })
        .sum()
}

fn output_location(rng: &mut Rng, c: &mut Call) {
    let clip = clip_part(c.entry());
    let limit = if c.stage == 1 { c.pack.limits[COLOURS] } else { c.pack.limits[INTER_STAGE].saturating_sub(clip) };
    let location = match rng.below(4) {
        0 => limit,
        1 => limit.saturating_sub(1),
        2 => (limit + 1).min(0x7ff_ffff),
        _ => rng.below(1 << 27),
    };
    if c.entry().outputs.len() < 63 {
        let v = Varying::Local(location, good::numeric_type(rng));
        let at = rng.index(c.entry().outputs.len() + 1);
        c.entry_mut().outputs.insert(at, v);
        let free = good::room(rng, 2);
        c.out.extend(free);
    }
}

/// As many outputs as places, or one more or less.
fn many_outputs(rng: &mut Rng, c: &mut Call) {
    let clip = clip_part(c.entry());
    let limit = c.pack.limits[INTER_STAGE];
    let point = (c.topology == 0) as u32;
    let places = limit.saturating_sub(clip + point);
    let wanted = (places + rng.below(3)).saturating_sub(1).min(60);
    let highest = limit.saturating_sub(1 + clip);
    let e = c.entry_mut();
    e.outputs.retain(|v| !v.is_local());
    e.outputs.truncate(3);
    for i in 0..wanted {
        e.outputs.push(Varying::Local(i.min(highest), good::numeric_type(rng)));
    }
    rng.shuffle(&mut e.outputs);
    let free = good::room(rng, 2 + 2 * wanted as usize);
    c.out = free;
}

fn give(c: &mut Call, location: u32, ty: u32) {
    if c.inputs.varyings.len() < 63 && !c.inputs.varyings.iter().any(|v| v.0 == location) {
        c.inputs.varyings.push((location, ty));
        c.inputs.varyings.sort();
    }
}

fn fragment_location(rng: &mut Rng, c: &mut Call) {
    let limit = c.pack.limits[INTER_STAGE];
    let location = (limit + rng.below(3)).saturating_sub(1).min(0x7ff_ffff);
    let ty = good::numeric_type(rng);
    if c.entry().inputs.len() < 63 {
        c.entry_mut().inputs.push(Varying::Local(location, ty));
        give(c, location, ty);
    }
}

/// As many fragment inputs as there are places, or one more or less.
fn many_inputs(rng: &mut Rng, c: &mut Call) {
    let limit = c.pack.limits[INTER_STAGE];
    let e = c.entry_mut();
    e.inputs.retain(|v| !v.is_local());
    e.inputs.truncate(4);
    let taken: u32 = e
        .inputs
        .iter()
        .map(|v| match v {
            Varying::BuiltIn(_, n) => *n,
            _ => 0,
        })
        .sum();
    let wanted = (limit.saturating_sub(taken) + rng.below(3)).saturating_sub(1).min(59);
    c.inputs.varyings.clear();
    for i in 0..wanted {
        let location = i.min(limit.saturating_sub(1));
        let ty = 2 << 4 | 4 << 6;
        c.entry_mut().inputs.push(Varying::Local(location, ty));
        give(c, location, ty);
    }
}

fn clip(rng: &mut Rng, c: &mut Call) {
    let limit = c.pack.limits[INTER_STAGE];
    let size = match rng.below(4) {
        0 => rng.below(10),
        1 => rng.below(256),
        _ => (4 * limit.min(64) + rng.below(9)).saturating_sub(6).min(255),
    };
    let e = c.entry_mut();
    e.outputs.retain(|v| !matches!(v, Varying::BuiltIn(4, _)));
    if e.outputs.len() < 63 {
        let at = rng.index(e.outputs.len() + 1);
        e.outputs.insert(at, Varying::BuiltIn(4, size));
    }
}

/// Built-ins with any number of places.
fn places(rng: &mut Rng, c: &mut Call) {
    let limit = c.pack.limits[INTER_STAGE];
    for _ in 0..rng.range(1, 3) {
        let n = match rng.below(3) {
            0 => rng.below(256),
            1 => (limit + rng.below(3)).saturating_sub(1).min(255),
            _ => rng.below(6),
        };
        let v = Varying::BuiltIn(rng.pick(&[0, 0, 1]), n);
        let e = c.entry_mut();
        if e.inputs.len() < 63 {
            e.inputs.push(v);
        }
    }
}

fn inter_stage_limit(rng: &mut Rng, c: &mut Call) {
    let clip = clip_part(c.entry());
    let e = c.entry();
    let count = |list: &[Varying]| list.iter().filter(|v| v.is_local()).count() as u32;
    let near = match rng.below(4) {
        0 => clip,
        1 => count(&e.outputs) + clip,
        2 => count(&e.inputs),
        _ => 0,
    };
    c.pack.limits[INTER_STAGE] = (near + rng.below(4)).saturating_sub(1);
    if rng.once_in(3) {
        c.topology = 0;
    }
}

fn dual_source(_: &mut Rng, c: &mut Call) {
    c.dual = 1;
    c.entry_mut().dual = false;
}

fn depth(rng: &mut Rng, c: &mut Call) {
    if c.entry().outputs.len() < 63 {
        c.entry_mut().outputs.push(Varying::BuiltIn(3, 0));
    }
    c.depth = rng.once_in(4) as u32;
}

fn mesh_record(rng: &mut Rng, c: &mut Call) {
    let limits = c.pack.limits;
    let topology = c.topology;
    let mut near = |at: usize| match rng.below(4) {
        0 => (limits[at] + 1).min(0x7ff_ffff),
        1 => 0,
        _ => limits[at],
    };
    let record = [near(MESH_VERTICES), near(MESH_PRIMITIVES), 0];
    let other = if rng.flip() { topology.min(4) } else { rng.below(5) };
    c.entry_mut().mesh = if rng.once_in(8) { None } else { Some([record[0], record[1], other]) };
}

fn payload(rng: &mut Rng, c: &mut Call) {
    let limit = c.pack.limits[PAYLOAD];
    let own = match rng.below(4) {
        0 => None,
        1 => Some(0),
        2 => Some(limit.min(0x3ff_ffff)),
        _ => Some((limit + 1).min(0x3ff_ffff)),
    };
    match rng.below(3) {
        0 => c.entry_mut().payload = own,
        1 => c.inputs.payload = own,
        _ => {
            c.entry_mut().payload = own;
            c.inputs.payload = own;
        }
    }
}

fn primitive_index(rng: &mut Rng, c: &mut Call) {
    c.inputs.primitive_index = rng.below(3);
    if rng.flip() && c.entry().inputs.len() < 63 {
        if rng.flip() {
            let places = (c.stage == 1) as u32;
            c.entry_mut().inputs.push(Varying::BuiltIn(1, places));
        } else {
            c.entry_mut().inputs.retain(|v| !matches!(v, Varying::BuiltIn(1, _)));
        }
    }
    if rng.once_in(4) && c.entry().outputs.len() < 63 {
        c.entry_mut().outputs.push(Varying::BuiltIn(1, 0));
    }
}

fn draw_index(rng: &mut Rng, c: &mut Call) {
    if c.entry().inputs.len() < 63 {
        c.entry_mut().inputs.push(Varying::BuiltIn(2, 0));
    }
    if rng.flip() && c.stage == 4 {
        let size = rng.below(c.pack.limits[PAYLOAD].min(0x3ff_ffff) + 1);
        c.entry_mut().payload = Some(size);
        c.inputs.payload = Some(size);
    }
}

fn per_vertex(rng: &mut Rng, c: &mut Call) {
    let Some(i) = a_given(rng, c) else {
        return;
    };
    let location = c.inputs.varyings[i].0;
    let ty = &mut c.inputs.varyings[i].1;
    *ty = *ty & !0x7000 | 4 << 12;
    for v in &mut c.entry_mut().inputs {
        if let Varying::Local(l, ty) = v {
            if *l == location {
                *ty = *ty & !0x7000 | 4 << 12;
            }
        }
    }
    c.topology = rng.below(6);
}

fn topology(rng: &mut Rng, c: &mut Call) {
    c.topology = rng.below(6);
}

fn other_name(rng: &mut Rng, c: &mut Call) {
    match rng.below(6) {
        0 => c.name.clear(),
        1 => {
            c.name.pop();
        }
        2 => c.name.push(b'x'),
        3 => c.name.push(0),
        4 => {
            let i = rng.index(c.name.len().max(1));
            if let Some(b) = c.name.get_mut(i) {
                *b ^= 1;
            }
        }
        _ => {
            let n = rng.index(90);
            c.name.resize(n, b'a');
        }
    }
}

fn other_stage(rng: &mut Rng, c: &mut Call) {
    c.stage = rng.below(5);
}

fn short_out(rng: &mut Rng, c: &mut Call) {
    let needed = 2 + 2 * c.entry().outputs.iter().filter(|v| v.is_local()).count();
    c.out.truncate(match rng.below(3) {
        0 => rng.index(needed),
        1 => needed,
        _ => needed - 1,
    });
}

/// Two or more outputs at one location, with unlike types.
fn same_location(rng: &mut Rng, c: &mut Call) {
    let locals: Vec<u32> = c
        .entry()
        .outputs
        .iter()
        .filter_map(|v| match v {
            Varying::Local(location, _) => Some(*location),
            _ => None,
        })
        .collect();
    let location = if locals.is_empty() { 0 } else { rng.pick(&locals) };
    for _ in 0..rng.range(1, 3) {
        if c.entry().outputs.len() < 63 {
            let v = Varying::Local(location, good::numeric_type(rng));
            let at = rng.index(c.entry().outputs.len() + 1);
            c.entry_mut().outputs.insert(at, v);
        }
    }
    let free = good::room(rng, 6);
    c.out.extend(free);
}

fn other_mode(_: &mut Rng, c: &mut Call) {
    c.mode ^= 1;
}

/// Another resource at a listed one's place, listed too.
fn twin(rng: &mut Rng, c: &mut Call) {
    let Some(i) = listed(rng, c) else {
        return;
    };
    if c.pack.resources.len() > 126 || c.entry().resources.len() > 61 {
        return;
    }
    let mut r = c.pack.resources[i];
    match rng.below(4) {
        0 => r.size = good::a_size(rng),
        1 => r.ty = good::resource_type(rng, true),
        2 => r.size = (r.size + 1).min(0x7ff_ffff),
        _ => (),
    }
    let index = c.pack.resources.len() as u32;
    c.pack.resources.push(r);
    let at = rng.index(c.entry().resources.len() + 1);
    c.entry_mut().resources.insert(at, index);
}

fn bad_codes(rng: &mut Rng, c: &mut Call) {
    let bad = rng.pick(&[2, 5, 6, 7, 255, 256, 257, 260, 65536, u32::MAX]);
    let field = match rng.below(5) {
        0 => &mut c.stage,
        1 => &mut c.topology,
        2 => &mut c.mode,
        3 => &mut c.dual,
        _ => &mut c.depth,
    };
    *field = bad;
}

/// Names that are not UTF-8, in the pack, the call or both.
fn odd_name(rng: &mut Rng, c: &mut Call) {
    let name = match rng.below(3) {
        0 => vec![0xff, 0xfe],
        1 => vec![b'a', 0xc3],
        _ => vec![0xe9],
    };
    let taken = c.pack.entries.iter().any(|e| e.name == name);
    if rng.flip() && !taken {
        c.entry_mut().name = name.clone();
    }
    if rng.flip() {
        c.name = name;
    }
}

fn big_workgroup_limits(rng: &mut Rng, c: &mut Call) {
    let Some(at) = workgroup_limits(c.entry().stage) else {
        return;
    };
    for at in at {
        if rng.flip() {
            c.pack.limits[at] = 0x7ff_ffff - rng.below(2);
        }
    }
    if rng.flip() {
        let any = [1, 2, 1 << 9, 1 << 11, 1 << 13, 1 << 16, 0x7ff_ffff];
        c.entry_mut().workgroup = [rng.pick(&any), rng.pick(&any), rng.pick(&any)];
    }
}

/// Built-ins where the crate has none.
fn odd_built_in(rng: &mut Rng, c: &mut Call) {
    let v = Varying::BuiltIn(rng.below(4), rng.below(4));
    let output = rng.flip();
    let e = c.entry_mut();
    let list = if output { &mut e.outputs } else { &mut e.inputs };
    if list.len() < 63 {
        list.push(v);
    }
}

fn repeat_index(rng: &mut Rng, c: &mut Call) {
    if let Some(i) = listed(rng, c) {
        let pairs = c.entry().pairs.clone();
        let e = c.entry_mut();
        if e.resources.len() < 63 {
            e.resources.push(i as u32);
        }
        if !pairs.is_empty() && e.pairs.len() < 63 {
            e.pairs.push(rng.pick(&pairs));
        }
    }
}

// Breaks.

fn misfile_resource(rng: &mut Rng, c: &mut Call) {
    if c.pack.resources.is_empty() {
        c.pack.resources.push(good::a_resource(rng));
    }
    let i = rng.index(c.pack.resources.len());
    let any = rng.below(1 << 23);
    let bit = 1 << rng.below(23);
    let r = &mut c.pack.resources[i];
    match rng.below(9) {
        0 => *r = Resource { ty: 0, size: 0, ..*r },
        1 => r.ty = rng.pick(&[1, 2, 4, 16 | 1, 24, 24 | 1, 8 | 5]),
        2 => r.ty = 4 << 23 | 1 | rng.pick(&[28, 31, 42, 43, 50, 76, 77, 127]) << 8 | 2 << 16,
        3 => r.ty = 4 << 23 | 1 | 27 << 8 | rng.below(2) << 16,
        4 => r.ty = rng.range(7, 15) << 23,
        5 => r.ty = 2 << 23 | 3 << 4 | 1,
        6 => r.ty = rng.range(3, 5) << 23 | rng.below(64),
        7 => r.ty = r.ty >> 23 << 23 | any,
        _ => r.ty ^= bit,
    }
}

fn misfile_entry(rng: &mut Rng, c: &mut Call) {
    let i = rng.index(c.pack.entries.len());
    let resources = c.pack.resources.len() as u32;
    let copy = c.pack.entries[i].clone();
    let e = &mut c.pack.entries[i];
    match rng.below(10) {
        0 => e.stage = rng.range(5, 7),
        1 => e.name.clear(),
        2 => e.name = vec![b'a'; rng.pick(&[65, 65, 65, 66, 68, 96, 127])],
        3 => {
            let at = rng.index(e.name.len());
            e.name[at] = 0;
        }
        4 => e.mesh = Some([1, 1, rng.range(4, 6)]),
        5 => e.resources.push(resources.saturating_add(rng.below(2)).max(1) - rng.below(2)),
        6 => {
            // A pair with one side that is not listed, or of another sort.
            let any = [rng.below(resources + 1), rng.below(resources + 1)];
            e.pairs.push((any[0], any[1]));
        }
        7 => {
            // Stage and name twice.
            c.pack.entries.push(copy);
        }
        8 => {
            if let (Some(t), Some(s)) = (e.resources.first(), e.resources.last()) {
                e.pairs.push((*t, *s));
            }
        }
        _ => {
            let (t, s) = e.pairs.first().copied().unwrap_or((0, 0));
            e.resources.retain(|i| *i != t);
            e.pairs.push((s, t));
        }
    }
    for e in &mut c.pack.entries {
        e.resources.truncate(63);
        e.pairs.truncate(63);
    }
}

fn misfile_varying(rng: &mut Rng, c: &mut Call) {
    let i = rng.index(c.pack.entries.len());
    let bit = 1 << rng.below(27);
    let v = match rng.below(8) {
        0 => Varying::BuiltIn(4, rng.below(9)),
        1 => Varying::BuiltIn(rng.range(5, 7), 0),
        2 => Varying::BuiltIn(0, 1 << rng.range(8, 23)),
        3 => Varying::Local(0, rng.range(13, 15) | 4 << 6),
        4 => Varying::Local(0, rng.pick(&[0, 3, 5, 6, 7, 9, 15]) << 6),
        5 => Varying::Local(0, 4 << 6 | rng.range(5, 7) << 12),
        6 => Varying::Local(0, 4 << 6 | rng.range(6, 7) << 15),
        _ => Varying::Local(0, (2 << 4 | 4 << 6) ^ bit),
    };
    let e = &mut c.pack.entries[i];
    let list = if rng.flip() { &mut e.outputs } else { &mut e.inputs };
    if list.len() < 62 {
        list.push(v);
        if rng.once_in(4) {
            list.push(v);
        }
    }
    let free = good::room(rng, 4);
    c.out.extend(free);
}

fn bad_layout(rng: &mut Rng, c: &mut Call) {
    if c.layout.entries.is_empty() {
        let e = LayoutEntry { place: place(0, 9999), ty: any_entry_type(rng), least: 0, visibility: 1 };
        c.layout.entries.push(e);
        c.layout.groups = c.layout.groups.max(1);
    }
    let i = rng.index(c.layout.entries.len());
    let bit = 1 << rng.below(27);
    let groups = c.layout.groups;
    let copy = c.layout.entries[i];
    let e = &mut c.layout.entries[i];
    match rng.below(14) {
        0 => c.layout.groups = rng.pick(&[9, 9, 9, 10, 16, 1024, 2047]),
        1 => c.layout.groups = group_of(e.place),
        2 => e.place = place(groups, 1),
        3 => c.layout.entries.push(copy),
        4 => e.ty = 3 << 23 | 1,
        5 => e.ty = rng.range(7, 15) << 23,
        6 => e.ty = rng.pick(&[2, 6, 8, 1 << 23 | 3, 5 << 23 | 1, 6 << 23 | 2]),
        7 => e.ty = 2 << 23 | rng.range(0, 7) | rng.range(0, 7) << 4,
        8 => e.ty = 4 << 23 | rng.range(0, 7) | rng.range(75, 79) << 8 | rng.below(4) << 16,
        9 => *e = LayoutEntry { ty: any_entry_type(rng), least: rng.range(1, 9), ..*e },
        10 => e.visibility ^= 1 << rng.below(27),
        11 => e.ty ^= bit,
        12 => {
            e.ty = any_entry_type(rng) ^ 1 << rng.below(23);
            e.least = 0;
        }
        _ => c.layout.free.clear(),
    }
}

fn bad_sizes(rng: &mut Rng, c: &mut Call) {
    if c.sizes.records.is_empty() {
        c.sizes.records.push((good::a_place(rng), 64));
    }
    let i = rng.index(c.sizes.records.len());
    let copy = c.sizes.records[i];
    match rng.below(4) {
        0 => c.sizes.records[i].1 = 0,
        1 => c.sizes.records.push((copy.0, 7)),
        2 => c.sizes.records[i].0 = word(rng.below(32), copy.0),
        _ => c.sizes.records[i].0 ^= 1 << rng.below(32),
    }
}

fn bad_stage_list(rng: &mut Rng, c: &mut Call) {
    if c.inputs.varyings.is_empty() {
        c.inputs.varyings.push((3, 2 << 4 | 4 << 6));
    }
    let i = rng.index(c.inputs.varyings.len());
    let (location, ty) = c.inputs.varyings[i];
    match rng.below(7) {
        0 => c.inputs.primitive_index = 3,
        1 => c.inputs.varyings.insert(i, (location, ty)),
        2 => {
            c.inputs.varyings.push((location.saturating_sub(1), ty));
        }
        3 => c.inputs.varyings[i].1 ^= 1 << rng.below(27),
        4 => c.inputs.varyings[i].1 = ty & !0x3c0,
        5 => {
            c.inputs.varyings = (0..rng.range(63, 65)).map(|l| (l, ty)).collect();
        }
        _ => c.inputs.varyings.reverse(),
    }
}

/// A list of 1,023 to 1,026 words.
fn long_list(rng: &mut Rng, c: &mut Call) {
    let total = 1023 + rng.index(4);
    let grow = |rng: &mut Rng, used: usize| good::room(rng, total.saturating_sub(used));
    match rng.below(4) {
        0 => c.layout.free = grow(rng, 1 + 4 * c.layout.entries.len()),
        1 => c.sizes.free = grow(rng, 1 + 2 * c.sizes.records.len()),
        2 => c.inputs.free = grow(rng, 2 + 2 * c.inputs.varyings.len()),
        _ => c.out = grow(rng, 0),
    }
}
