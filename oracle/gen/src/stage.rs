//! Stage calls and name choices: good ones, twisted ones, chains of calls, large ones and damaged ones.

use crate::build::*;
use crate::good;
use crate::rng::Rng;
use crate::twist::{BREAKS, TWISTS};
use cases::{Answer, Case, StageCall};

fn twisted(rng: &mut Rng) -> Call {
    let mut c = good::call(rng);
    let count = rng.pick(&[0, 1, 1, 1, 1, 1, 2, 2, 3]);
    for _ in 0..count {
        rng.pick(TWISTS)(rng, &mut c);
    }
    c
}

fn broken(rng: &mut Rng) -> Call {
    let mut c = good::call(rng);
    if rng.once_in(4) {
        rng.pick(TWISTS)(rng, &mut c);
    }
    rng.pick(BREAKS)(rng, &mut c);
    c
}

/// Calls over one pack in derived mode, each over the lists as the one before left them; the last of them, in derived
/// mode or put again as provided.
fn chained(rng: &mut Rng) -> StageCall {
    let mut c = twisted(rng);
    c.mode = 1;
    if rng.flip() {
        // Stages that meet: the same resources on every entry point.
        let list = c.entry().resources.clone();
        let pairs = c.entry().pairs.clone();
        for e in &mut c.pack.entries {
            e.resources = list.clone();
            e.pairs = pairs.clone();
        }
    }
    c.layout.entries.clear();
    c.layout.groups = 8;
    c.layout.free = good::room(rng, 4 * c.pack.resources.len().min(255));
    let mut call = c.call();
    for _ in 0..rng.range(1, 4) {
        let i = rng.index(c.pack.entries.len());
        let e = &c.pack.entries[i];
        let locals = e.outputs.iter().filter(|v| v.is_local()).count();
        call.stage = e.stage;
        call.name = e.name.clone();
        call.out = good::room(rng, 2 + 2 * locals);
        let after = model::answer(&Case::Stage(Box::new(call.clone())));
        let Answer::Stage { number, layout, sizes, out, .. } = after else {
            break;
        };
        call.layout = layout;
        call.sizes = sizes;
        if number == 0 && rng.flip() {
            call.inputs = out;
        }
    }
    let e = c.entry();
    let locals = e.outputs.iter().filter(|v| v.is_local()).count();
    call.stage = e.stage;
    call.name = e.name.clone();
    let extra = rng.index(3);
    call.out = good::room(rng, 2 + 2 * locals + extra);
    if rng.once_in(3) {
        call.mode = 0;
    }
    call
}

/// Packs and lists at the ends of what the formats hold.
fn large(rng: &mut Rng) -> StageCall {
    let topology = rng.below(5);
    let mut limits = good::limits(rng);
    if rng.flip() {
        limits[INTER_STAGE] = rng.range(60, 66);
        limits[COLOURS] = rng.range(62, 64);
    }
    let setting = good::Setting { limits, topology };
    let mut resources = Vec::new();
    let wanted = rng.pick(&[128, 128, 127, 64, 129]);
    for i in 0..wanted {
        let mut r = good::a_resource(rng);
        r.place = place(i % 8, i / 8 + 10 * rng.below(2));
        resources.push(r);
    }
    let stage = rng.below(5);
    let mut e = good::an_entry_point(rng, &resources, &setting, stage);
    let mut order: Vec<u32> = (0..wanted.min(128)).collect();
    rng.shuffle(&mut order);
    order.truncate(63);
    e.resources = order;
    e.pairs.clear();
    let textures: Vec<u32> = e.resources.iter().copied().filter(|i| resources[*i as usize].is_texture()).collect();
    let samplers: Vec<u32> = e.resources.iter().copied().filter(|i| resources[*i as usize].sort() == 1).collect();
    if !textures.is_empty() && !samplers.is_empty() {
        for _ in 0..rng.pick(&[0, 5, 63]) {
            e.pairs.push((rng.pick(&textures), rng.pick(&samplers)));
        }
    }
    if rng.flip() {
        let ty = 2 << 4 | 4 << 6;
        e.inputs = (0..63).map(|i| Varying::Local(i, ty)).collect();
        e.outputs = (0..63).map(|i| Varying::Local(i, ty)).collect();
        rng.shuffle(&mut e.inputs);
        rng.shuffle(&mut e.outputs);
    }
    let mut entries = vec![e];
    let others = rng.pick(&[15, 15, 8, 0, 16]);
    for i in 0..others {
        let stage = rng.below(5);
        let mut e = good::an_entry_point(rng, &resources, &setting, stage);
        e.resources.truncate(4);
        e.pairs.clear();
        e.inputs.truncate(10);
        e.outputs.truncate(10);
        e.name = vec![b'a' + i as u8; rng.pick(&[1, 63, 64])];
        entries.push(e);
    }
    let target = rng.index(entries.len());
    entries.swap(0, target);
    let mut pack = Pack { limits, resources, entries };
    if rng.once_in(3) {
        fill_to(&mut pack, target, rng.pick(&[4095, 4096, 4097]));
    }
    let mode = rng.below(2);
    let mut c = good::a_call(rng, pack, target, topology, mode);

    // Full lists: 255 layout entries, 511 sizes.
    if rng.once_in(3) {
        let count = rng.pick(&[255, 254, 250, 193]);
        let mut binding = 1000;
        while c.layout.entries.len() < count {
            let r = Resource { place: place(binding % 8, binding), ..good::a_resource(rng) };
            let (ty, least) = good::fitting(rng, &r, true);
            let visibility = rng.below(32);
            c.layout.entries.push(LayoutEntry { place: r.place, ty, least, visibility });
            binding += 1;
        }
        c.layout.groups = 8;
        c.layout.free = good::room(rng, 1024 - 1 - 4 * c.layout.entries.len().min(255));
    }
    if rng.once_in(3) {
        let count = rng.pick(&[511, 510, 500, 450]);
        let mut binding = 1000;
        while c.sizes.records.len() < count {
            c.sizes.records.push((place(binding % 16, binding), good::a_size(rng)));
            binding += 1;
        }
        c.sizes.free = good::room(rng, 1024 - 1 - 2 * c.sizes.records.len().min(511));
    }
    if rng.once_in(4) {
        rng.pick(TWISTS)(rng, &mut c);
    }
    c.call()
}

/// Adds one-word built-ins to the entry points beside the target until the pack has this many words, if it can.
pub fn fill_to(pack: &mut Pack, target: usize, total: usize) {
    let mut missing = total.saturating_sub(pack.words().len());
    for (i, e) in pack.entries.iter_mut().enumerate() {
        if i == target {
            continue;
        }
        while missing > 0 && e.resources.len() < 63 && !pack.resources.is_empty() {
            e.resources.push(0);
            missing -= 1;
        }
        while missing > 0 && e.inputs.len() < 63 {
            e.inputs.push(Varying::BuiltIn(0, 0));
            missing -= 1;
        }
        while missing > 1 && e.outputs.len() < 63 {
            e.outputs.push(Varying::Local(1, 4 << 6));
            missing -= 2;
        }
    }
}

/// A position in the words, each kind of word as likely as the next.
fn some_word(rng: &mut Rng, words: &[u32]) -> usize {
    let mut kinds: Vec<u32> = words.iter().map(|w| w >> 27).collect();
    kinds.sort();
    kinds.dedup();
    let kind = rng.pick(&kinds);
    let at: Vec<usize> = (0..words.len()).filter(|i| words[*i] >> 27 == kind).collect();
    rng.pick(&at)
}

/// Damage to the words of a pack: the total and the sum are put right again, or only the sum, or nothing.
fn damage_pack(rng: &mut Rng, words: &mut Vec<u32>) {
    if words.is_empty() {
        return;
    }
    let i = if rng.flip() { rng.index(words.len()) } else { some_word(rng, words) };
    match rng.below(11) {
        0..=4 => words[i] ^= 1 << rng.below(32),
        9 | 10 => words[i] ^= 1 << rng.below(27),
        5 => {
            words.remove(i);
        }
        6 => words.insert(i, rng.word()),
        7 => words.truncate(i),
        8 => {
            let some = rng.index(3) + 1;
            let free = good::room(rng, some);
            words.extend(free);
        }
        _ => words[i] = word(rng.below(21), rng.word()),
    }
    if words.is_empty() {
        return;
    }
    match rng.below(6) {
        0 => (),
        1 => close(words),
        2 => {
            let kept = words[0];
            seal(words);
            words[0] = kept & 0xffff_0000 | words[0] & 0xffff;
            close(words);
        }
        _ => seal(words),
    }
}

fn damage_list(rng: &mut Rng, list: &mut Vec<u32>) {
    if list.is_empty() {
        return;
    }
    let used = list.len().min(40);
    let i = if rng.flip() { rng.index(used) } else { some_word(rng, &list[..used]) };
    match rng.below(6) {
        0..=2 => list[i] ^= 1 << rng.below(32),
        3 => list.truncate(i),
        4 => {
            list.remove(i);
        }
        _ => list[0] = list[0].wrapping_add(rng.below(3)),
    }
}

fn damaged(rng: &mut Rng) -> StageCall {
    let mut call = if rng.once_in(4) { chained(rng) } else { twisted(rng).call() };
    match rng.below(7) {
        0 => damage_list(rng, &mut call.layout),
        1 => damage_list(rng, &mut call.sizes),
        2 => damage_list(rng, &mut call.inputs),
        _ => damage_pack(rng, &mut call.pack),
    }
    call
}

fn junk(rng: &mut Rng) -> StageCall {
    let mut list = |most: usize| -> Vec<u32> {
        let count = rng.index(most);
        (0..count).map(|_| word(rng.below(32), rng.word())).collect()
    };
    let mut call = StageCall {
        pack: list(40),
        layout: list(20),
        sizes: list(10),
        inputs: list(10),
        out: list(10),
        name: b"main".to_vec(),
        stage: rng.below(6),
        topology: rng.below(7),
        mode: rng.below(3),
        dual: rng.below(2),
        depth: rng.below(2),
    };
    if rng.flip() && !call.pack.is_empty() {
        seal(&mut call.pack);
    }
    call
}

/// Packs with next to nothing in them, over lists with next to nothing in them.
fn small(rng: &mut Rng) -> StageCall {
    let topology = rng.below(5);
    let limits = if rng.flip() { [0; 13] } else { good::limits(rng) };
    let mut entries = Vec::new();
    if rng.flip() {
        let stage = rng.below(5);
        entries.push(EntryPoint {
            stage,
            name: vec![b'a'],
            workgroup: [rng.below(2), rng.below(2), rng.below(2)],
            payload: None,
            mesh: None,
            dual: false,
            resources: Vec::new(),
            pairs: Vec::new(),
            inputs: Vec::new(),
            outputs: Vec::new(),
        });
    }
    let room = [rng.index(3), rng.index(3), rng.index(3), rng.index(4)];
    let mut call = StageCall {
        pack: Pack { limits, resources: Vec::new(), entries }.words(),
        layout: vec![word(17, rng.below(9) << 16)],
        sizes: vec![word(20, 0)],
        inputs: vec![word(11, 0), word(9, 0)],
        out: good::room(rng, room[0]),
        name: vec![b'a'],
        stage: rng.below(5),
        topology,
        mode: rng.below(2),
        dual: rng.below(2),
        depth: rng.below(2),
    };
    call.layout.extend(good::room(rng, room[1]));
    call.sizes.extend(good::room(rng, room[2]));
    call.inputs.extend(good::room(rng, room[3]));
    if rng.once_in(6) {
        let list = match rng.below(3) {
            0 => &mut call.layout,
            1 => &mut call.sizes,
            _ => &mut call.inputs,
        };
        list.truncate(rng.index(2));
    }
    call
}

/// The stage call of this number in a run.
pub fn stage_call(seed: u64, case: u64) -> StageCall {
    let rng = &mut Rng::of(seed, case);
    match rng.below(100) {
        0..=69 => twisted(rng).call(),
        70..=81 => chained(rng),
        82..=87 => broken(rng).call(),
        88..=91 => large(rng),
        92..=97 => damaged(rng),
        98 => small(rng),
        _ => junk(rng),
    }
}

/// The name choice of this number in a run.
pub fn name_case(seed: u64, case: u64) -> Case {
    let rng = &mut Rng::of(seed ^ 0x6e61_6d65, case);
    let mut call = match rng.below(10) {
        0 => large(rng),
        1 => damaged(rng),
        2 => broken(rng).call(),
        _ => {
            let mut c = good::call(rng);
            if rng.once_in(10) {
                c.pack.entries.clear();
                c.pack.limits = good::limits(rng);
                let pack = c.pack.words();
                StageCall { pack, stage: c.stage, ..StageCall::default() }
            } else {
                c.call()
            }
        }
    };
    if rng.once_in(4) {
        call.stage = rng.pick(&[0, 1, 2, 3, 4, 5, 6, 256, 259, u32::MAX]);
    }
    Case::Name { pack: call.pack, stage: call.stage }
}
