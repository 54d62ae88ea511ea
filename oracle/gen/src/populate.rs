//! Calls of `populate`: lists that give varyings, lists at the ends of what the format and the walk hold, broken ones and
//! damaged ones.

use crate::build::word;
use crate::good;
use crate::rng::Rng;
use crate::types::{Binding, List, Type, CLIP, F32};
use cases::PopulateCall;

/// A call but for its list out.
#[derive(Clone, Debug)]
struct Call {
    list: List,
    asked: u32,
    binding: Binding,
}

fn location(rng: &mut Rng) -> u32 {
    match rng.below(16) {
        0 => 0x7ff_ffff - rng.below(2),
        1 => rng.below(1 << 27),
        _ => rng.below(24),
    }
}

/// Interpolation, sampling and per primitive.
fn how(rng: &mut Rng) -> u32 {
    match rng.below(4) {
        0 => 0,
        _ => rng.below(5) << 12 | rng.below(6) << 15 | (rng.once_in(4) as u32) << 18,
    }
}

fn local(rng: &mut Rng) -> Binding {
    Binding::Local(location(rng), how(rng))
}

fn built_in(rng: &mut Rng) -> Binding {
    let places = match rng.below(8) {
        0 => 255 - rng.below(2),
        1 => 1 << rng.below(8),
        2..=4 => rng.below(256),
        _ => rng.below(3),
    };
    Binding::BuiltIn(rng.below(4), places)
}

/// A binding of any sort but clip distances.
fn any_binding(rng: &mut Rng) -> Binding {
    match rng.below(3) {
        0 => Binding::None,
        1 => built_in(rng),
        _ => local(rng),
    }
}

/// A binding that may stand on a type; most of those that may say something do.
fn binding_for(rng: &mut Rng, list: &List, ty: u32) -> Binding {
    match list.types[ty as usize] {
        Type::Numeric(_) => match rng.below(10) {
            0 => Binding::None,
            1 | 2 => built_in(rng),
            _ => local(rng),
        },
        Type::Array(..) if list.is_clip_array(ty) && !rng.once_in(4) => CLIP,
        Type::Array(..) => any_binding(rng),
        Type::Struct(_) if rng.once_in(8) => CLIP,
        Type::Struct(_) if rng.once_in(3) => any_binding(rng),
        Type::Struct(_) => Binding::None,
    }
}

fn length(rng: &mut Rng) -> u32 {
    match rng.below(6) {
        0 => rng.pick(&[1, 2, 254, 255]),
        1 => rng.range(1, 255),
        2 => rng.pick(&[0, 256, 257, 0x7ff_ffff]),
        _ => rng.range(1, 8),
    }
}

/// A list with some scalars, vectors and matrices and some arrays; f32 is type 0.
fn leaves(rng: &mut Rng) -> List {
    let mut list = List::default();
    list.add(Type::Numeric(F32));
    for _ in 0..rng.below(5) {
        list.add(Type::Numeric(good::numeric_type(rng)));
    }
    for _ in 0..rng.below(3) {
        list.add(Type::Array(0, rng.pick(&[1, 2, 4, 8, 254, 255])));
    }
    for _ in 0..rng.below(2) {
        let element = rng.index(list.types.len()) as u32;
        list.add(Type::Array(element, length(rng)));
    }
    list
}

/// A type for a member: leaves more often than structs, and the newest struct more often than others.
fn member_type(rng: &mut Rng, list: &List) -> u32 {
    let structs = list.of(|ty| matches!(ty, Type::Struct(_)));
    let numeric = list.of(|ty| matches!(ty, Type::Numeric(_)));
    match rng.below(8) {
        0..=3 if !numeric.is_empty() => rng.pick(&numeric),
        4 if !structs.is_empty() => rng.pick(&structs),
        5 if !structs.is_empty() => structs[structs.len() - 1],
        _ => rng.index(list.types.len()) as u32,
    }
}

/// A struct of so many members that gives at most `most` varyings.
fn a_struct(rng: &mut Rng, list: &List, members: u32, most: u64) -> Type {
    let (mut out, mut given) = (Vec::new(), 0);
    for _ in 0..members {
        let ty = member_type(rng, list);
        let binding = binding_for(rng, list, ty);
        let gives = list.gives(ty, binding);
        if given + gives <= most {
            given += gives;
            out.push((ty, binding));
        }
    }
    Type::Struct(out)
}

/// How many varyings a struct may give: seldom more than are let through.
fn most(rng: &mut Rng) -> u64 {
    match rng.below(20) {
        0 => 70,
        1 => 1000,
        _ => 63,
    }
}

fn ask(rng: &mut Rng, list: List, asked: u32) -> Call {
    let binding = binding_for(rng, &list, asked);
    Call { list, asked, binding }
}

/// The last type, or now and then another.
fn ask_any(rng: &mut Rng, list: List) -> Call {
    let count = list.types.len() as u32;
    let asked = if rng.once_in(6) { rng.below(count) } else { count - 1 };
    ask(rng, list, asked)
}

fn ordinary(rng: &mut Rng) -> Call {
    let mut list = leaves(rng);
    let most = most(rng);
    for _ in 0..rng.range(1, 6) {
        let members = if rng.once_in(6) { rng.below(30) } else { rng.below(9) };
        let made = a_struct(rng, &list, members, most);
        let made = list.add(made);
        match rng.below(10) {
            0 => _ = list.add(Type::Array(made, length(rng))),
            1 => _ = list.add(Type::Numeric(good::numeric_type(rng))),
            _ => (),
        }
    }
    if list.steps(list.types.len() as u32 - 1) > 10_000 {
        return ordinary(rng);
    }
    ask_any(rng, list)
}

/// A scalar, vector, matrix or array asked for.
fn lone(rng: &mut Rng) -> Call {
    let list = leaves(rng);
    let asked = rng.index(list.types.len()) as u32;
    ask(rng, list, asked)
}

/// Structs in structs, about as deep as they may be, now and then through arrays.
fn deep(rng: &mut Rng) -> Call {
    let mut list = leaves(rng);
    let through_arrays = rng.once_in(3);
    let levels = rng.pick(&[5, 7, 8, 8, 8, 8, 9, 9, 10, 12]);
    let most = most(rng);
    let mut inner = rng.index(list.types.len()) as u32;
    for _ in 0..levels {
        if through_arrays && rng.once_in(3) {
            inner = list.add(Type::Array(inner, length(rng)));
        }
        let (count, binding) = (rng.below(3), binding_for(rng, &list, inner));
        let members = a_struct(rng, &list, count, most.saturating_sub(list.gives(inner, binding)));
        let Type::Struct(mut members) = members else { unreachable!() };
        let at = rng.index(members.len() + 1);
        members.insert(at, (inner, binding));
        inner = list.add(Type::Struct(members));
    }
    let count = list.types.len() as u32;
    if list.steps(count - 1) > 10_000 {
        return deep(rng);
    }
    let asked = if rng.once_in(5) { count - 1 - rng.below(3) } else { count - 1 };
    ask(rng, list, asked)
}

/// A struct that gives exactly so many varyings, by leaves and by a struct that it names several times.
fn giving(rng: &mut Rng, list: &mut List, count: u64) -> u32 {
    let numeric = list.of(|ty| matches!(ty, Type::Numeric(_)));
    let clip: Vec<u32> = (0..list.types.len() as u32).filter(|ty| list.is_clip_array(*ty)).collect();
    let mut members = Vec::new();
    let mut left = count;
    if count > 2 && !rng.once_in(3) {
        let part = u64::from(rng.range(1, count as u32 / 2));
        let inner = giving(rng, list, part);
        let times = if rng.flip() { count / part } else { u64::from(rng.range(1, (count / part) as u32)) };
        for _ in 0..times {
            members.push((inner, binding_for(rng, list, inner)));
        }
        left -= part * times;
    }
    for _ in 0..left {
        members.push(match rng.below(8) {
            0 if !clip.is_empty() => (rng.pick(&clip), CLIP),
            1 | 2 => (rng.pick(&numeric), built_in(rng)),
            _ => (rng.pick(&numeric), local(rng)),
        });
    }
    for _ in 0..rng.below(3) {
        members.push((rng.pick(&numeric), Binding::None));
    }
    rng.shuffle(&mut members);
    list.add(Type::Struct(members))
}

/// About as many varyings as are let through.
fn around(rng: &mut Rng) -> Call {
    let mut list = leaves(rng);
    let count = rng.pick(&[40, 61, 62, 63, 63, 63, 64, 64, 65, 66]);
    let asked = giving(rng, &mut list, count);
    if list.nesting(asked) > 8 {
        return around(rng);
    }
    ask(rng, list, asked)
}

/// A type of any sort, made of those that are there.
fn any_type(rng: &mut Rng, list: &List) -> Type {
    let count = list.types.len() as u32;
    match rng.below(6) {
        0 if count > 0 => Type::Array(rng.below(count), length(rng)),
        1 if count > 0 => {
            let members = rng.below(4);
            a_struct(rng, list, members, 20)
        }
        2 | 3 => Type::Numeric(good::numeric_type(rng)),
        _ => Type::Numeric(F32),
    }
}

/// About as many types as there may be, or none; the last one names others from all over the list.
fn many(rng: &mut Rng) -> Call {
    let count = rng.pick(&[0, 1, 2, 60, 128, 254, 255, 255, 256, 256, 256, 257]);
    let mut list = List::default();
    if count == 0 {
        let (asked, binding) = (rng.below(2), any_binding(rng));
        return Call { list, asked, binding };
    }
    for _ in 1..count {
        let ty = any_type(rng, &list);
        list.add(ty);
    }
    let members = rng.below(40);
    let last = if count == 1 { Type::Numeric(F32) } else { a_struct(rng, &list, members, 63) };
    list.add(last);
    let asked = if rng.once_in(4) { rng.below(count) } else { count - 1 };
    if list.steps(asked) > 10_000 {
        return many(rng);
    }
    ask(rng, list, asked)
}

/// About as many words as a list may have: types that nobody asks for, or free room.
fn long(rng: &mut Rng) -> Call {
    let mut call = match rng.below(3) {
        0 => around(rng),
        _ => ordinary(rng),
    };
    let wanted = rng.pick(&[1000, 1022, 1023, 1024, 1024, 1024, 1024, 1025, 1026]);
    if rng.flip() {
        // One more struct takes a word, and two for each member without a binding.
        let left = wanted - call.list.words().len().min(wanted);
        let numeric = call.list.of(|ty| matches!(ty, Type::Numeric(_)));
        if left > 2 {
            let members = (left - 1) / 2 - rng.index(2);
            let made = (0..members).map(|_| (rng.pick(&numeric), Binding::None)).collect();
            let made = call.list.add(Type::Struct(made));
            if rng.once_in(3) {
                call.asked = made;
            }
        }
    }
    let left = wanted - call.list.words().len().min(wanted);
    call.list.free = good::room(rng, left);
    call
}

/// Structs that name one struct many times over, so that a plain walk comes to very many types; few of them give
/// anything.
fn wide(rng: &mut Rng) -> Call {
    let mut list = leaves(rng);
    let (levels, members) = (rng.range(2, 8), rng.range(5, 60));
    let mut last = rng.pick(&list.of(|ty| matches!(ty, Type::Numeric(_))));
    let mut giving = if rng.flip() { Some((last, local(rng))) } else { None };
    for _ in 0..levels {
        let mut made: Vec<(u32, Binding)> =
            (0..rng.range(members / 2, members)).map(|_| (last, Binding::None)).collect();
        last = list.add(Type::Struct(made.clone()));
        if let Some(member) = giving {
            let at = rng.index(made.len() + 1);
            made.insert(at, member);
            giving = Some((list.add(Type::Struct(made)), Binding::None));
        }
        if list.words().len() > 800 {
            break;
        }
    }
    let asked = giving.map_or(last, |(ty, _)| ty);
    ask(rng, list, asked)
}

fn good_call(rng: &mut Rng) -> Call {
    let call = match rng.below(40) {
        0..=23 => ordinary(rng),
        24 => lone(rng),
        25..=28 => deep(rng),
        29..=33 => around(rng),
        34..=36 => many(rng),
        37 | 38 => long(rng),
        _ if rng.once_in(3) => return wide(rng),
        _ => ordinary(rng),
    };
    // Most of those that give nothing are left out.
    if call.list.gives(call.asked, call.binding) == 0 && !rng.once_in(6) {
        return good_call(rng);
    }
    call
}

/// Clip distances where they may not stand, or just may: on the asked type or on a member, reached or not.
fn odd_clip(rng: &mut Rng, call: &mut Call) {
    let list = &mut call.list;
    let element = match rng.below(8) {
        0 => list.add(Type::Numeric(2 << 4 | 2 << 6)),
        1 => list.add(Type::Numeric(2 << 4 | 8 << 6)),
        2 => list.add(Type::Numeric(1 << 4 | 4 << 6)),
        3 => list.add(Type::Numeric(F32 | rng.range(1, 12))),
        4 => rng.index(list.types.len().max(1)) as u32,
        _ => list.add(Type::Numeric(F32)),
    };
    let ty = match rng.below(8) {
        0 => element,
        _ => list.add(Type::Array(element, rng.pick(&[0, 1, 1, 255, 255, 256, 511, 0x7ff_ffff]))),
    };
    match rng.below(4) {
        0 => (call.asked, call.binding) = (ty, CLIP),
        1 => _ = list.add(Type::Struct(vec![(ty, CLIP)])),
        2 => call.asked = list.add(Type::Struct(vec![(call.asked, Binding::None), (ty, CLIP)])),
        _ => {
            // Behind an array, where the walk never comes.
            let made = list.add(Type::Struct(vec![(ty, CLIP)]));
            let array = list.add(Type::Array(made, 4));
            call.asked = list.add(Type::Struct(vec![(array, Binding::None), (call.asked, Binding::None)]));
        }
    }
}

/// A type that names itself, a later one or none.
fn names_later(rng: &mut Rng, call: &mut Call) {
    let count = call.list.types.len() as u32;
    let naming = call.list.of(|ty| match ty {
        Type::Numeric(_) => false,
        Type::Array(..) => true,
        Type::Struct(members) => !members.is_empty(),
    });
    if naming.is_empty() {
        return;
    }
    let at = rng.pick(&naming);
    let named = match rng.below(6) {
        0 | 1 => at,
        2 => at + 1,
        3 => rng.range(at, count),
        4 => 1 << rng.range(8, 26) | rng.below(at + 1),
        _ => count,
    };
    match &mut call.list.types[at as usize] {
        Type::Array(element, _) => *element = named,
        Type::Struct(members) => {
            let i = rng.index(members.len());
            members[i].0 = named;
        }
        Type::Numeric(_) => (),
    }
}

fn asked_outside(rng: &mut Rng, call: &mut Call) {
    let count = call.list.types.len() as u32;
    call.asked = match rng.below(5) {
        0 | 1 => count,
        2 => count + rng.below(300),
        3 => call.asked | 1 << rng.range(8, 31),
        _ => rng.word(),
    };
}

/// A field of a type or a binding that the format does not have.
fn odd_field(rng: &mut Rng, call: &mut Call) {
    let odd = match rng.below(8) {
        0 => Binding::Local(0, rng.range(5, 7) << 12),
        1 => Binding::Local(0, rng.range(6, 7) << 15),
        2 => Binding::Local(0, 1 << rng.pick(&[0, 4, 6, 8, 9, 10, 11, 19, 26])),
        3 => Binding::BuiltIn(rng.range(5, 7), rng.below(2)),
        4 => Binding::BuiltIn(rng.below(4), 1 << rng.range(8, 23)),
        5 => Binding::BuiltIn(4, rng.range(1, 255)),
        _ => {
            let ty = match rng.below(3) {
                0 => F32 & !15 | rng.range(13, 15),
                1 => rng.pick(&[0, 3, 5, 6, 7, 9, 12, 15]) << 6 | 2 << 4,
                _ => F32 | 1 << rng.range(10, 26),
            };
            call.list.add(Type::Numeric(ty));
            return;
        }
    };
    if rng.flip() {
        call.binding = odd;
    } else {
        let ty = call.asked;
        call.list.add(Type::Struct(vec![(ty, odd)]));
    }
}

/// Several refusals at once, so that their order shows.
fn several(rng: &mut Rng, call: &mut Call) {
    let mut last = call.asked;
    if rng.flip() {
        for _ in 0..rng.range(8, 10) {
            last = call.list.add(Type::Struct(vec![(last, Binding::None)]));
        }
    }
    if rng.flip() {
        let mut members = vec![(last, Binding::None)];
        members.extend((0..rng.range(60, 64)).map(|_| (0, built_in(rng))));
        last = call.list.add(Type::Struct(members));
    }
    call.asked = last;
    match rng.below(4) {
        0 => asked_outside(rng, call),
        1 => odd_clip(rng, call),
        _ => (),
    }
}

const TWISTS: &[fn(&mut Rng, &mut Call)] =
    &[odd_clip, odd_clip, odd_clip, names_later, names_later, asked_outside, odd_field, odd_field, several];

fn damage(rng: &mut Rng, words: &mut Vec<u32>) {
    if words.is_empty() {
        return;
    }
    let i = rng.index(words.len().min(60));
    match rng.below(12) {
        0..=3 => words[i] ^= 1 << rng.below(27),
        4 => words[i] ^= 1 << rng.below(32),
        5 => words.truncate(i),
        6 => _ = words.pop(),
        7 => _ = words.remove(i),
        8 => words.insert(i, rng.word()),
        9 => words[0] = words[0].wrapping_add(rng.pick(&[1, 2, u32::MAX, 1 << 16])),
        10 => words[i] = word(rng.pick(&[5, 6, 12, 13, 14, 21, 22, 23, 24]), rng.below(4)),
        _ => words[i] = words[rng.index(words.len())],
    }
}

/// A slice that is not one binding.
fn odd_binding(rng: &mut Rng, call: &mut PopulateCall) {
    match rng.below(6) {
        0 => call.binding.clear(),
        1 => _ = call.binding.pop(),
        2 => call.binding.push(rng.word()),
        3 => call.binding.extend(any_binding(rng).words()),
        4 => call.binding = vec![word(6, rng.range(1, 3))],
        _ => damage(rng, &mut call.binding),
    }
}

fn junk(rng: &mut Rng) -> PopulateCall {
    let mut list = |most: usize| -> Vec<u32> {
        let count = rng.index(most);
        (0..count).map(|_| word(rng.pick(&[5, 6, 12, 13, 14, 21, 22, 23, 24, 31]), rng.below(6))).collect()
    };
    let (mut types, binding) = (list(30), list(4));
    if rng.flip() {
        types.insert(0, word(21, rng.below(8)));
    }
    PopulateCall { types, asked: rng.below(4), binding, out: Vec::new() }
}

/// A list out that is just long enough, one word short, longer, or of any length.
fn list_out(rng: &mut Rng, call: &PopulateCall) -> Vec<u32> {
    let due = match model::populate::varyings(call) {
        Ok((words, _)) => words.len(),
        Err(_) => rng.index(20),
    };
    let length = match rng.below(20) {
        0..=9 => due,
        10 | 11 => due.saturating_sub(1),
        12..=16 => due + rng.index(5) + 1,
        17 => 0,
        18 => rng.pick(&[125, 126, 127, 128]),
        _ => rng.index(130),
    };
    good::room(rng, length)
}

/// The call of this number in a run.
pub fn call(seed: u64, case: u64) -> PopulateCall {
    let rng = &mut Rng::of(seed ^ 0x706f_7075, case);
    let sort = rng.below(100);
    let mut made = good_call(rng);
    if (80..90).contains(&sort) {
        rng.pick(TWISTS)(rng, &mut made);
    }
    if made.list.free.is_empty() && rng.once_in(3) {
        let count = rng.index(6);
        made.list.free = good::room(rng, count);
    }
    let mut call =
        PopulateCall { types: made.list.words(), asked: made.asked, binding: made.binding.words(), out: Vec::new() };
    match sort {
        90..=96 => damage(rng, &mut call.types),
        97 | 98 => odd_binding(rng, &mut call),
        99 => call = junk(rng),
        _ => (),
    }
    call.out = list_out(rng, &call);
    call
}
