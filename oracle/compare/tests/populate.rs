//! What document 02 says of `populate`, answered by the oracle and by the model.

use cases::{Answer, Case, PopulateCall};
use gen::build::word;
use gen::types::{Binding, List, Type, CLIP, F32};

const NONE: Binding = Binding::None;
const FREE: u32 = 0x1234_5678;

fn local(location: u32) -> Binding {
    Binding::Local(location, 2 << 12 | 3 << 15 | 1 << 18)
}

/// The number, the count of varyings and the list out, of so many words.
fn populate(list: &List, asked: u32, binding: Binding, room: usize) -> (u32, u32, Vec<u32>) {
    oracle::silence_panics();
    let (types, binding, out) = (list.words(), binding.words(), vec![FREE; room]);
    let case = Case::Populate(Box::new(PopulateCall { types, asked, binding, out }));
    let found = oracle::answer(&case);
    assert_eq!(found, model::answer(&case), "{case}");
    let Answer::Populate { number, details: [count, 0, 0], out } = found else { panic!("{case}: {found}") };
    (number, count, out)
}

/// The words that an accepted call writes.
fn given(list: &List, asked: u32, binding: Binding) -> Vec<u32> {
    let (number, count, out) = populate(list, asked, binding, 128);
    let used = out.iter().position(|w| *w == FREE).unwrap();
    let locals = out[..used].iter().filter(|w| **w >> 27 == 12).count();
    assert_eq!((number, count as usize), (0, used - locals));
    out[..used].to_vec()
}

/// The number of a refusal, which writes nothing.
fn refused(list: &List, asked: u32, binding: Binding, room: usize) -> u32 {
    let (number, count, out) = populate(list, asked, binding, room);
    assert!(number != 0 && count == 0 && out == vec![FREE; room]);
    number
}

/// A scalar and so many structs, one in the other, directly or each through an array.
fn nested(levels: u32, arrays: bool, binding: Binding) -> List {
    let mut list = List::new([Type::Numeric(F32)]);
    let mut last = list.add(Type::Struct(vec![(0, binding)]));
    for _ in 1..levels {
        if arrays {
            last = list.add(Type::Array(last, 2));
        }
        last = list.add(Type::Struct(vec![(last, NONE)]));
    }
    list
}

fn last(list: &List) -> u32 {
    list.types.len() as u32 - 1
}

#[test]
fn structs_are_entered_member_by_member() {
    let inner = vec![(1, local(7)), (0, NONE), (0, Binding::BuiltIn(3, 0))];
    let outer = vec![(0, local(1)), (2, local(5)), (0, Binding::BuiltIn(0, 255)), (2, CLIP)];
    let types = [Type::Numeric(F32), Type::Numeric(F32 | 3), Type::Struct(inner), Type::Struct(outer)];
    let how = word(13, 2 << 12 | 3 << 15 | 1 << 18);
    let inner = [word(12, 7), how | F32 | 3, word(14, 3 << 24)];
    let outer = [&[word(12, 1), how | F32], &inner[..], &[word(14, 255)], &inner[..]].concat();
    assert_eq!(given(&List::new(types.clone()), 3, NONE), outer);
    assert_eq!(given(&List::new(types.clone()), 3, CLIP), outer);
    assert_eq!(given(&List::new(types.clone()), 2, local(0)), inner);
    assert_eq!(given(&List::new(types.clone()), 1, local(9)), [word(12, 9), how | F32 | 3]);
    assert!(given(&List::new(types), 1, NONE).is_empty());
}

#[test]
fn clip_arrays_give_their_length_and_other_arrays_nothing() {
    let types = [Type::Numeric(F32), Type::Array(0, 255), Type::Array(0, 1), Type::Array(1, 4)];
    let members = vec![(1, CLIP), (1, NONE), (2, CLIP), (1, local(0)), (3, Binding::BuiltIn(1, 0)), (1, CLIP)];
    let mut list = List::new(types);
    let asked = list.add(Type::Struct(members));
    let clip = word(14, 4 << 24);
    assert_eq!(given(&list, asked, NONE), [clip | 255, clip | 1, clip | 255]);
    assert_eq!(given(&list, 1, CLIP), [clip | 255]);
    assert!(given(&list, 1, local(0)).is_empty());
}

#[test]
fn clip_distances_elsewhere_are_90_reached_or_not() {
    let half = F32 & !0x3c0 | 2 << 6;
    for (element, length) in [(F32, 0), (F32, 256), (half, 4), (F32 | 1, 4), (4 << 6 | 1 << 4, 4)] {
        let mut list = List::new([Type::Numeric(element), Type::Array(0, length)]);
        assert_eq!(refused(&list, 1, CLIP, 8), 90);
        assert!(given(&list, 1, NONE).is_empty());
        list.add(Type::Struct(vec![(1, CLIP)]));
        assert_eq!(refused(&list, 0, NONE, 8), 90);
    }
    let mut list = List::new([Type::Numeric(F32 | 2)]);
    assert_eq!(refused(&list, 0, CLIP, 8), 90);
    list.add(Type::Struct(vec![(0, CLIP)]));
    assert_eq!(refused(&list, 0, NONE, 8), 90);
    let mut list = List::new([Type::Numeric(F32), Type::Array(0, 4)]);
    list.add(Type::Array(1, 4));
    assert_eq!(refused(&list, 2, CLIP, 8), 90);
}

#[test]
fn structs_nest_eight_deep_also_through_arrays() {
    for arrays in [false, true] {
        let list = nested(9, arrays, local(0));
        assert_eq!(refused(&list, last(&list), NONE, 8), 91);
        let below = last(&list) - 1;
        assert_eq!(given(&list, below, NONE).is_empty(), arrays);
    }
    let mut list = nested(9, false, local(0));
    let array = list.add(Type::Array(9, 1));
    assert_eq!(refused(&list, array, NONE, 8), 91);
}

#[test]
fn the_refusals_stand_in_order() {
    let many = |count: usize| vec![(0, Binding::BuiltIn(0, 1)); count];
    let mut list = List::new([Type::Numeric(F32), Type::Struct(many(63)), Type::Struct(many(64))]);
    assert_eq!(given(&list, 1, NONE).len(), 63);
    assert_eq!(refused(&list, 1, NONE, 62), 4);
    assert_eq!(refused(&list, 2, NONE, 62), 92);
    let mut inner = 2;
    for _ in 0..8 {
        inner = list.add(Type::Struct(vec![(inner, NONE)]));
    }
    assert_eq!(refused(&list, inner - 1, NONE, 0), 92);
    assert_eq!(refused(&list, inner, NONE, 0), 91);
    assert_eq!(refused(&list, inner, Binding::BuiltIn(4, 1), 0), 90);
    assert_eq!(refused(&list, inner + 1, NONE, 0), 90);
    list.add(Type::Struct(vec![(0, CLIP)]));
    assert_eq!(refused(&list, inner, NONE, 0), 90);
}

#[test]
fn a_list_names_earlier_types_alone() {
    assert_eq!(refused(&List::new([Type::Array(0, 1)]), 0, NONE, 8), 90);
    assert_eq!(refused(&List::new([Type::Numeric(F32), Type::Struct(vec![(1, NONE)])]), 0, NONE, 8), 90);
    assert_eq!(refused(&List::default(), 0, NONE, 8), 90);
    assert!(given(&List::new([Type::Struct(Vec::new())]), 0, NONE).is_empty());
}

#[test]
fn a_list_has_at_most_256_types_and_1024_words() {
    let types = |count| List::new((0..count).map(|_| Type::Numeric(F32)));
    assert_eq!(given(&types(256), 255, Binding::BuiltIn(2, 3)), [word(14, 2 << 24 | 3)]);
    assert_eq!(refused(&types(257), 0, NONE, 8), 90);
    let mut list = types(3);
    list.free = vec![u32::MAX; 1020];
    assert_eq!(given(&list, 2, local(0)).len(), 2);
    list.free.push(0);
    assert_eq!(refused(&list, 2, local(0), 8), 90);
}
