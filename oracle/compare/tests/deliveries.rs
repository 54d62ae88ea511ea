//! Document 01's deliveries from the test line, answered by the oracle and by the model.

use cases::{Answer, Case, StageCall};
use gen::build::*;

const F32: u32 = 2 << 4 | 4 << 6;
const U32: u32 = 1 << 4 | 4 << 6;
const LIMITS: [u32; 13] = [16, 8, 256, 256, 64, 256, 128, 128, 128, 128, 256, 256, 1024];

fn answer(case: Case) -> Answer {
    oracle::silence_panics();
    let found = oracle::answer(&case);
    assert_eq!(found, model::answer(&case), "{case}");
    found
}

fn number(case: Case) -> u32 {
    answer(case).number().unwrap()
}

fn entry(stage: u32) -> EntryPoint {
    EntryPoint {
        stage,
        name: b"main".to_vec(),
        workgroup: [1, 1, 1],
        payload: None,
        mesh: None,
        dual: false,
        resources: Vec::new(),
        pairs: Vec::new(),
        inputs: Vec::new(),
        outputs: Vec::new(),
    }
}

/// A call on one entry point, triangles, no dual source, depth attached, provided, with room enough.
fn call(resources: Vec<Resource>, entry: EntryPoint) -> Call {
    let stage = entry.stage;
    Call {
        pack: Pack { limits: LIMITS, resources, entries: vec![entry] },
        target: 0,
        layout: Layout { groups: 8, entries: Vec::new(), free: vec![0; 8] },
        sizes: Sizes { records: Vec::new(), free: vec![0; 8] },
        inputs: StageList { primitive_index: 0, payload: None, varyings: Vec::new(), free: Vec::new() },
        out: vec![0; 64],
        name: b"main".to_vec(),
        stage,
        topology: 3,
        mode: 0,
        dual: 0,
        depth: 1,
    }
}

fn stage(c: &Call) -> Case {
    Case::Stage(Box::new(c.call()))
}

fn one_resource(ty: u32, size: u32, entry_type: u32, least: u32) -> Case {
    let at = place(0, 3);
    let mut e = entry(0);
    e.resources.push(0);
    let mut c = call(vec![Resource { place: at, ty, size }], e);
    c.layout.entries.push(LayoutEntry { place: at, ty: entry_type, least, visibility: 1 });
    stage(&c)
}

fn subtype(a: u32, b: u32) -> u32 {
    number(Case::Subtype(word(13, a), word(13, b)))
}

#[test]
fn p1_to_p4() {
    assert_eq!(number(one_resource(0, 64, 0, 64)), 0);
    assert_eq!(number(one_resource(0, 64, 0, 0)), 0);
    assert_eq!(number(one_resource(0, 64, 0, 63)), 25);
    let both = 4 << 23 | 2 << 16 | 27 << 8 | 1;
    assert_eq!(number(one_resource(4 << 23 | 2 << 16 | 27 << 8 | 1, 0, both, 0)), 0);
    assert_eq!(number(one_resource(4 << 23 | 1 << 16 | 27 << 8 | 1, 0, both, 0)), 27);
    let f64_ = 2 << 4 | 8 << 6;
    assert_eq!(subtype(F32, F32 | 2), 1);
    assert_eq!(subtype(f64_, F32 | 2), 0);
    assert_eq!(subtype(F32 | 2, F32 | 1), 0);
    let matrix = |columns: u32, rows: u32| F32 | 4 + 3 * (columns - 2) + (rows - 2);
    assert_eq!(subtype(matrix(3, 2), matrix(2, 3)), 0);
}

#[test]
fn p5_p6() {
    for (given, expected) in [(F32, 0), (U32, 51)] {
        let mut e = entry(0);
        e.inputs.push(Varying::Local(0, F32 | 3));
        let mut c = call(Vec::new(), e);
        c.inputs.varyings.push((0, given));
        assert_eq!(number(stage(&c)), expected);
    }
    let mut e = entry(1);
    e.inputs.push(Varying::Local(0, F32 | 1 << 12 | 1 << 15));
    let mut c = call(Vec::new(), e);
    c.inputs.varyings.push((0, F32 | 2 << 12 | 2 << 15));
    assert_eq!(number(stage(&c)), 52);
}

#[test]
fn p7() {
    let at = place(0, 3);
    let mut c = call(vec![Resource { place: at, ty: 0, size: 64 }], entry(0));
    c.entry_mut().resources.push(0);
    c.mode = 1;
    let Answer::Stage { number: 0, layout, .. } = answer(stage(&c)) else {
        panic!("the vertex stage derives");
    };
    let mut fragment = call(vec![Resource { place: at, ty: 0, size: 80 }], entry(1));
    fragment.entry_mut().resources.push(0);
    fragment.mode = 1;
    let mut second = fragment.call();
    second.layout = layout.clone();
    let Answer::Stage { number, details, layout: after, .. } = answer(Case::Stage(Box::new(second))) else {
        panic!("a stage answer");
    };
    assert_eq!((number, details), (29, [0, 3, 0]));
    assert_eq!(after, layout);
    assert_eq!(&layout[..5], [0x88080001, 0x20000003, 0x90000000, 0x30000040, 0x98000001]);
}

#[test]
fn p8() {
    let points = |locations: std::ops::Range<u32>| {
        let mut e = entry(0);
        e.outputs.push(Varying::BuiltIn(4, 5));
        e.outputs.extend(locations.map(|l| Varying::Local(l, F32)));
        let mut c = call(Vec::new(), e);
        c.topology = 0;
        number(stage(&c))
    };
    assert_eq!(points(0..13), 0);
    assert_eq!(points(13..14), 0);
    assert_eq!(points(0..14), 61);
    assert_eq!(points(14..15), 60);
}

#[test]
fn p9_p10_p11() {
    let mut e = entry(2);
    e.workgroup = [0, 1, 1];
    assert_eq!(number(stage(&call(Vec::new(), e))), 41);
    assert_eq!(number(one_resource(2 << 23 | 1 << 2 | 1, 0, 1 << 23, 0)), 26);

    let mut e = entry(0);
    e.outputs = vec![Varying::Local(0, F32), Varying::Local(0, U32 | 3)];
    let mut c = call(Vec::new(), e);
    c.out = vec![7; 8];
    let Answer::Stage { number: 0, out, .. } = answer(stage(&c)) else {
        panic!("accepted");
    };
    assert_eq!(out, [0x58000001, 0x48000000, 0x60000000, word(13, U32 | 3), 7, 7, 7, 7]);
}

#[test]
fn any_words_are_answered() {
    let empty = StageCall::default();
    assert_eq!(number(Case::Stage(Box::new(empty))), 1);
    assert_eq!(number(Case::Name { pack: Vec::new(), stage: 9 }), 1);
    assert_eq!(number(Case::Use { resource: Vec::new(), entry: Vec::new() }), 2);
    assert_eq!(number(Case::Derive { resource: Vec::new(), named: 0 }), 2);
}
