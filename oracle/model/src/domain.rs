//! Demand 2's domain: which stage calls are compared with the Rust.

use crate::pack::{Pack, Varying};
use crate::stage::{self, entry_of, COMPUTE, FRAGMENT, MESH, TASK, VERTEX};
use crate::{lists, pack};
use cases::StageCall;
use std::collections::HashSet;

/// Built-ins that the crate takes for a stage, with the places that it counts: only a fragment's inputs take any.
fn taken(stage: u32, output: bool, v: Varying) -> bool {
    let Some((code, places)) = v.built_in() else {
        return true;
    };
    match (stage, output, code) {
        (FRAGMENT, false, 0) => places <= 1,
        (FRAGMENT, false, 1) => places == 1,
        (VERTEX | COMPUTE | TASK | MESH, false, 0) => places == 0,
        (VERTEX | TASK | MESH, false, 2) => places == 0,
        (VERTEX | FRAGMENT | TASK | MESH, true, 0) => places == 0,
        (FRAGMENT, true, 3) => places == 0,
        (MESH, true, 1) => places == 0,
        (VERTEX | MESH, true, 4) => true,
        _ => false,
    }
}

/// How many pairs of the entry point fail over the layout list as provided.
fn failing_pairs(pack: &Pack, call: &StageCall) -> usize {
    let Some(entry) = entry_of(pack, call.stage, &call.name) else {
        return 0;
    };
    let distinct: HashSet<(usize, usize)> = entry.pairs.iter().copied().collect();
    distinct
        .into_iter()
        .filter(|p| {
            let present = |i: usize| lists::entry_at(&call.layout, pack.resources[i].place).is_some();
            present(p.0) && present(p.1) && stage::pair(pack, &call.layout, *p) != 0
        })
        .count()
}

/// Whether the Rust's answer rests on the order of its set of pairs: several of them fail.
pub fn several_pairs_fail(call: &StageCall) -> bool {
    let Ok(pack) = pack::pack(&call.pack) else {
        return false;
    };
    call.mode == 0 && lists::layout_good(&call.layout) && failing_pairs(&pack, call) > 1
}

/// Whether a call that the model answers with `number` is in the domain.
pub fn inside(call: &StageCall, number: u32) -> bool {
    if matches!(number, 1..=5 | 65 | 80 | 82) {
        return false;
    }
    let Ok(pack) = pack::pack(&call.pack) else {
        return false;
    };
    let utf8 = |name: &[u8]| std::str::from_utf8(name).is_ok();
    if !utf8(&call.name) || !pack.entries.iter().all(|e| utf8(&e.name)) {
        return false;
    }
    if let Some((limits, _)) = stage::workgroup_limits(&pack, call.stage) {
        if limits.iter().map(|n| u128::from(*n)).product::<u128>() >= 1 << 32 {
            return false;
        }
    }
    if call.stage == VERTEX && call.topology == 5 {
        return false;
    }
    if let Some(entry) = entry_of(&pack, call.stage, &call.name) {
        let all = |list: &[Varying], output| list.iter().all(|v| taken(call.stage, output, *v));
        if !all(&entry.inputs, false) || !all(&entry.outputs, true) {
            return false;
        }
    }
    call.mode == 1 || failing_pairs(&pack, call) <= 1
}
