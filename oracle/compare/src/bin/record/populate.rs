//! The recorded calls of `test_populate`: case lines and answer lines.

use cases::{Answer, Case, PopulateCall};
use gen::build::word;
use gen::types::{Binding, List, Type, CLIP, F32};
use oracle::decode;
use std::cmp::Ordering;
use std::collections::BTreeMap;
use std::fs;
use std::path::Path;

/// How many words a recorded list may have, where it is not at its most words or types.
const WORDS: usize = 60;

/// What tells recorded cases apart: the number; the sort of the asked type, 3 where there is none; how deep structs nest
/// in it; the sort of the binding; of accepted ones and of 4 the count of varyings, and whether the list out has fewer
/// words than they, as many, or more; whether the list has fewer than 1,024 words and 256 types, as many, or more.
#[derive(Debug, Eq, Ord, PartialEq, PartialOrd)]
struct Way {
    number: u32,
    asked: u32,
    nesting: usize,
    binding: u32,
    count: u32,
    room: Ordering,
    ends: [Ordering; 2],
}

fn binding_sort(words: &[u32]) -> u32 {
    match decode::lone_binding(words) {
        Ok(None) => 0,
        Ok(Some(decode::Binding::Location { .. })) => 1,
        Ok(Some(decode::Binding::BuiltIn { .. })) => 2,
        Ok(Some(decode::Binding::ClipDistances)) => 3,
        Err(_) => 4,
    }
}

impl Way {
    fn of(call: &PopulateCall, number: u32) -> Self {
        let types = decode::type_list(&call.types).unwrap_or_default();
        let asked = match types.get(call.asked as usize) {
            Some(decode::Type::Numeric(_)) => 0,
            Some(decode::Type::Array { .. }) => 1,
            Some(decode::Type::Struct(_)) => 2,
            None => 3,
        };
        let nesting = oracle::populate::nesting(&types).get(call.asked as usize).copied();
        let (words, count) = match model::populate::varyings(call) {
            Ok((words, count)) => (words.len(), count),
            Err(_) => (call.out.len(), 0),
        };
        Self {
            number,
            asked,
            nesting: nesting.unwrap_or(0),
            binding: binding_sort(&call.binding),
            count: match count {
                3..=9 => 3,
                10..=60 => 10,
                _ => count,
            },
            room: call.out.len().cmp(&words),
            ends: [call.types.len().cmp(&1024), call.types.first().map_or(0, |head| head & 0xffff).cmp(&256)],
        }
    }

    /// How many cases of this way are kept.
    fn most(&self) -> u32 {
        match self {
            Way { number: 0, .. } => 2,
            Way { number: 4, .. } => 1,
            Way { number: 90, asked: 3, .. } => 40,
            _ => 5,
        }
    }
}

/// Cases of the generator with the Rust's answers: of each way the first ones.
fn chosen(seed: u64, look: u64) -> Vec<Case> {
    let mut kept: BTreeMap<Way, u32> = BTreeMap::new();
    let mut found = Vec::new();
    for i in 0..look {
        let call = gen::populate::call(seed, i);
        let case = Case::Populate(Box::new(call.clone()));
        let Some(number) = oracle::answer(&case).number() else { continue };
        let mut way = Way::of(&call, number);
        let mut most = way.most();
        if way.ends != [Ordering::Less; 2] {
            // One accepted and one of each refusal.
            way = Way { asked: 0, nesting: 0, binding: 0, count: 0, room: Ordering::Equal, ..way };
            most = 1;
        } else if call.types.len() > WORDS {
            continue;
        }
        let count = kept.entry(way).or_default();
        *count += 1;
        if *count <= most {
            found.push(case);
        }
    }
    found
}

/// Three good calls: structs in structs; clip distances and built-ins; a struct behind an array, and bindings that nobody
/// looks at.
fn short_calls() -> [PopulateCall; 3] {
    let how = 2 << 12 | 3 << 15 | 1 << 18;
    let inner = vec![(1, Binding::Local(5, how)), (0, Binding::BuiltIn(3, 7))];
    let outer = vec![(2, Binding::None), (0, Binding::Local(0, 0))];
    let nested = vec![Type::Numeric(F32), Type::Numeric(F32 | 3), Type::Struct(inner), Type::Struct(outer)];
    let members = vec![(1, CLIP), (0, Binding::Local(9, 1 << 12)), (0, Binding::BuiltIn(1, 2))];
    let clip = vec![Type::Numeric(F32), Type::Array(0, 5), Type::Struct(members)];
    let local = vec![(0, Binding::Local(1, 0))];
    let around = vec![(2, Binding::BuiltIn(0, 1)), (1, CLIP), (0, Binding::None)];
    let behind = vec![Type::Numeric(1 << 4 | 4 << 6 | 7), Type::Struct(local), Type::Array(1, 3), Type::Struct(around)];
    let call = |types: Vec<Type>, asked: u32, binding: Binding| PopulateCall {
        types: List::new(types).words(),
        asked,
        binding: binding.words(),
        out: (0..6).map(|i| word(31, i)).collect(),
    };
    [call(nested, 3, Binding::None), call(clip, 2, Binding::Local(3, 0)), call(behind, 3, CLIP)]
}

/// Each bit of the list, of the asked type's number and of the binding; each cut; words behind.
fn damaged(call: &PopulateCall) -> Vec<PopulateCall> {
    let mut found = vec![call.clone()];
    let mut add = |change: &dyn Fn(&mut PopulateCall)| {
        let mut damaged = call.clone();
        change(&mut damaged);
        found.push(damaged);
    };
    for bit in 0..32 {
        for at in 0..call.types.len() {
            add(&|c| c.types[at] ^= 1 << bit);
        }
        for at in 0..call.binding.len() {
            add(&|c| c.binding[at] ^= 1 << bit);
        }
        add(&|c| c.asked ^= 1 << bit);
    }
    (0..call.types.len()).for_each(|at| add(&|c| c.types.truncate(at)));
    (0..call.binding.len()).for_each(|at| add(&|c| c.binding.truncate(at)));
    (0..call.out.len()).for_each(|at| add(&|c| c.out.truncate(at)));
    for behind in [0, u32::MAX] {
        add(&|c| c.types.push(behind));
        add(&|c| c.binding.push(behind));
        add(&|c| c.types.resize(1024, behind));
        add(&|c| c.types.resize(1025, behind));
    }
    found
}

/// Structs that name one struct nine times, eight levels of them, so that a plain walk takes some 50 million steps: where
/// nothing, one varying at each level, or more than is let through, is given.
fn wide() -> Vec<PopulateCall> {
    let local = |location| (0, Binding::Local(location, 0));
    let made = |giving: bool, many: bool| {
        let mut list = List::new([Type::Numeric(F32)]);
        let (mut last, mut chain) = (0, 0);
        for level in 0..8 {
            let nine = vec![(last, if many { Binding::Local(level, 0) } else { Binding::None }); 9];
            if giving {
                let mut members = nine.clone();
                members.extend([(chain, Binding::None), local(level)]);
                chain = list.add(Type::Struct(members));
            }
            last = list.add(Type::Struct(nine));
        }
        PopulateCall {
            types: list.words(),
            asked: if giving { chain } else { last },
            binding: Binding::None.words(),
            out: vec![0; 16],
        }
    };
    vec![made(false, false), made(true, false), made(false, true)]
}

pub fn record(dir: &Path, seed: u64, look: u64) -> std::io::Result<()> {
    let mut cases = chosen(seed, look);
    let from_rust = cases.len();
    let by_model = short_calls().iter().flat_map(damaged).chain(wide()).collect::<Vec<_>>();
    cases.extend(by_model.into_iter().map(|call| Case::Populate(Box::new(call))));
    let (mut input, mut output) = (String::new(), String::new());
    let mut numbers: BTreeMap<u32, u32> = BTreeMap::new();
    for (i, case) in cases.iter().enumerate() {
        let answer = if i < from_rust { oracle::answer(case) } else { model::answer(case) };
        *numbers.entry(answer.number().unwrap()).or_default() += 1;
        input.push_str(&format!("{case}\n"));
        output.push_str(&format!("{answer}\n"));
    }
    println!("{from_rust} cases of the generator, {} of damaged and wide lists", cases.len() - from_rust);
    println!("number:count  {numbers:?}");
    println!("{} bytes of input, {} of output", input.len(), output.len());
    fs::write(dir.join("stdin"), input)?;
    fs::write(dir.join("stdout"), output)
}

/// Whether the recorded answers are the model's and, where it is run, the Rust's.
pub fn check(dir: &Path) -> std::io::Result<u64> {
    let input = fs::read_to_string(dir.join("stdin"))?;
    let output = fs::read_to_string(dir.join("stdout"))?;
    let count = input.lines().count();
    let mut failed = (output.lines().count() != count) as u64;
    for (case, recorded) in input.lines().zip(output.lines()) {
        let Some(case) = Case::parse(case) else {
            failed += 1;
            continue;
        };
        let (by_oracle, by_model) = (oracle::answer(&case), model::answer(&case));
        let same = by_oracle == by_model || by_oracle == Answer::Long;
        failed += !(same && by_model.to_string() == recorded) as u64;
    }
    println!("{count} recorded cases, {failed} differences");
    Ok(failed)
}
