//! Writes the recorded calls of the program crates `test_stages` and `test_populate`, and what the Rust answers to them. See
//! README.md.

mod populate;

use cases::{Answer, Case, StageCall};
use std::collections::BTreeMap;
use std::fmt::Write;
use std::fs;
use std::path::Path;
use std::process::exit;

fn usage() -> ! {
    eprintln!(
        "usage: record write|populate-write DIR [--seed N] [--look N]
       record check|populate-check DIR"
    );
    exit(2)
}

fn words_of(call: &StageCall) -> usize {
    call.pack.len() + call.layout.len() + call.sizes.len() + call.inputs.len() + call.out.len()
}

/// The twelve words before the lists of a case, then the lists.
fn encode(case: &Case, to: &mut Vec<u8>) {
    let choice;
    let (sort, call) = match case {
        Case::Stage(call) => (0, &**call),
        Case::Name { pack, stage } => {
            choice = StageCall { pack: pack.clone(), stage: *stage, ..StageCall::default() };
            (1, &choice)
        }
        _ => unreachable!("only stage checks and choices are recorded"),
    };
    let lists = [&call.pack, &call.layout, &call.sizes, &call.inputs, &call.out];
    let mut words = vec![sort];
    words.extend(lists.map(|l| l.len() as u32));
    words.extend([call.name.len() as u32, call.stage, call.topology, call.mode, call.dual, call.depth]);
    words.extend(lists.into_iter().flatten());
    to.extend(words.iter().flat_map(|w| w.to_le_bytes()));
    to.extend(&call.name);
}

struct Reader<'a>(&'a [u8]);

impl Reader<'_> {
    fn bytes(&mut self, count: usize) -> Vec<u8> {
        let (part, rest) = self.0.split_at(count);
        self.0 = rest;
        part.to_vec()
    }

    fn words(&mut self, count: u32) -> Vec<u32> {
        let bytes = self.bytes(4 * count as usize);
        bytes.chunks(4).map(|b| u32::from_le_bytes(b.try_into().unwrap())).collect()
    }

    fn case(&mut self) -> Case {
        let head = self.words(12);
        let mut list = |at: usize| self.words(head[at]);
        let (pack, layout, sizes, inputs, out) = (list(1), list(2), list(3), list(4), list(5));
        let name = self.bytes(head[6] as usize);
        let (stage, topology, mode, dual, depth) = (head[7], head[8], head[9], head[10], head[11]);
        if head[0] != 0 {
            return Case::Name { pack, stage };
        }
        let call = StageCall { pack, layout, sizes, inputs, out, name, stage, topology, mode, dual, depth };
        Case::Stage(Box::new(call))
    }
}

fn changes(before: &[u32], after: &[u32], line: &mut String) {
    assert_eq!(before.len(), after.len());
    line.push_str(" ;");
    for (at, (old, new)) in before.iter().zip(after).enumerate() {
        if old != new {
            write!(line, " {at}:{new:08x}").unwrap();
        }
    }
}

/// The line that `test_stages` is to print.
fn line(case: &Case, answer: &Answer) -> String {
    let mut line = String::new();
    let mut start = |number: &u32, [a, b, c]: &[u32; 3]| write!(line, "{number} {a} {b} {c}").unwrap();
    match (case, answer) {
        (Case::Stage(call), Answer::Stage { number, details, layout, sizes, out }) => {
            start(number, details);
            changes(&call.layout, layout, &mut line);
            changes(&call.sizes, sizes, &mut line);
            changes(&call.out, out, &mut line);
        }
        (_, Answer::Plain { number, details }) => start(number, details),
        _ => unreachable!("a stage check and a choice have no other answers"),
    }
    line
}

/// How many words a recorded case may have, where no list is at its most words.
const WORDS: usize = 170;

/// What tells recorded cases apart: the number, whether it is in the domain, mode, stage, and which lists are at or past
/// their most words.
type Sort = (u32, bool, u32, u32, [usize; 5]);

/// For pack, layout, sizes, inputs and list out: 0 below the most words of such a list, 1 at it, 2 past it.
fn ends(call: &StageCall) -> [usize; 5] {
    let end = |list: &[u32], most: usize| (list.len() >= most) as usize + (list.len() > most) as usize;
    [
        end(&call.pack, 4096),
        end(&call.layout, 1024),
        end(&call.sizes, 1024),
        end(&call.inputs, 1024),
        end(&call.out, 1024),
    ]
}

/// How many cases of a sort are kept: more in the domain, and more accepted ones.
fn most(number: u32, inside: bool) -> u32 {
    match (number, inside) {
        (0, true) => 50,
        (0, false) => 10,
        (_, true) => 10,
        (_, false) => 3,
    }
}

/// The sort of a stage check and how many of it are kept; none if it is too long to be recorded.
fn stage_sort(call: &StageCall, number: u32) -> Option<(Sort, u32)> {
    let ends = ends(call);
    if ends != [0; 5] {
        // An accepted one and a refused one of each.
        return Some(((number.min(1), false, 0, 0, ends), 1));
    }
    let case = Case::Stage(Box::new(call.clone()));
    let inside = model::domain::inside(call, model::answer(&case).number()?);
    let sort = (number, inside, call.mode.min(2), call.stage.min(5), ends);
    (words_of(call) <= WORDS).then_some((sort, most(number, inside)))
}

fn chosen(seed: u64, look: u64) -> Vec<(Case, Answer)> {
    let mut kept: BTreeMap<Sort, u32> = BTreeMap::new();
    let mut found = Vec::new();
    let mut keep = |sort: Sort, most: u32, case: Case, answer: Answer| {
        let count = kept.entry(sort).or_default();
        *count += 1;
        if *count <= most {
            found.push((case, answer));
        }
    };
    for i in 0..look {
        let call = gen::stage::stage_call(seed, i);
        if model::domain::several_pairs_fail(&call) {
            continue;
        }
        let case = Case::Stage(Box::new(call.clone()));
        let answer = oracle::answer(&case);
        let Some(number) = answer.number() else { continue };
        if let Some((sort, most)) = stage_sort(&call, number) {
            keep(sort, most, case, answer);
        }
    }
    for i in 0..look / 20 {
        let case = gen::stage::name_case(seed, i);
        let answer = oracle::answer(&case);
        let (Case::Name { pack, stage }, Some(number)) = (&case, answer.number()) else { continue };
        if pack.len() <= WORDS {
            let sort = (number, true, 3, (*stage).min(5), [0; 5]);
            keep(sort, 6, case, answer);
        }
    }
    found
}

fn record(dir: &Path, seed: u64, look: u64) -> std::io::Result<()> {
    let cases = chosen(seed, look);
    let mut input = (cases.len() as u32).to_le_bytes().to_vec();
    let mut output = String::new();
    let mut domain = 0;
    for (case, answer) in &cases {
        if let (Case::Stage(call), Some(number)) = (case, answer.number()) {
            domain += model::domain::inside(call, number) as u32;
        }
        encode(case, &mut input);
        output.push_str(&line(case, answer));
        output.push('\n');
    }
    println!("{} cases, {domain} in the domain", cases.len());
    println!("{} bytes of input, {} of output", input.len(), output.len());
    fs::write(dir.join("stdin"), input)?;
    fs::write(dir.join("stdout"), output)
}

/// Whether the recorded answers are what the Rust answers to the recorded calls.
fn check(dir: &Path) -> std::io::Result<u64> {
    let input = fs::read(dir.join("stdin"))?;
    let output = fs::read_to_string(dir.join("stdout"))?;
    let mut reader = Reader(&input);
    let count = reader.words(1)[0] as usize;
    let lines: Vec<&str> = output.lines().collect();
    let mut failed = (lines.len() != count) as u64;
    for recorded in lines {
        let case = reader.case();
        let answer = oracle::answer(&case);
        failed += (answer == Answer::Panic || line(&case, &answer) != recorded) as u64;
    }
    failed += !reader.0.is_empty() as u64;
    println!("{count} recorded cases, {failed} differences");
    Ok(failed)
}

fn main() -> std::io::Result<()> {
    let mut args = std::env::args().skip(1);
    let (Some(what), Some(dir)) = (args.next(), args.next()) else { usage() };
    let (mut seed, mut look) = (1u64, 200_000u64);
    while let Some(arg) = args.next() {
        let number = args.next().and_then(|n| n.parse().ok()).unwrap_or_else(|| usage());
        match &arg[..] {
            "--seed" => seed = number,
            "--look" => look = number,
            _ => usage(),
        }
    }
    oracle::silence_panics();
    match &what[..] {
        "write" => record(Path::new(&dir), seed, look),
        "check" => exit((check(Path::new(&dir))? != 0) as i32),
        "populate-write" => populate::record(Path::new(&dir), seed, look),
        "populate-check" => exit((populate::check(Path::new(&dir))? != 0) as i32),
        _ => usage(),
    }
}
