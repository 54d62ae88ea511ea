//! Runs the oracle and the model, or the oracle and the proved library, on the same cases, in one process, and reports
//! where they differ. See README.md.

use cases::{Answer, Case};
use std::collections::BTreeMap;
use std::process::exit;

fn usage() -> ! {
    eprintln!("usage: compare [--library] [--count N] [--seed N] [--no-leaves] [--quiet]");
    exit(2)
}

/// A line, with long fields cut.
fn short(line: impl std::fmt::Display) -> String {
    let cut = |field: &str| match field.get(..60) {
        Some(start) if field.len() > 80 => format!("{start}.. ({} words)", field.split(',').count()),
        _ => field.to_string(),
    };
    line.to_string().split(' ').map(cut).collect::<Vec<_>>().join(" ")
}

#[derive(Default)]
struct Tally {
    same: u64,
    differ: u64,
    numbers: BTreeMap<Option<u32>, u64>,
    shown: u32,
}

impl Tally {
    fn add(
        &mut self,
        what: &str,
        at: u64,
        case: &Case,
        (judge, first): (&str, &Answer),
        (by, second): (&str, &Answer),
    ) {
        *self.numbers.entry(first.number()).or_default() += 1;
        if first == second {
            self.same += 1;
            return;
        }
        self.differ += 1;
        if self.shown < 3 {
            self.shown += 1;
            println!("difference, {what}, case {at} of the run:");
            println!("  case    {}", short(case));
            println!("  {judge:7} {}", short(first));
            println!("  {by:7} {}", short(second));
        }
    }

    fn line(&self, what: &str) {
        println!("{what}: {} cases, {} differences", self.same + self.differ, self.differ);
    }

    fn numbers(&self, what: &str) {
        let all: Vec<String> = self
            .numbers
            .iter()
            .map(|(number, count)| match number {
                Some(number) => format!("{number}:{count}"),
                None => format!("panic:{count}"),
            })
            .collect();
        println!("{what}, number:count  {}", all.join(" "));
    }
}

/// Calls of `populate`; the number of differences.
fn populate(seed: u64, count: u64, quiet: bool, by: &str, other: impl Fn(&Case) -> Option<Answer>) -> u64 {
    let (mut all, mut long) = (Tally::default(), Tally::default());
    let (mut accepted, mut with_varyings, mut varyings) = (0u64, 0u64, 0u64);
    for i in 0..count {
        let case = Case::Populate(Box::new(gen::populate::call(seed, i)));
        let by_oracle = oracle::answer(&case);
        let by_other = other(&case).unwrap();
        if by_oracle == Answer::Long {
            // The Rust was not run; here the model is the judge.
            long.add("populate, long", i, &case, ("model", &model::answer(&case)), (by, &by_other));
            continue;
        }
        all.add("populate", i, &case, ("oracle", &by_oracle), (by, &by_other));
        if let Answer::Populate { number: 0, details: [count, ..], .. } = by_oracle {
            accepted += 1;
            with_varyings += (count > 0) as u64;
            varyings += u64::from(count);
        }
    }
    all.line("populate");
    println!("  {accepted} lists accepted, {with_varyings} of them with {varyings} varyings");
    if !quiet {
        all.numbers("  populate");
    }
    println!("  {} others skipped, because the Rust would walk too long", long.same + long.differ);
    if by == "library" {
        println!("  {} of them not as the model has it", long.differ);
    }
    all.differ + long.differ
}

fn main() {
    let (mut count, mut seed, mut leaves, mut quiet, mut linked) = (300_000u64, 1u64, true, false, false);
    let mut args = std::env::args().skip(1);
    while let Some(arg) = args.next() {
        let mut number = || args.next().and_then(|n| n.parse().ok()).unwrap_or_else(|| usage());
        match &arg[..] {
            "--count" => count = number(),
            "--seed" => seed = number(),
            "--library" => linked = true,
            "--no-leaves" => leaves = false,
            "--quiet" => quiet = true,
            _ => usage(),
        }
    }
    if linked && !library::LINKED {
        eprintln!("the library's archive was not there when this was built");
        exit(2);
    }
    let by = if linked { "library" } else { "model" };
    let other = |case: &Case| if linked { library::answer(case) } else { Some(model::answer(case)) };
    oracle::silence_panics();

    let mut failed = 0;
    if leaves {
        for sort in gen::leaf::SORTS {
            let mut tally = Tally::default();
            for (i, case) in (0..).zip(gen::leaf::cases(sort).unwrap()) {
                if let Some(other) = other(&case) {
                    tally.add(sort, i, &case, ("oracle", &oracle::answer(&case)), (by, &other));
                }
            }
            // The library has no function for `use` and `derive`.
            if tally.same + tally.differ > 0 {
                tally.line(sort);
            }
            failed += tally.differ;
        }
    }

    let mut names = Tally::default();
    for i in 0..count / 10 {
        let case = gen::stage::name_case(seed, i);
        names.add("name", i, &case, ("oracle", &oracle::answer(&case)), (by, &other(&case).unwrap()));
    }
    names.line("name");
    failed += names.differ;

    failed += populate(seed, count / 3, quiet, by, other);

    let (mut inside, mut outside, mut order) = (Tally::default(), Tally::default(), Tally::default());
    let mut another_first = 0u64;
    for i in 0..count {
        let case = Case::Stage(Box::new(gen::stage::stage_call(seed, i)));
        let Case::Stage(call) = &case else { unreachable!() };
        let by_model = model::answer(&case);
        let by_oracle = oracle::answer(&case);
        let by_other = other(&case).unwrap();
        let pair = (by, &by_other);
        if model::domain::inside(call, by_model.number().unwrap()) {
            inside.add("stage, inside the domain", i, &case, ("oracle", &by_oracle), pair);
        } else if model::domain::several_pairs_fail(call) {
            // The Rust walks its pairs in the order of a hash set; here the model is the judge.
            another_first += (by_oracle != by_model) as u64;
            order.add("stage, several pairs fail", i, &case, ("model", &by_model), pair);
        } else {
            outside.add("stage, outside the domain", i, &case, ("oracle", &by_oracle), pair);
        }
    }
    inside.line("stage, inside the domain");
    if !quiet {
        inside.numbers("  inside");
    }
    outside.line("stage, outside the domain");
    if !quiet {
        outside.numbers("  outside");
    }
    order.line("stage, outside because several pairs fail");
    println!("  {another_first} of them with another pair first in the Rust");
    failed += inside.differ + outside.differ + order.differ;
    println!("{failed} differences");
    exit((failed != 0) as i32);
}
