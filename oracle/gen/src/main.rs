//! Writes case lines. See README.md.

use cases::{Answer, Case};
use std::io::{self, BufWriter, Write};
use std::process::exit;

fn usage() -> ! {
    eprintln!(
        "usage: gen SORT [--count N] [--seed N] [--from N] [--only-domain]
  SORT   stage, name, populate, or a leaf sort: vertex, texture, subtype, format, use, derive (all cases of it)"
    );
    exit(2)
}

/// `D ` before a stage call inside demand 2's domain, `O ` before one outside.
fn mark(case: &Case) -> &'static str {
    let Case::Stage(call) = case else {
        return "";
    };
    let number = match model::answer(case) {
        Answer::Stage { number, .. } => number,
        _ => unreachable!("a stage call has a stage answer"),
    };
    if model::domain::inside(call, number) {
        "D "
    } else {
        "O "
    }
}

fn main() -> io::Result<()> {
    let mut args = std::env::args().skip(1);
    let Some(sort) = args.next() else { usage() };
    let (mut count, mut seed, mut from, mut only_domain) = (1000u64, 1u64, 0u64, false);
    while let Some(arg) = args.next() {
        let mut number = || args.next().and_then(|n| n.parse().ok()).unwrap_or_else(|| usage());
        match &arg[..] {
            "--count" => count = number(),
            "--seed" => seed = number(),
            "--from" => from = number(),
            "--only-domain" => only_domain = true,
            _ => usage(),
        }
    }

    let mut out = BufWriter::new(io::stdout().lock());
    if let Some(cases) = gen::leaf::cases(&sort) {
        for case in cases {
            writeln!(out, "{case}")?;
        }
        return out.flush();
    }
    for i in from..from + count {
        let case = match &sort[..] {
            "stage" => Case::Stage(Box::new(gen::stage::stage_call(seed, i))),
            "name" => gen::stage::name_case(seed, i),
            "populate" => Case::Populate(Box::new(gen::populate::call(seed, i))),
            _ => usage(),
        };
        let mark = mark(&case);
        if !only_domain || mark == "D " {
            writeln!(out, "{mark}{case}")?;
        }
    }
    out.flush()
}
