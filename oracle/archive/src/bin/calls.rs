//! Writes the calls that are counted, a line each: the label, a tab and the case (README.md, 'The case format').
//!   calls              stage checks, and behind each the choice of an entry point on its pack
//!   calls populate     those of `populate`

use archive::shapes;
use cases::Case;

fn stages() {
    for (label, call) in shapes::all().into_iter().chain(shapes::series()) {
        let choice = Case::Name { pack: call.pack.clone(), stage: call.stage };
        println!("{label}\t{}", Case::Stage(Box::new(call)));
        println!("{label}\t{choice}");
    }
}

fn populate() {
    for (label, call) in shapes::populate() {
        println!("{label}\t{}", Case::Populate(Box::new(call)));
    }
}

fn main() {
    match std::env::args().nth(1).as_deref() {
        Some("populate") => populate(),
        _ => stages(),
    }
}
