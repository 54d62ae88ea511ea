//! Counts the instructions of a stage check and of `populate`, the archive's and the Rust's on the same calls, under callgrind.
//!   count [stages|populate]      the table of one of them, both by default

use archive::{check_stage, entry_point, shapes, valgrind, Codes, Lent, PopulateLent};
use cases::{Answer, Case, PopulateCall, StageCall};
use oracle::decode;
use oracle::validation::shader_io_deductions as rust;
use std::collections::HashMap;
use std::ffi::CString;
use std::hint::black_box;
use std::process::Command;

/// How often the Rust is counted on a call: its count depends on what the allocator has at hand, ours does not.
const TIMES: usize = 9;

fn calls() -> Vec<(String, StageCall)> {
    shapes::all().into_iter().chain(shapes::series()).collect()
}

/// Counts what a call takes. It is a function of its own so that nothing of what is built before is counted with it.
#[inline(never)]
fn counted<T>(label: &str, call: impl FnOnce() -> T) -> T {
    let label = CString::new(label).unwrap();
    valgrind::count(c"between");
    let found = call();
    valgrind::count(&label);
    found
}

/// One call of the archive: the number and the list out.
fn archive(call: &StageCall, label: &str) -> (u32, Vec<u32>) {
    let StageCall { pack, mut layout, mut sizes, inputs, mut out, name, .. } = call.clone();
    let (mut details, codes) = ([0; 3], Codes::of(call));
    let mut lent = Lent {
        pack: &pack,
        layout: &mut layout,
        sizes: &mut sizes,
        inputs: &inputs,
        out: &mut out,
        name: &name,
        details: &mut details,
    };
    let lent = black_box(&mut lent);
    let number = counted(&format!("archive: {label}"), || check_stage(lent, black_box(codes)));
    (number, out)
}

/// The choice of an entry point without a name: the check of the pack and little else.
fn pack_alone(call: &StageCall, label: &str) {
    let (pack, mut details) = (black_box(&call.pack), [0; 3]);
    counted(&format!("pack: {label}"), || entry_point(pack, black_box(call.stage), &mut details));
}

/// One call of the Rust, with all that it works on built before.
fn rust(call: &StageCall, label: &str) -> (u32, Vec<u32>) {
    let pack = decode::pack(&call.pack).unwrap();
    let layout = decode::layout(&call.layout).unwrap();
    let sizes = decode::sizes(&call.sizes).unwrap();
    let inputs = decode::stage_list(&call.inputs).unwrap();
    let names = rust::Names::of(pack.entry_points.iter().map(|e| &e.name[..]));
    let interface = rust::interface(&pack, &names, None);
    let name = names.string(&call.name);
    let mut workings = rust::Workings::new(call.mode == 1, &layout, &sizes);
    let asked = rust::Asked::of(call, &inputs);
    let (workings, interface, name) = (black_box(&mut workings), black_box(&interface), black_box(&name));
    let found = counted(&format!("rust: {label}"), || workings.ask(interface, name, black_box(asked)));
    match found.words() {
        Ok(words) => (0, words),
        Err((number, _)) => (number, call.out.clone()),
    }
}

/// One call of `populate`: the number and the count of varyings.
fn archive_populate(call: &PopulateCall, label: &str) -> (u32, u32) {
    let PopulateCall { types, asked, binding, mut out } = call.clone();
    let mut details = [0; 3];
    let mut lent = PopulateLent { types: &types, binding: &binding, out: &mut out, details: &mut details };
    let lent = black_box(&mut lent);
    let number = counted(&format!("archive: {label}"), || archive::populate(lent, black_box(asked)));
    (number, details[0])
}

/// The Rust's walk over a list, with all that it works on built before: the number and the count of varyings.
fn rust_populate(call: &PopulateCall, label: &str) -> (u32, u32) {
    let types = decode::type_list(&call.types).unwrap();
    let binding = decode::lone_binding(&call.binding).unwrap();
    let walk = rust::populate::Walk::new(&types, call.asked as usize, binding);
    let walk = black_box(&walk);
    match counted(&format!("rust: {label}"), || walk.run()).count() {
        64.. => (92, 0),
        count => (0, count as u32),
    }
}

/// Whether a call is wanted: all are, or those of a part, or the one of a label.
fn wanted(only: Option<&str>, part: &str, label: &str) -> bool {
    only.is_none_or(|o| o == part || o == label)
}

/// What runs under callgrind. The first call of each is not counted: it resolves names in shared libraries.
fn inside(only: Option<&str>) {
    for (label, call) in calls().into_iter().filter(|(label, _)| wanted(only, "stages", label)) {
        archive(&call, "first");
        rust(&call, "first");
        pack_alone(&call, &label);
        let answer = archive(&call, &label);
        for k in 0..TIMES {
            assert_eq!(rust(&call, &format!("{label} #{k}")), answer, "{label}");
        }
        println!("{label}\t{}\t{}", call.pack.len(), answer.0);
    }
    for (label, call) in shapes::populate().into_iter().filter(|(label, _)| wanted(only, "populate", label)) {
        archive_populate(&call, "first");
        let answer = archive_populate(&call, &label);
        if oracle::answer(&Case::Populate(Box::new(call.clone()))) != Answer::Long {
            rust_populate(&call, "first");
            for k in 0..TIMES {
                assert_eq!(rust_populate(&call, &format!("{label} #{k}")), answer, "{label}");
            }
        }
        println!("{label}\t{}\t{}", call.types.len(), answer.0);
    }
    counted("nothing", || ());
}

/// The counts by label, from the parts that callgrind wrote.
fn counts(text: &str) -> HashMap<String, u64> {
    let (mut label, mut found) = (String::new(), HashMap::new());
    for line in text.lines() {
        if let Some(l) = line.strip_prefix("desc: Trigger: ") {
            label = l.trim_start_matches("Client Request: ").to_string();
        } else if let Some(n) = line.strip_prefix("summary: ") {
            found.insert(label.clone(), n.trim().parse().unwrap());
        }
    }
    found
}

/// The median of the Rust's counts of a call, if it was made.
fn median(found: &HashMap<String, u64>, label: &str) -> Option<u64> {
    let mut all: Vec<u64> = (0..TIMES).filter_map(|k| found.get(&format!("rust: {label} #{k}")).copied()).collect();
    all.sort_unstable();
    all.get(TIMES / 2).copied()
}

/// A number with commas.
fn grouped(n: u64) -> String {
    match n {
        0..=999 => n.to_string(),
        _ => format!("{},{:03}", grouped(n / 1000), n % 1000),
    }
}

/// What a run under callgrind counted, and what it answered: words and number by label.
struct Run {
    found: HashMap<String, u64>,
    answers: HashMap<String, (String, String)>,
}

impl Run {
    fn new(only: Option<&str>) -> Self {
        let file = std::env::temp_dir().join(format!("bokwingi-counts-{}", std::process::id()));
        let run = Command::new("valgrind")
            .args(["--tool=callgrind", "--quiet", "--combine-dumps=yes"])
            .arg(format!("--callgrind-out-file={}", file.display()))
            .arg(std::env::current_exe().unwrap())
            .arg("inside")
            .args(only)
            .output()
            .expect("valgrind runs");
        assert!(run.status.success(), "{}", String::from_utf8_lossy(&run.stderr));
        let found = counts(&std::fs::read_to_string(&file).unwrap());
        std::fs::remove_file(&file).unwrap();
        let mut answers = HashMap::new();
        for line in String::from_utf8(run.stdout).unwrap().lines() {
            let [label, words, number] = line.split('\t').collect::<Vec<_>>()[..] else { unreachable!() };
            answers.insert(label.to_string(), (words.to_string(), number.to_string()));
        }
        Self { found, answers }
    }

    /// What a call took beyond the counting itself.
    fn count(&self, side: &str, label: &str) -> u64 {
        self.found[&format!("{side}: {label}")] - self.found["nothing"]
    }

    /// The Rust's count, and the archive's in terms of it; nothing where the Rust was not run.
    fn rust(&self, label: &str) -> (String, String) {
        match median(&self.found, label) {
            Some(rust) => {
                let rust = rust - self.found["nothing"];
                (grouped(rust), format!("{:.2}", self.count("archive", label) as f64 / rust as f64))
            }
            None => Default::default(),
        }
    }

    fn stages(&self) {
        println!("| call | words | answer | archive | `bokwingi_entry_point` | Rust | archive / Rust |");
        println!("|---|---|---|---|---|---|---|");
        for (label, _) in calls() {
            let ((words, number), (rust, ratio)) = (&self.answers[&label], self.rust(&label));
            let [ours, pack] = ["archive", "pack"].map(|side| grouped(self.count(side, &label)));
            println!("| {label} | {words} | {number} | {ours} | {pack} | {rust} | {ratio} |");
        }
    }

    fn populate(&self) {
        println!("| call | words | answer | archive | Rust | archive / Rust |");
        println!("|---|---|---|---|---|---|");
        for (label, _) in shapes::populate() {
            let ((words, number), (rust, ratio)) = (&self.answers[&label], self.rust(&label));
            let ours = grouped(self.count("archive", &label));
            println!("| {label} | {words} | {number} | {ours} | {rust} | {ratio} |");
        }
    }
}

fn main() {
    let mut args = std::env::args().skip(1);
    match args.next().as_deref() {
        Some("inside") => inside(args.next().as_deref()),
        Some("stages") => Run::new(Some("stages")).stages(),
        Some("populate") => Run::new(Some("populate")).populate(),
        _ => {
            let run = Run::new(None);
            run.stages();
            println!();
            run.populate();
        }
    }
}
