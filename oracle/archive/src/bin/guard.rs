//! Runs the archive on good, damaged and random calls, every buffer between guard words or, under memcheck, alone in its
//! own piece of memory; checks what was written, and every answer against the model's.

use archive::{check_stage, valgrind, Codes, Lent, PopulateLent};
use cases::{Answer, Case, PopulateCall, StageCall};
use gen::rng::Rng;
use std::collections::BTreeMap;
use std::process::{exit, Command};

/// A buffer between two rows of guard words, or with none and of exactly its size.
struct Guarded<T> {
    all: Box<[T]>,
    before: Vec<T>,
    guards: usize,
}

impl<T: Copy + PartialEq> Guarded<T> {
    fn new(content: &[T], guard: T, guards: usize) -> Self {
        let row = vec![guard; guards];
        let all = [&row[..], content, &row[..]].concat();
        Self { all: all.clone().into(), before: all, guards }
    }

    fn content(&mut self) -> &mut [T] {
        let end = self.all.len() - self.guards;
        &mut self.all[self.guards..end]
    }

    fn guards_hold(&self) -> bool {
        let (g, end) = (self.guards, self.all.len() - self.guards);
        self.all[..g] == self.before[..g] && self.all[end..] == self.before[end..]
    }

    fn unchanged(&self) -> bool {
        self.all[..] == self.before[..]
    }
}

/// Words of any sort: plain noise, or words with a kind below `kinds`; now and then very many.
fn noise(rng: &mut Rng, kinds: u32, usual: usize, most: usize) -> Vec<u32> {
    let most = if rng.once_in(16) { most } else { usual };
    let (count, plain) = (rng.index(most + 1), rng.flip());
    (0..count).map(|_| if plain { rng.word() } else { gen::build::word(rng.below(kinds), rng.word()) }).collect()
}

/// Changes a word of a list, puts one in, or cuts it.
fn damage(rng: &mut Rng, list: &mut Vec<u32>) {
    if list.is_empty() {
        return;
    }
    let at = rng.index(list.len());
    match rng.below(6) {
        0 => list[at] = rng.word(),
        1 => list.truncate(at),
        2 => list.insert(at, rng.word()),
        3 => list[at] = list[rng.index(list.len())],
        _ => list[at] ^= 1 << rng.below(32),
    }
}

/// A call that was good once, with some words of some buffers changed; often its pack's total and sum are right again.
fn damaged(rng: &mut Rng, mut call: StageCall) -> StageCall {
    for _ in 0..rng.range(1, 6) {
        let list = match rng.below(8) {
            0 => &mut call.layout,
            1 => &mut call.sizes,
            2 => &mut call.inputs,
            3 => &mut call.out,
            _ => &mut call.pack,
        };
        damage(rng, list);
    }
    if !rng.once_in(4) && call.pack.len() > 1 {
        gen::build::seal(&mut call.pack);
    }
    call
}

fn random(rng: &mut Rng) -> StageCall {
    let mut call = StageCall {
        pack: noise(rng, 21, 80, 4200),
        layout: noise(rng, 21, 40, 1100),
        sizes: noise(rng, 21, 40, 1100),
        inputs: noise(rng, 21, 40, 1100),
        out: noise(rng, 21, 140, 140),
        name: noise(rng, 21, 70, 70).iter().map(|w| *w as u8).collect(),
        stage: rng.below(6),
        topology: rng.below(7),
        mode: rng.below(3),
        dual: rng.below(3),
        depth: rng.below(3),
    };
    if rng.flip() && call.pack.len() > 1 {
        gen::build::seal(&mut call.pack);
    }
    call
}

fn call_of(seed: u64, i: u64) -> StageCall {
    let rng = &mut Rng::of(seed ^ 0x6775_6172_6473, i);
    match rng.below(10) {
        0..=4 => gen::stage::stage_call(seed, i),
        5..=7 => damaged(rng, gen::stage::stage_call(seed, i)),
        _ => random(rng),
    }
}

/// A call of `populate`: generated, damaged, or of random words.
fn populate_of(seed: u64, i: u64) -> PopulateCall {
    let rng = &mut Rng::of(seed ^ 0x7479_7065_73, i);
    let mut call = gen::populate::call(seed, i);
    match rng.below(10) {
        0..=4 => (),
        5..=7 => {
            for _ in 0..rng.range(1, 4) {
                match rng.below(6) {
                    0 => damage(rng, &mut call.binding),
                    1 => damage(rng, &mut call.out),
                    2 => call.asked ^= 1 << rng.below(32),
                    _ => damage(rng, &mut call.types),
                }
            }
        }
        _ => {
            call.types = noise(rng, 25, 40, 1100);
            call.binding = noise(rng, 25, 3, 3);
            if let Some(head) = call.types.first_mut() {
                *head = gen::build::word(21, rng.below(8));
            }
        }
    }
    call
}

/// The words of a list that are its free room: behind the last record that its first word counts, if it has as many.
fn free_room(list: &[u32], first: usize, width: usize) -> &[u32] {
    let count = list.first().map_or(0, |w| (w & 0xffff) as usize);
    list.get(first + width * count..).unwrap_or(&[])
}

/// The buffers of a stage call.
struct Buffers {
    pack: Guarded<u32>,
    layout: Guarded<u32>,
    sizes: Guarded<u32>,
    inputs: Guarded<u32>,
    out: Guarded<u32>,
    name: Guarded<u8>,
}

impl Buffers {
    fn new(c: &StageCall, guards: usize) -> Self {
        let list = |words: &[u32]| Guarded::new(words, 0xa5a5_5a5a, guards);
        Self {
            pack: list(&c.pack),
            layout: list(&c.layout),
            sizes: list(&c.sizes),
            inputs: list(&c.inputs),
            out: list(&c.out),
            name: Guarded::new(&c.name, 0xa5, guards),
        }
    }

    /// Memcheck takes what no check reads for never written.
    fn forget_free_room(&mut self) {
        valgrind::make_undefined(free_room(self.layout.content(), 1, 4));
        valgrind::make_undefined(free_room(self.sizes.content(), 1, 2));
        valgrind::make_undefined(free_room(self.inputs.content(), 2, 2));
        valgrind::make_undefined(self.out.content());
    }

    fn remember(&self) {
        for lent in [&self.layout, &self.sizes, &self.inputs, &self.out] {
            valgrind::make_defined(&lent.all);
        }
    }

    /// What the header says of a call with this answer.
    fn check(&self, at: u64, number: u32, mode: u32) {
        let [layout, sizes, out] = [&self.layout, &self.sizes, &self.out];
        let read = self.pack.unchanged() && self.inputs.unchanged() && self.name.unchanged();
        require(read, "a buffer to read was written", at);
        require([layout, sizes, out].iter().all(|l| l.guards_hold()), "written beside a list", at);
        if matches!(number, 1..=4 | 10) {
            require(layout.unchanged() && sizes.unchanged(), "a list written on a refusal of the call", at);
        }
        require(number == 0 || out.unchanged(), "the list out written on a refusal", at);
        let other = if mode == 1 { sizes } else { layout };
        require(other.unchanged(), "the other mode's list written", at);
    }
}

#[derive(Default)]
struct Run {
    guards: usize,
    memcheck: bool,
    numbers: BTreeMap<u32, u64>,
    populate_numbers: BTreeMap<u32, u64>,
    calls: u64,
}

fn require(held: bool, what: &str, at: u64) {
    if !held {
        println!("call {at}: {what}");
        exit(1);
    }
}

impl Run {
    /// Details of 0 to 5 words, those behind the third kept, compared with what the model has.
    fn details(&mut self, at: u64, answer: (u32, [u32; 3]), call: impl FnOnce(&mut [u32]) -> u32) {
        let mut lent = Guarded::new(&[7; 5][..at as usize % 6], 9, self.guards);
        let number = call(lent.content());
        require(lent.guards_hold(), "written beside the details", at);
        let wanted: Vec<u32> = answer.1.into_iter().chain([7, 7]).take(at as usize % 6).collect();
        require(number == answer.0 && *lent.content() == wanted[..], "another answer", at);
        self.calls += 1;
    }

    fn stage(&mut self, at: u64, c: &StageCall) {
        let case = Case::Stage(Box::new(c.clone()));
        let Answer::Stage { number, details, layout, sizes, out } = model::answer(&case) else {
            unreachable!("a stage call has a stage answer")
        };
        let mut b = Buffers::new(c, self.guards);
        if self.memcheck {
            b.forget_free_room();
        }
        self.details(at, (number, details), |details| {
            let mut lent = Lent {
                pack: b.pack.content(),
                layout: b.layout.content(),
                sizes: b.sizes.content(),
                inputs: b.inputs.content(),
                out: b.out.content(),
                name: b.name.content(),
                details,
            };
            check_stage(&mut lent, Codes::of(c))
        });
        b.remember();
        b.check(at, number, c.mode);
        let lists = [(b.layout, layout), (b.sizes, sizes), (b.out, out)];
        require(lists.into_iter().all(|(mut lent, due)| *lent.content() == due[..]), "other lists", at);
        *self.numbers.entry(number).or_default() += 1;
    }

    fn populate(&mut self, at: u64, c: &PopulateCall) {
        let (number, first, due) = model::populate::answer(c);
        let lend = |words: &[u32]| Guarded::new(words, 0xa5a5_5a5a, self.guards);
        let (mut types, mut binding, mut out) = (lend(&c.types), lend(&c.binding), lend(&c.out));
        if self.memcheck {
            let used = model::populate::used(&c.types).unwrap_or(c.types.len());
            valgrind::make_undefined(&types.content()[used..]);
            valgrind::make_undefined(out.content());
        }
        self.details(at, (number, [first, 0, 0]), |details| {
            let (types, binding, out) = (types.content(), binding.content(), out.content());
            archive::populate(&mut PopulateLent { types, binding, out, details }, c.asked)
        });
        valgrind::make_defined(&types.all);
        valgrind::make_defined(&out.all);
        require(types.unchanged() && binding.unchanged(), "a buffer to read was written", at);
        require(out.guards_hold(), "written beside a list", at);
        require(number == 0 || out.unchanged(), "the list out written on a refusal", at);
        require(*out.content() == due[..], "another list out", at);
        *self.populate_numbers.entry(number).or_default() += 1;
    }

    fn plain(&mut self, at: u64, case: Case, call: impl FnOnce(&mut [u32]) -> u32) {
        match model::answer(&case) {
            Answer::Plain { number, details } => self.details(at, (number, details), call),
            answer => {
                require(Some(call(&mut [])) == answer.number(), "another answer", at);
                self.calls += 1;
            }
        }
    }

    fn all(&mut self, seed: u64, i: u64) {
        let c = call_of(seed, i);
        self.stage(i, &c);
        let mut pack = Guarded::new(&c.pack, 0xa5a5_5a5a, self.guards);
        self.plain(i, Case::Name { pack: c.pack.clone(), stage: c.stage }, |d| {
            archive::entry_point(pack.content(), c.stage, d)
        });
        require(pack.unchanged(), "the pack was written", i);
        let rng = &mut Rng::of(seed ^ 0x6c65_6166, i);
        let code = if rng.once_in(8) { rng.word() } else { rng.below(90) };
        let mut ty = || match rng.below(8) {
            0 => rng.word(),
            1 => gen::build::word(13, rng.below(1 << 10)),
            _ => gen::build::word(13, gen::good::numeric_type(rng)),
        };
        let (a, b) = (ty(), ty());
        self.plain(i, Case::Vertex(code), |d| archive::vertex_format(code, d));
        self.plain(i, Case::Texture(code), |d| archive::texture_format(code, d));
        self.plain(i, Case::Format(code, a), |d| archive::check_texture_format(code, a, d));
        self.plain(i, Case::Subtype(a, b), |_| archive::is_subtype_of(a, b));
        self.populate(i, &populate_of(seed, i));
    }
}

/// Runs this program again under memcheck.
fn under_memcheck(count: u64, seed: u64) -> ! {
    let run = Command::new("valgrind")
        .args(["--tool=memcheck", "--error-exitcode=3", "--leak-check=no", "--redzone-size=256"])
        .arg(std::env::current_exe().unwrap())
        .args(["inside", &count.to_string(), &seed.to_string()])
        .status()
        .expect("valgrind runs");
    exit(run.code().unwrap_or(3))
}

fn main() {
    let args: Vec<String> = std::env::args().skip(1).collect();
    let number = |at: usize, usual| args.get(at).map_or(usual, |n: &String| n.parse().unwrap());
    let memcheck = match args.first().map(String::as_str) {
        Some("memcheck") => under_memcheck(number(1, 3000), number(2, 1)),
        first => first == Some("inside"),
    };
    let (count, seed) = if memcheck { (number(1, 0), number(2, 1)) } else { (number(0, 1_000_000), number(1, 1)) };
    let guards = if memcheck { 0 } else { 16 };
    let mut run = Run { guards, memcheck, ..Run::default() };
    for i in 0..count {
        run.all(seed, i);
    }
    for (what, numbers) in [("stage calls", &run.numbers), ("calls of populate", &run.populate_numbers)] {
        let numbers: Vec<String> = numbers.iter().map(|(number, count)| format!("{number}:{count}")).collect();
        println!("{count} {what}, number:count  {}", numbers.join(" "));
    }
    println!("{} calls in all: nothing written that was not due, every answer the model's", run.calls);
}
