//! Measures the deepest stack of each function of the archive: it is run on a stack of its own that was painted before.

use archive::{check_stage, shapes, Codes, Lent, PopulateLent};
use std::arch::asm;

const WORDS: usize = 8192;
const PAINT: u64 = 0x5afe_57ac_c0de_1dea;

/// A painted stack, and the most bytes of it that were used.
struct Stack {
    words: Vec<u64>,
    deepest: usize,
}

extern "C" fn run<F: FnMut()>(f: *mut F) {
    unsafe { (*f)() }
}

impl Stack {
    fn new() -> Self {
        Self { words: vec![PAINT; WORDS], deepest: 0 }
    }

    /// Runs a function on this stack and returns how many bytes it used, and paints them again.
    fn bytes<F: FnMut()>(&mut self, mut f: F) -> usize {
        let top = self.words.as_mut_ptr_range().end as usize & !15;
        let run: extern "C" fn(*mut F) = run::<F>;
        unsafe {
            asm!(
                "mov r12, rsp",
                "mov rsp, {top}",
                "call {run}",
                "mov rsp, r12",
                top = in(reg) top,
                run = in(reg) run,
                in("rdi") &mut f,
                out("r12") _,
                clobber_abi("C"),
            );
        }
        let free = self.words.iter().position(|w| *w != PAINT).unwrap_or(WORDS);
        self.words[free..].fill(PAINT);
        8 * (WORDS - free)
    }

    /// The same, kept if it is the most so far. The first run of a function resolves names in shared libraries.
    fn measure<F: FnMut()>(&mut self, mut f: F) {
        f();
        self.deepest = self.deepest.max(self.bytes(f));
    }
}

fn stage_calls(count: u64) -> impl Iterator<Item = cases::StageCall> {
    let shapes = shapes::all().into_iter().chain(shapes::series()).map(|(_, call)| call);
    shapes.chain((0..count).map(|i| gen::stage::stage_call(1, i)))
}

/// Stage checks and choices of an entry point. The very first stage check is not measured, and no other is run twice,
/// because it changes the lists.
fn on_packs(count: u64) -> (u64, Stack, Stack) {
    let (mut calls, mut stage, mut entry, mut details) = (0, Stack::new(), Stack::new(), [0; 3]);
    for mut call in stage_calls(count) {
        let codes = Codes::of(&call);
        let mut lent = Lent {
            pack: &call.pack,
            layout: &mut call.layout,
            sizes: &mut call.sizes,
            inputs: &call.inputs,
            out: &mut call.out,
            name: &call.name,
            details: &mut details,
        };
        let bytes = stage.bytes(|| _ = check_stage(&mut lent, codes));
        if calls > 0 {
            stage.deepest = stage.deepest.max(bytes);
        }
        entry.measure(|| _ = archive::entry_point(&call.pack, call.stage, &mut details));
        calls += 1;
    }
    (calls, stage, entry)
}

/// `populate` on type lists.
fn on_types(count: u64) -> (u64, Stack) {
    let (mut calls, mut stack, mut details) = (0, Stack::new(), [0; 3]);
    let shapes = shapes::populate().into_iter().map(|(_, call)| call);
    for mut call in shapes.chain((0..count).map(|i| gen::populate::call(1, i))) {
        let (types, binding, out) = (&call.types, &call.binding, &mut call.out);
        let mut lent = PopulateLent { types, binding, out, details: &mut details };
        stack.measure(|| _ = archive::populate(&mut lent, call.asked));
        calls += 1;
    }
    (calls, stack)
}

/// A function of a code and a word, on codes in and out of range and several words.
fn on_codes(mut f: impl FnMut(u32, u32)) -> usize {
    let mut stack = Stack::new();
    for code in 0..128 {
        for word in [0, 0x6800_0000 | 2 << 4 | 4 << 6, 0x6800_0000 | 3 | 4 << 6, u32::MAX] {
            stack.measure(|| f(code, word));
        }
    }
    stack.deepest
}

fn main() {
    let count = std::env::args().nth(1).map_or(200_000, |n| n.parse().unwrap());
    let (calls, stage, entry) = on_packs(count);
    let (lists, populate) = on_types(count);
    let mut d = [0; 3];
    let rows = [
        ("bokwingi_check_stage", calls - 1, stage.deepest),
        ("bokwingi_entry_point", calls, entry.deepest),
        ("bokwingi_vertex_format", 512, on_codes(|a, _| _ = archive::vertex_format(a, &mut d))),
        ("bokwingi_texture_format", 512, on_codes(|a, _| _ = archive::texture_format(a, &mut d))),
        ("bokwingi_check_texture_format", 512, on_codes(|a, b| _ = archive::check_texture_format(a, b, &mut d))),
        ("bokwingi_is_subtype_of", 512, on_codes(|a, b| _ = archive::is_subtype_of(0x6800_0000 | a, b))),
        ("bokwingi_populate", lists, populate.deepest),
    ];
    println!("| function | calls | deepest stack, bytes |");
    println!("|---|---|---|");
    for (name, calls, deepest) in rows {
        println!("| `{name}` | {calls} | {deepest} |");
    }
    println!("\nA function that does nothing: {} bytes.", Stack::new().bytes(|| ()));
    // Pack, then layout, sizes, inputs and list out, name and details.
    let buffers = 4 * 4096 + 4 * (4 * 1024) + 64 + 4 * 3;
    println!("Buffers at their largest: {buffers} bytes; with the stack: {} bytes.", buffers + stage.deepest);
    // Types, binding, the varyings' words and details.
    let buffers = 4 * (1024 + 2 + 126 + 3);
    println!("Those of populate: {buffers} bytes; with the stack: {} bytes.", buffers + populate.deepest);
}
