//! Puts the calls of a file to the library and compares each answer with the one that stands beside it.
//!
//!     check FILE
//!
//! A line is `FUNCTION ARGUMENT... = ANSWER`, in the form that tools/link_expected.py has. Each call is made with room for 0 to
//! 4 details. The answer, every word of the lent lists and every word beside them must be as expected; the exit status is 1 if
//! one is not.

use std::process::ExitCode;

extern "C" {
    fn bokwingi_check_stage(
        pack: *const u32,
        pack_len: usize,
        layout: *mut u32,
        layout_len: usize,
        sizes: *mut u32,
        sizes_len: usize,
        inputs: *const u32,
        inputs_len: usize,
        out: *mut u32,
        out_len: usize,
        name: *const u8,
        name_len: usize,
        stage: u32,
        topology: u32,
        mode: u32,
        dual_source: u32,
        depth: u32,
        details: *mut u32,
        details_len: usize,
    ) -> u32;
    fn bokwingi_entry_point(
        pack: *const u32,
        pack_len: usize,
        stage: u32,
        details: *mut u32,
        details_len: usize,
    ) -> u32;
    fn bokwingi_vertex_format(code: u32, details: *mut u32, details_len: usize) -> u32;
    fn bokwingi_texture_format(code: u32, details: *mut u32, details_len: usize) -> u32;
    fn bokwingi_check_texture_format(format: u32, ty: u32, details: *mut u32, details_len: usize) -> u32;
    fn bokwingi_is_subtype_of(a: u32, b: u32) -> u32;
    fn bokwingi_populate(
        types: *const u32,
        types_len: usize,
        asked: u32,
        binding: *const u32,
        binding_len: usize,
        out: *mut u32,
        out_len: usize,
        details: *mut u32,
        details_len: usize,
    ) -> u32;
}

/// Words that stand behind every lent list and must stay.
const BEHIND: [u32; 4] = [0x5eed_0001, 0x5eed_0002, 0x5eed_0003, 0x5eed_0004];

/// A list that is lent to be written, with the words behind it.
struct Lent {
    words: Vec<u32>,
    len: usize,
}

impl Lent {
    fn new(list: &[u32]) -> Self {
        Self { words: [list, &BEHIND].concat(), len: list.len() }
    }

    fn pointer(&mut self) -> *mut u32 {
        self.words.as_mut_ptr()
    }

    fn is(&self, list: &[u32]) -> bool {
        self.words == [list, &BEHIND].concat()
    }
}

fn hex(text: &str) -> u32 {
    u32::from_str_radix(text, 16).expect("a word in hex")
}

fn decimal(text: &str) -> u32 {
    text.parse().expect("a number")
}

fn list(text: &str) -> Vec<u32> {
    if text == "-" {
        return Vec::new();
    }
    text.split(',').map(hex).collect()
}

fn bytes(text: &str) -> Vec<u8> {
    if text == "-" {
        return Vec::new();
    }
    (0..text.len() / 2).map(|i| hex(&text[2 * i..2 * i + 2]) as u8).collect()
}

/// The number of a stage call, if the lists are left as the answer has them.
fn stage_call(case: &[&str], answer: &[&str], details: &mut Lent) -> Option<u32> {
    let (pack, inputs, name) = (list(case[1]), list(case[4]), bytes(case[6]));
    let mut layout = Lent::new(&list(case[2]));
    let mut sizes = Lent::new(&list(case[3]));
    let mut out = Lent::new(&list(case[5]));
    // SAFETY: each pointer comes with the length of its own buffer, and no two buffers overlap.
    let number = unsafe {
        bokwingi_check_stage(
            pack.as_ptr(),
            pack.len(),
            layout.pointer(),
            layout.len,
            sizes.pointer(),
            sizes.len,
            inputs.as_ptr(),
            inputs.len(),
            out.pointer(),
            out.len,
            name.as_ptr(),
            name.len(),
            hex(case[7]),
            hex(case[8]),
            hex(case[9]),
            hex(case[10]),
            hex(case[11]),
            details.pointer(),
            details.len,
        )
    };
    let kept = layout.is(&list(answer[4])) && sizes.is(&list(answer[5])) && out.is(&list(answer[6]));
    kept.then_some(number)
}

/// The number of a call of `bokwingi_populate`, if the room for the varyings is left as the answer has it.
fn populate_call(case: &[&str], answer: &[&str], details: &mut Lent) -> Option<u32> {
    let (types, binding) = (list(case[1]), list(case[3]));
    let mut out = Lent::new(&list(case[4]));
    // SAFETY: as above.
    let number = unsafe {
        bokwingi_populate(
            types.as_ptr(),
            types.len(),
            hex(case[2]),
            binding.as_ptr(),
            binding.len(),
            out.pointer(),
            out.len,
            details.pointer(),
            details.len,
        )
    };
    out.is(&list(answer[4])).then_some(number)
}

fn call(case: &[&str], answer: &[&str], details: &mut Lent) -> Option<u32> {
    let (at, room) = (details.pointer(), details.len);
    // SAFETY: as above.
    unsafe {
        match case[0] {
            "bokwingi_check_stage" => stage_call(case, answer, details),
            "bokwingi_entry_point" => {
                let pack = list(case[1]);
                Some(bokwingi_entry_point(pack.as_ptr(), pack.len(), hex(case[2]), at, room))
            }
            "bokwingi_vertex_format" => Some(bokwingi_vertex_format(hex(case[1]), at, room)),
            "bokwingi_texture_format" => Some(bokwingi_texture_format(hex(case[1]), at, room)),
            "bokwingi_check_texture_format" => Some(bokwingi_check_texture_format(hex(case[1]), hex(case[2]), at, room)),
            "bokwingi_is_subtype_of" => Some(bokwingi_is_subtype_of(hex(case[1]), hex(case[2]))),
            "bokwingi_populate" => populate_call(case, answer, details),
            _ => None,
        }
    }
}

/// Whether a call is answered as expected where there is room for so many details.
fn passes(case: &[&str], answer: &[&str], room: usize) -> bool {
    let before = [0xdead_0001, 0xdead_0002, 0xdead_0003, 0xdead_0004];
    let mut after = before;
    for (i, detail) in answer.iter().skip(1).take(3).enumerate() {
        after[i] = hex(detail);
    }
    let mut details = Lent::new(&before[..room]);
    call(case, answer, &mut details) == Some(decimal(answer[0])) && details.is(&after[..room])
}

fn main() -> ExitCode {
    let path = std::env::args().nth(1).expect("usage: check FILE");
    let text = std::fs::read_to_string(path).expect("a file of calls");
    let (mut passed, mut failed) = (0, 0);
    for (number, line) in text.lines().enumerate() {
        let (case, answer) = line.split_once(" = ").expect("CASE = ANSWER");
        let (case, answer): (Vec<&str>, Vec<&str>) = (case.split(' ').collect(), answer.split(' ').collect());
        for room in 0..=4 {
            if passes(&case, &answer, room) {
                passed += 1;
            } else {
                println!("line {}, room for {} details: {} is not answered {}", number + 1, room, case[0], answer[0]);
                failed += 1;
            }
        }
    }
    println!("{passed} calls answered as expected, {failed} not");
    if passed > 0 && failed == 0 {
        ExitCode::SUCCESS
    } else {
        ExitCode::FAILURE
    }
}
