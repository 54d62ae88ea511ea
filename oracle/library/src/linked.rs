//! The archive's functions on cases, between guard words.

use cases::{Answer, Case, PopulateCall, StageCall};

use crate::raw::*;

/// How many guards stand on each side of what is lent.
const GUARDS: usize = 16;

/// Something lent, with guards on both sides.
struct Lent<T> {
    all: Vec<T>,
    guard: T,
}

impl<T: Copy + PartialEq> Lent<T> {
    fn new(part: &[T], guard: T) -> Self {
        let mut all = vec![guard; part.len() + 2 * GUARDS];
        all[GUARDS..GUARDS + part.len()].copy_from_slice(part);
        Self { all, guard }
    }

    fn len(&self) -> usize {
        self.all.len() - 2 * GUARDS
    }

    fn ptr(&mut self) -> *mut T {
        self.all[GUARDS..].as_mut_ptr()
    }

    /// What was lent, as it is now.
    fn part(&self) -> &[T] {
        let (before, rest) = self.all.split_at(GUARDS);
        let (part, behind) = rest.split_at(self.len());
        assert!(before.iter().chain(behind).all(|g| *g == self.guard), "the library wrote beside what it was lent");
        part
    }
}

const GUARD: u32 = 0xa5c3_96f1;

fn words(part: &[u32]) -> Lent<u32> {
    Lent::new(part, GUARD)
}

fn unchanged<T: Copy + PartialEq>(lent: &Lent<T>, part: &[T]) {
    assert!(lent.part() == part, "the library wrote to what it may only read");
}

/// Room for the details, filled with words that no answer leaves there.
fn details() -> Lent<u32> {
    words(&[0xdead_0001, 0xdead_0002, 0xdead_0003])
}

fn handed(details: &Lent<u32>) -> [u32; 3] {
    details.part().try_into().unwrap()
}

fn plain(ask: impl FnOnce(*mut u32, usize) -> u32) -> Answer {
    let mut room = details();
    let number = ask(room.ptr(), room.len());
    Answer::Plain { number, details: handed(&room) }
}

fn stage(call: &StageCall) -> Answer {
    let (mut pack, mut inputs, mut name) = (words(&call.pack), words(&call.inputs), Lent::new(&call.name, 0xa5));
    let (mut layout, mut sizes, mut out) = (words(&call.layout), words(&call.sizes), words(&call.out));
    let mut room = details();
    // Each pointer is to as many words or bytes as the length behind it says.
    let number = unsafe {
        bokwingi_check_stage(
            pack.ptr(),
            pack.len(),
            layout.ptr(),
            layout.len(),
            sizes.ptr(),
            sizes.len(),
            inputs.ptr(),
            inputs.len(),
            out.ptr(),
            out.len(),
            name.ptr(),
            name.len(),
            call.stage,
            call.topology,
            call.mode,
            call.dual,
            call.depth,
            room.ptr(),
            room.len(),
        )
    };
    unchanged(&pack, &call.pack);
    unchanged(&inputs, &call.inputs);
    unchanged(&name, &call.name);
    Answer::Stage {
        number,
        details: handed(&room),
        layout: layout.part().to_vec(),
        sizes: sizes.part().to_vec(),
        out: out.part().to_vec(),
    }
}

fn name(pack: &[u32], stage: u32) -> Answer {
    let mut lent = words(pack);
    let found = plain(|d, n| unsafe { bokwingi_entry_point(lent.ptr(), lent.len(), stage, d, n) });
    unchanged(&lent, pack);
    found
}

fn populate(call: &PopulateCall) -> Answer {
    let (mut types, mut binding, mut out) = (words(&call.types), words(&call.binding), words(&call.out));
    let mut room = details();
    let number = unsafe {
        bokwingi_populate(
            types.ptr(),
            types.len(),
            call.asked,
            binding.ptr(),
            binding.len(),
            out.ptr(),
            out.len(),
            room.ptr(),
            room.len(),
        )
    };
    unchanged(&types, &call.types);
    unchanged(&binding, &call.binding);
    Answer::Populate { number, details: handed(&room), out: out.part().to_vec() }
}

/// What the library answers; nothing for `use` and `derive`, which it has no C function for.
pub fn answer(case: &Case) -> Option<Answer> {
    Some(match case {
        Case::Stage(call) => stage(call),
        Case::Name { pack, stage } => name(pack, *stage),
        Case::Vertex(code) => plain(|d, n| unsafe { bokwingi_vertex_format(*code, d, n) }),
        Case::Texture(code) => plain(|d, n| unsafe { bokwingi_texture_format(*code, d, n) }),
        Case::Format(code, ty) => plain(|d, n| unsafe { bokwingi_check_texture_format(*code, *ty, d, n) }),
        Case::Subtype(a, b) => Answer::Bare(unsafe { bokwingi_is_subtype_of(*a, *b) }),
        Case::Populate(call) => populate(call),
        Case::Use { .. } | Case::Derive { .. } => return None,
    })
}
