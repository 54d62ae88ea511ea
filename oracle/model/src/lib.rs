//! Document 01's steps, whole, and document 02's `populate`, written from these documents and not from the Rust: answers
//! every case, with any words.

pub mod binding;
pub mod domain;
mod leaf;
mod lists;
pub mod pack;
pub mod populate;
mod stage;

use cases::{Answer, Case};

#[derive(Debug)]
pub struct Refused {
    pub number: u32,
    pub details: [u32; 3],
}

impl Refused {
    fn alone(number: u32) -> Self {
        Self { number, details: [0; 3] }
    }
}

/// The first detail of an acceptance, or a refusal.
fn plain(result: Result<u32, Refused>) -> Answer {
    match result {
        Ok(first) => Answer::Plain { number: 0, details: [first, 0, 0] },
        Err(Refused { number, details }) => Answer::Plain { number, details },
    }
}

/// `finalize_entry_point_name` with no name given.
fn name(words: &[u32], stage: u32) -> Result<u32, Refused> {
    let pack = pack::pack(words).map_err(Refused::alone)?;
    if stage > 4 {
        return Err(Refused::alone(3));
    }
    let mut at = (0u32..).zip(&pack.entries).filter(|(_, e)| e.stage == stage).map(|(i, _)| i);
    match (at.next(), at.next()) {
        (None, _) => Err(Refused::alone(11)),
        (Some(i), None) => Ok(i),
        _ => Err(Refused::alone(12)),
    }
}

/// A resource's words and nothing after them.
fn lone_resource(words: &[u32]) -> Option<pack::Resource> {
    let (resource, after) = pack::resource(words, 0)?;
    (after == words.len()).then_some(resource)
}

fn binding_use(resource: &[u32], entry: &[u32]) -> u32 {
    let Some(r) = lone_resource(resource) else {
        return 2;
    };
    if !lists::lone_entry_good(entry) {
        return 3;
    }
    binding::check_use(r.ty, r.size, entry[1] & 0x07ff_ffff, entry[2] & 0x07ff_ffff)
}

fn derive(resource: &[u32], named: u32) -> Answer {
    let result = match lone_resource(resource) {
        Some(r) => binding::derive(r.ty, r.size, named != 0),
        None => Err(2),
    };
    match result {
        Ok((ty, least)) => Answer::Derived { number: 0, ty: 18 << 27 | ty, size: 6 << 27 | least },
        Err(number) => Answer::Derived { number, ty: 0, size: 0 },
    }
}

pub fn answer(case: &Case) -> Answer {
    match case {
        Case::Stage(call) => {
            let mut call = call.clone();
            let (number, details) = match stage::check(&mut call) {
                Ok(()) => (0, [0; 3]),
                Err(refused) => (refused.number, refused.details),
            };
            Answer::Stage { number, details, layout: call.layout, sizes: call.sizes, out: call.out }
        }
        Case::Name { pack, stage } => plain(name(pack, *stage)),
        Case::Vertex(code) => plain(leaf::vertex(*code)),
        Case::Texture(code) => plain(leaf::texture(*code)),
        Case::Subtype(a, b) => Answer::Bare(leaf::subtype(*a, *b)),
        Case::Format(code, ty) => plain(leaf::format(*code, *ty).map(|()| 0)),
        Case::Use { resource, entry } => Answer::Bare(binding_use(resource, entry)),
        Case::Derive { resource, named } => derive(resource, *named),
        Case::Populate(call) => {
            let (number, first, out) = populate::answer(call);
            Answer::Populate { number, details: [first, 0, 0], out }
        }
    }
}
