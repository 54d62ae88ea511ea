//! Cases to answers. The refusals that are document 01's own (1, 2, 3, 4, 5, 65, 82, and 80 where the Rust panics) are
//! laid around the Rust here; every other number is the Rust's. Those around `populate` are in populate.rs.

use crate::decode::{self, Place, Resource, ResourceTy, Varying};
use crate::populate;
use crate::validation::shader_io_deductions as rust;
use cases::{Answer, Case, StageCall};
use std::cell::Cell;
use std::collections::HashSet;
use std::panic::{catch_unwind, set_hook, take_hook, AssertUnwindSafe};

thread_local! {
    static ANSWERING: Cell<bool> = const { Cell::new(false) };
}

/// Panics while a case is answered are caught and answered; their messages go nowhere.
pub fn silence_panics() {
    let usual = take_hook();
    set_hook(Box::new(move |info| {
        if !ANSWERING.get() {
            usual(info);
        }
    }));
}

pub fn answer(case: &Case) -> Answer {
    ANSWERING.set(true);
    let found = catch_unwind(AssertUnwindSafe(|| match case {
        Case::Stage(call) => stage(call),
        Case::Name { pack, stage } => plain(name(pack, *stage)),
        Case::Vertex(code) => plain(vertex(*code)),
        Case::Texture(code) => plain(texture(*code)),
        Case::Subtype(a, b) => Answer::Bare(subtype(*a, *b)),
        Case::Format(code, ty) => plain(format(*code, *ty)),
        Case::Use { resource, entry } => Answer::Bare(binding_use(resource, entry)),
        Case::Derive { resource, named } => derive(resource, *named),
        Case::Populate(call) => populate::answer(call),
    }));
    ANSWERING.set(false);
    found.unwrap_or(Answer::Panic)
}

type Numbered = (u32, [u32; 3]);

fn plain((number, details): Numbered) -> Answer {
    Answer::Plain { number, details }
}

fn alone(number: u32) -> Numbered {
    (number, [0; 3])
}

fn vertex(code: u32) -> Numbered {
    match wgt::VertexFormat::from_code(code) {
        Some(format) => (0, [rust::vertex_format(format), 0, 0]),
        None => alone(82),
    }
}

fn texture_format(code: u32) -> Option<wgt::TextureFormat> {
    wgt::TextureFormat::from_code(u8::try_from(code).ok()?)
}

/// The Rust panics on the formats of refusal 80.
fn no_colour_type(code: u32) -> bool {
    (43..=50).contains(&code)
}

/// Runs what may panic on a format; the panic is 80 where document 01 says so, and passed on elsewhere.
fn colour<T>(code: u32, ask: impl FnOnce() -> T) -> Result<T, Numbered> {
    match catch_unwind(AssertUnwindSafe(ask)) {
        Ok(found) => Ok(found),
        Err(_) if no_colour_type(code) => Err(alone(80)),
        Err(cause) => std::panic::resume_unwind(cause),
    }
}

fn texture(code: u32) -> Numbered {
    let Some(format) = texture_format(code) else {
        return alone(82);
    };
    match colour(code, || rust::texture_format(format)) {
        Ok(ty) => (0, [ty, 0, 0]),
        Err(refused) => refused,
    }
}

fn subtype(a: u32, b: u32) -> u32 {
    match (decode::lone_type(a), decode::lone_type(b)) {
        (Ok(a), Ok(b)) => rust::subtype(a, b) as u32,
        _ => 82,
    }
}

fn format(code: u32, ty: u32) -> Numbered {
    let (Some(format), Ok(output)) = (texture_format(code), decode::lone_type(ty)) else {
        return alone(82);
    };
    match colour(code, || rust::texture_format_fits(format, output)) {
        Ok(Ok(())) => alone(0),
        Ok(Err(own)) => (81, [own, 0, 0]),
        Err(refused) => refused,
    }
}

/// Words that are no resource are answered 2, words that are no layout entry 3.
fn binding_use(resource: &[u32], entry: &[u32]) -> u32 {
    let Ok(resource) = decode::lone_resource(resource) else {
        return 2;
    };
    let Ok(entry) = decode::lone_entry(entry) else {
        return 3;
    };
    rust::binding_use(&resource, &entry).err().unwrap_or(0)
}

fn derive(resource: &[u32], named: u32) -> Answer {
    let refused = |number| Answer::Derived { number, ty: 0, size: 0 };
    let Ok(resource) = decode::lone_resource(resource) else {
        return refused(2);
    };
    match rust::derived_type(&resource, named != 0) {
        Ok((ty, size)) => Answer::Derived { number: 0, ty, size },
        Err(number) => refused(number),
    }
}

fn names(pack: &decode::Pack, given: &[u8]) -> rust::Names {
    rust::Names::of(pack.entry_points.iter().map(|e| &e.name[..]).chain([given]))
}

fn name(words: &[u32], stage: u32) -> Numbered {
    let pack = match decode::pack(words) {
        Ok(pack) => pack,
        Err(number) => return alone(number),
    };
    if stage > 4 {
        return alone(3);
    }
    let names = names(&pack, &[]);
    match rust::chosen_name(&rust::interface(&pack, &names, None), stage) {
        Ok(chosen) => {
            let position = pack.entry_points.iter().position(|e| e.stage == stage && names.string(&e.name) == chosen);
            (0, [position.unwrap() as u32, 0, 0])
        }
        Err(refused) => refused,
    }
}

/// The first resource of the entry point's list that needs a record which the lent list has no room for. A record is
/// needed for a place that the list lacks: of a buffer in the size list, of any resource in the layout list.
fn first_without_room(
    pack: &decode::Pack,
    entry: &decode::EntryPoint,
    derived: bool,
    present: impl Iterator<Item = Place>,
    mut records: usize,
) -> Option<usize> {
    let mut present: HashSet<Place> = present.collect();
    for (i, index) in entry.resources.iter().enumerate() {
        let resource = &pack.resources[*index];
        let recorded = derived || matches!(resource.ty, ResourceTy::Buffer { .. });
        if recorded && present.insert(resource.place) {
            if records == 0 {
                return Some(i);
            }
            records -= 1;
        }
    }
    None
}

/// Whether 65 is due once its step is reached.
fn places_used_up(pack: &decode::Pack, entry: &decode::EntryPoint, topology: u32) -> bool {
    let limit = i64::from(pack.limits[0]);
    match entry.stage {
        0 => {
            let clip: i64 = entry
                .outputs
                .iter()
                .map(|v| match v {
                    Varying::ClipDistances { array_size } => i64::from(array_size.div_ceil(4)),
                    _ => 0,
                })
                .sum();
            let point = (topology == 0) as i64;
            limit - point - clip < 0 || limit - 1 - clip < 0
        }
        1 => {
            let places: i64 = entry
                .inputs
                .iter()
                .map(|v| match v {
                    Varying::BuiltIn { places, .. } => i64::from(*places),
                    _ => 0,
                })
                .sum();
            limit - places < 0
        }
        _ => false,
    }
}

/// A run of the Rust: its answer, or none where it panicked.
type Run = Option<Result<Vec<u32>, Numbered>>;

struct Call<'a> {
    call: &'a StageCall,
    pack: decode::Pack,
    layout: decode::Layout,
    sizes: Vec<(Place, u32)>,
    inputs: decode::StageList,
    names: rust::Names,
}

impl Call<'_> {
    fn derived(&self) -> bool {
        self.call.mode == 1
    }

    fn run(&self, cut: Option<usize>) -> (Run, rust::Workings) {
        let interface = rust::interface(&self.pack, &self.names, cut);
        let name = self.names.string(&self.call.name);
        let mut workings = rust::Workings::new(self.derived(), &self.layout, &self.sizes);
        let run = catch_unwind(AssertUnwindSafe(|| workings.check_stage(&interface, &name, self.call, &self.inputs)));
        (run.ok(), workings)
    }

    /// The layout list's words after a run.
    fn layout_words(&self, workings: &rust::Workings) -> Vec<u32> {
        let entries = workings.entries();
        let mut words = self.call.layout.clone();
        words[0] = 17 << 27 | self.layout.groups << 16 | entries.len() as u32;
        for (i, e) in entries.iter().enumerate() {
            words[1 + 4 * i..5 + 4 * i].copy_from_slice(&e.words());
        }
        words
    }

    /// The size list's words after a run: the records that were there, then new ones in the order in which the entry
    /// point's list first has buffers at their places.
    fn size_words(&self, workings: &rust::Workings, entry: &decode::EntryPoint) -> Vec<u32> {
        let mut places: Vec<Place> = self.sizes.iter().map(|s| s.0).collect();
        for index in &entry.resources {
            let Resource { place, ty } = self.pack.resources[*index];
            let buffer = matches!(ty, ResourceTy::Buffer { .. });
            if buffer && !places.contains(&place) && workings.size_of(place).is_some() {
                places.push(place);
            }
        }
        assert_eq!(places.len(), workings.size_count());
        let mut words = self.call.sizes.clone();
        words[0] = 20 << 27 | places.len() as u32;
        for (i, p) in places.iter().enumerate() {
            words[1 + 2 * i] = p.word();
            words[2 + 2 * i] = 6 << 27 | workings.size_of(*p).unwrap();
        }
        words
    }
}

fn stage(call: &StageCall) -> Answer {
    let unchanged = |(number, details): Numbered| Answer::Stage {
        number,
        details,
        layout: call.layout.clone(),
        sizes: call.sizes.clone(),
        out: call.out.clone(),
    };

    let pack = match decode::pack(&call.pack) {
        Ok(pack) => pack,
        Err(number) => return unchanged(alone(number)),
    };
    let codes = call.stage <= 4 && call.topology <= 5 && call.mode <= 1 && call.dual <= 1 && call.depth <= 1;
    let lists = (decode::layout(&call.layout), decode::sizes(&call.sizes), decode::stage_list(&call.inputs));
    let (true, (Ok(layout), Ok(sizes), Ok(inputs))) = (codes, lists) else {
        return unchanged(alone(3));
    };
    let names = names(&pack, &call.name);
    let c = Call { call, pack, layout, sizes, inputs, names };

    let found = c.pack.entry_points.iter().find(|e| e.stage == call.stage && e.name == call.name);
    let Some(entry) = found else {
        return match c.run(None).0 {
            Some(Err(refused)) => unchanged(refused),
            _ => Answer::Panic,
        };
    };
    let local = entry.outputs.iter().filter(|v| matches!(v, Varying::Local(_))).count();
    if call.out.len() < 2 + 2 * local {
        return unchanged(alone(4));
    }

    let without_room = if c.derived() {
        let free = call.layout.len() - 1 - 4 * c.layout.entries.len();
        let present = c.layout.entries.iter().map(|e| e.place);
        first_without_room(&c.pack, entry, true, present, free / 4)
    } else {
        let free = call.sizes.len() - 1 - 2 * c.sizes.len();
        let present = c.sizes.iter().map(|s| s.0);
        first_without_room(&c.pack, entry, false, present, free / 2)
    };
    let (run, workings) = match without_room {
        None => c.run(None),
        Some(at) => {
            // The Rust, whose lists have no end, is run on the resources before this one, and in derived mode on this
            // one too, because its own 20 and 24 come before 5. Where that ends in a resource's refusal, so does the
            // call; else it ends in 5.
            let judged = if c.derived() { c.run(Some(at + 1)).0 } else { c.run(Some(at)).0 };
            let before = c.run(Some(at)).1;
            let place = c.pack.resources[entry.resources[at]].place;
            match judged {
                Some(Err(refused)) if (20..=30).contains(&refused.0) => (Some(Err(refused)), before),
                _ => (Some(Err((5, [place.group, place.binding, 0]))), before),
            }
        }
    };

    let (number, details) = match &run {
        Some(Ok(_)) => alone(0),
        Some(Err(refused)) => *refused,
        None if places_used_up(&c.pack, entry, call.topology) => alone(65),
        None => return Answer::Panic,
    };
    let mut out = call.out.clone();
    if let Some(Ok(words)) = &run {
        out[..words.len()].copy_from_slice(words);
    }
    Answer::Stage { number, details, layout: c.layout_words(&workings), sizes: c.size_words(&workings, entry), out }
}
