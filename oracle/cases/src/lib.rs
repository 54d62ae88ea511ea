//! Cases and answers as lines of text. See README.md, 'The case format'.

use std::fmt;
use std::io::{self, BufRead, Write};

/// One call of a stage check.
#[derive(Clone, Debug, Default, Eq, PartialEq)]
pub struct StageCall {
    pub pack: Vec<u32>,
    pub layout: Vec<u32>,
    pub sizes: Vec<u32>,
    pub inputs: Vec<u32>,
    pub out: Vec<u32>,
    pub name: Vec<u8>,
    pub stage: u32,
    pub topology: u32,
    pub mode: u32,
    pub dual: u32,
    pub depth: u32,
}

/// One call of `populate`.
#[derive(Clone, Debug, Default, Eq, PartialEq)]
pub struct PopulateCall {
    pub types: Vec<u32>,
    pub asked: u32,
    pub binding: Vec<u32>,
    pub out: Vec<u32>,
}

#[derive(Clone, Debug, Eq, PartialEq)]
pub enum Case {
    Stage(Box<StageCall>),
    Name { pack: Vec<u32>, stage: u32 },
    Vertex(u32),
    Texture(u32),
    Subtype(u32, u32),
    Format(u32, u32),
    Use { resource: Vec<u32>, entry: Vec<u32> },
    Derive { resource: Vec<u32>, named: u32 },
    Populate(Box<PopulateCall>),
}

#[derive(Clone, Debug, Eq, PartialEq)]
pub enum Answer {
    /// A stage check: number, details, and the three lists after the call.
    Stage { number: u32, details: [u32; 3], layout: Vec<u32>, sizes: Vec<u32>, out: Vec<u32> },
    /// Number and details.
    Plain { number: u32, details: [u32; 3] },
    /// A number alone.
    Bare(u32),
    /// A derived entry: number, type word, least-size word.
    Derived { number: u32, ty: u32, size: u32 },
    /// `populate`: number, details, and the list out after the call.
    Populate { number: u32, details: [u32; 3], out: Vec<u32> },
    /// The Rust was not run, because its walk would take too many steps.
    Long,
    /// The Rust panicked where no refusal of document 01 accounts for it.
    Panic,
}

impl Answer {
    pub fn number(&self) -> Option<u32> {
        match *self {
            Answer::Stage { number, .. }
            | Answer::Plain { number, .. }
            | Answer::Bare(number)
            | Answer::Derived { number, .. }
            | Answer::Populate { number, .. } => Some(number),
            Answer::Long | Answer::Panic => None,
        }
    }
}

struct Words<'a>(&'a [u32]);

impl fmt::Display for Words<'_> {
    fn fmt(&self, f: &mut fmt::Formatter<'_>) -> fmt::Result {
        if self.0.is_empty() {
            return f.write_str("-");
        }
        for (i, w) in self.0.iter().enumerate() {
            if i > 0 {
                f.write_str(",")?;
            }
            write!(f, "{w:x}")?;
        }
        Ok(())
    }
}

struct Bytes<'a>(&'a [u8]);

impl fmt::Display for Bytes<'_> {
    fn fmt(&self, f: &mut fmt::Formatter<'_>) -> fmt::Result {
        if self.0.is_empty() {
            return f.write_str("-");
        }
        for b in self.0 {
            write!(f, "{b:02x}")?;
        }
        Ok(())
    }
}

impl fmt::Display for Case {
    fn fmt(&self, f: &mut fmt::Formatter<'_>) -> fmt::Result {
        match self {
            Case::Stage(c) => write!(
                f,
                "stage {} {} {} {} {} {} {} {} {} {} {}",
                Words(&c.pack),
                Words(&c.layout),
                Words(&c.sizes),
                Words(&c.inputs),
                Words(&c.out),
                Bytes(&c.name),
                c.stage,
                c.topology,
                c.mode,
                c.dual,
                c.depth
            ),
            Case::Name { pack, stage } => write!(f, "name {} {stage}", Words(pack)),
            Case::Vertex(code) => write!(f, "vertex {code}"),
            Case::Texture(code) => write!(f, "texture {code}"),
            Case::Subtype(a, b) => write!(f, "subtype {a:x} {b:x}"),
            Case::Format(code, ty) => write!(f, "format {code} {ty:x}"),
            Case::Use { resource, entry } => write!(f, "use {} {}", Words(resource), Words(entry)),
            Case::Derive { resource, named } => write!(f, "derive {} {named}", Words(resource)),
            Case::Populate(c) => {
                write!(f, "populate {} {} {} {}", Words(&c.types), c.asked, Words(&c.binding), Words(&c.out))
            }
        }
    }
}

impl fmt::Display for Answer {
    fn fmt(&self, f: &mut fmt::Formatter<'_>) -> fmt::Result {
        match self {
            Answer::Stage { number, details: [a, b, c], layout, sizes, out } => {
                write!(f, "{number} {a:x} {b:x} {c:x} {} {} {}", Words(layout), Words(sizes), Words(out))
            }
            Answer::Plain { number, details: [a, b, c] } => write!(f, "{number} {a:x} {b:x} {c:x}"),
            Answer::Bare(number) => write!(f, "{number}"),
            Answer::Derived { number, ty, size } => write!(f, "{number} {ty:x} {size:x}"),
            Answer::Populate { number, details: [a, b, c], out } => {
                write!(f, "{number} {a:x} {b:x} {c:x} {}", Words(out))
            }
            Answer::Long => f.write_str("long"),
            Answer::Panic => f.write_str("panic"),
        }
    }
}

fn words(field: &str) -> Option<Vec<u32>> {
    if field == "-" {
        return Some(Vec::new());
    }
    field.split(',').map(word).collect()
}

fn word(field: &str) -> Option<u32> {
    u32::from_str_radix(field, 16).ok()
}

fn code(field: &str) -> Option<u32> {
    field.parse().ok()
}

fn bytes(field: &str) -> Option<Vec<u8>> {
    if field == "-" {
        return Some(Vec::new());
    }
    if field.len() % 2 != 0 || !field.is_ascii() {
        return None;
    }
    (0..field.len() / 2).map(|i| u8::from_str_radix(&field[2 * i..2 * i + 2], 16).ok()).collect()
}

impl Case {
    /// Reads a case line. A leading `D` or `O` field, the generator's mark, is passed over.
    pub fn parse(line: &str) -> Option<Case> {
        let mut fields: Vec<&str> = line.trim_end().split(' ').collect();
        if matches!(fields.first(), Some(&"D") | Some(&"O")) {
            fields.remove(0);
        }
        Some(match fields[..] {
            ["stage", pack, layout, sizes, inputs, out, name, stage, topology, mode, dual, depth] => {
                Case::Stage(Box::new(StageCall {
                    pack: words(pack)?,
                    layout: words(layout)?,
                    sizes: words(sizes)?,
                    inputs: words(inputs)?,
                    out: words(out)?,
                    name: bytes(name)?,
                    stage: code(stage)?,
                    topology: code(topology)?,
                    mode: code(mode)?,
                    dual: code(dual)?,
                    depth: code(depth)?,
                }))
            }
            ["name", pack, stage] => Case::Name { pack: words(pack)?, stage: code(stage)? },
            ["vertex", c] => Case::Vertex(code(c)?),
            ["texture", c] => Case::Texture(code(c)?),
            ["subtype", a, b] => Case::Subtype(word(a)?, word(b)?),
            ["format", c, ty] => Case::Format(code(c)?, word(ty)?),
            ["use", resource, entry] => Case::Use { resource: words(resource)?, entry: words(entry)? },
            ["derive", resource, named] => Case::Derive { resource: words(resource)?, named: code(named)? },
            ["populate", types, asked, binding, out] => Case::Populate(Box::new(PopulateCall {
                types: words(types)?,
                asked: code(asked)?,
                binding: words(binding)?,
                out: words(out)?,
            })),
            _ => return None,
        })
    }
}

/// Answers every line of standard input; a line that is no case is answered `bad`.
pub fn serve(answer: impl Fn(&Case) -> Answer) -> io::Result<()> {
    let mut out = io::BufWriter::new(io::stdout().lock());
    for line in io::stdin().lock().lines() {
        match Case::parse(&line?) {
            Some(case) => writeln!(out, "{}", answer(&case))?,
            None => writeln!(out, "bad")?,
        }
    }
    out.flush()
}
