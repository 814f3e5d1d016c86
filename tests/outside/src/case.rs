//! A case: one call with all its inputs. It can be given to the oracle and to the library, and printed.

use crate::calls::Calls;
use crate::guarded::Guarded;
use crate::oracle::{self, answer::Answer};
use std::fmt::{self, Display, Formatter, LowerHex};

#[derive(Clone, Copy, Debug, PartialEq, Eq, PartialOrd, Ord)]
pub enum Call {
    Check,
    Compile,
    RunSource,
    RunCode,
    RunDepot,
    ReadText,
    WriteText,
    ReadRule,
}

impl Call {
    pub const ALL: [Call; 8] = [
        Call::Check,
        Call::Compile,
        Call::RunSource,
        Call::RunCode,
        Call::RunDepot,
        Call::ReadText,
        Call::WriteText,
        Call::ReadRule,
    ];

    pub fn name(self) -> &'static str {
        match self {
            Call::Check => "check",
            Call::Compile => "compile",
            Call::RunSource => "run_source",
            Call::RunCode => "run_code",
            Call::RunDepot => "run_depot",
            Call::ReadText => "read_text",
            Call::WriteText => "write_text",
            Call::ReadRule => "read_rule",
        }
    }
}

#[derive(Clone)]
pub enum Case {
    Check { table: Vec<u32> },
    Compile { table: Vec<u32>, start: u32, room: Vec<u32> },
    RunSource { table: Vec<u32>, store: Vec<i32>, fuel: u32 },
    RunCode { table: Vec<u32>, code: Vec<u32>, start: u32, store: Vec<i32>, fuel: u32 },
    RunDepot { table: Vec<u32>, code: Vec<u32>, start: u32, stores: Vec<i32>, fuel: u32, room: Vec<u32> },
    ReadText { text: Vec<u8>, room: Vec<u32> },
    WriteText { words: Vec<u32>, room: Vec<u8> },
    ReadRule { text: Vec<u8>, room: Vec<u32> },
}

/// The answer, and what the call might alter, as it is afterwards.
#[derive(Clone, PartialEq, Eq)]
pub struct Outcome {
    pub answer: Answer,
    pub after: Buffer,
}

#[derive(Clone, PartialEq, Eq)]
pub enum Buffer {
    None,
    Words(Vec<u32>),
    Values(Vec<i32>),
    Bytes(Vec<u8>),
    Depot { stores: Vec<i32>, room: Vec<u32> },
}

impl Case {
    pub fn call(&self) -> Call {
        match self {
            Case::Check { .. } => Call::Check,
            Case::Compile { .. } => Call::Compile,
            Case::RunSource { .. } => Call::RunSource,
            Case::RunCode { .. } => Call::RunCode,
            Case::RunDepot { .. } => Call::RunDepot,
            Case::ReadText { .. } => Call::ReadText,
            Case::WriteText { .. } => Call::WriteText,
            Case::ReadRule { .. } => Call::ReadRule,
        }
    }

    pub fn by_oracle(&self) -> Outcome {
        let (answer, after) = match self.clone() {
            Case::Check { table } => (oracle::check(&table), Buffer::None),
            Case::Compile { table, start, mut room } => {
                (oracle::compile(&table, start, &mut room), Buffer::Words(room))
            }
            Case::RunSource { table, mut store, fuel } => {
                (oracle::run_source(&table, &mut store, fuel), Buffer::Values(store))
            }
            Case::RunCode { table, code, start, mut store, fuel } => {
                (oracle::run_code(&table, &code, start, &mut store, fuel), Buffer::Values(store))
            }
            Case::RunDepot { table, code, start, mut stores, fuel, mut room } => {
                (oracle::run_depot(&table, &code, start, &mut stores, fuel, &mut room), Buffer::Depot { stores, room })
            }
            Case::ReadText { text, mut room } => (oracle::read_text(&text, &mut room), Buffer::Words(room)),
            Case::WriteText { words, mut room } => (oracle::write_text(&words, &mut room), Buffer::Bytes(room)),
            Case::ReadRule { text, mut room } => (oracle::read_rule(&text, &mut room), Buffer::Words(room)),
        };
        Outcome { answer, after }
    }

    /// The outcome by the tested calls, and what they altered that they must not alter. `turn` picks the guards.
    pub fn by(&self, calls: &Calls, turn: usize) -> (Outcome, Vec<String>) {
        let mut guarded = Guarded::new(calls, turn);
        let (answer, after) = match self {
            Case::Check { table } => (guarded.check(table), Buffer::None),
            Case::Compile { table, start, room } => {
                let (answer, room) = guarded.compile(table, *start, room);
                (answer, Buffer::Words(room))
            }
            Case::RunSource { table, store, fuel } => {
                let (answer, store) = guarded.run_source(table, store, *fuel);
                (answer, Buffer::Values(store))
            }
            Case::RunCode { table, code, start, store, fuel } => {
                let (answer, store) = guarded.run_code(table, code, *start, store, *fuel);
                (answer, Buffer::Values(store))
            }
            Case::RunDepot { table, code, start, stores, fuel, room } => {
                let (answer, stores, room) = guarded.run_depot(table, code, *start, stores, *fuel, room);
                (answer, Buffer::Depot { stores, room })
            }
            Case::ReadText { text, room } => {
                let (answer, room) = guarded.read_text(text, room);
                (answer, Buffer::Words(room))
            }
            Case::WriteText { words, room } => {
                let (answer, room) = guarded.write_text(words, room);
                (answer, Buffer::Bytes(room))
            }
            Case::ReadRule { text, room } => {
                let (answer, room) = guarded.read_rule(text, room);
                (answer, Buffer::Words(room))
            }
        };
        (Outcome { answer, after }, guarded.trespasses())
    }
}

/// Of a rule's text, which may have megabytes of blanks, no more than these bytes are printed.
const LONGEST_SHOWN: usize = 20_000;

/// The inputs in full, in hexadecimal; but a rule as it was typed.
impl Display for Case {
    fn fmt(&self, f: &mut Formatter) -> fmt::Result {
        writeln!(f, "{}", self.call().name())?;
        match self {
            Case::Check { table } => list(f, "table", table, 4),
            Case::Compile { table, start, room } => {
                list(f, "table", table, 4)?;
                writeln!(f, "  start {start:x}")?;
                list(f, "room", room, 4)
            }
            Case::RunSource { table, store, fuel } => {
                list(f, "table", table, 4)?;
                list(f, "store", store, 8)?;
                writeln!(f, "  fuel {fuel:x}")
            }
            Case::RunCode { table, code, start, store, fuel } => {
                list(f, "table", table, 4)?;
                list(f, "code", code, 4)?;
                writeln!(f, "  start {start:x}")?;
                list(f, "store", store, 8)?;
                writeln!(f, "  fuel {fuel:x}")
            }
            Case::RunDepot { table, code, start, stores, fuel, room } => {
                list(f, "table", table, 4)?;
                list(f, "code", code, 4)?;
                writeln!(f, "  start {start:x}")?;
                list(f, "stores", stores, 8)?;
                writeln!(f, "  fuel {fuel:x}")?;
                list(f, "room", room, 3)
            }
            Case::ReadText { text, room } => {
                list(f, "text", text, 33)?;
                list(f, "room", room, 4)
            }
            Case::WriteText { words, room } => {
                list(f, "words", words, 4)?;
                list(f, "room", room, 33)
            }
            Case::ReadRule { text, room } => {
                let shown = &text[..text.len().min(LONGEST_SHOWN)];
                writeln!(f, "  text, {} bytes\n    {}", text.len(), shown.escape_ascii())?;
                list(f, "room", room, 4)
            }
        }
    }
}

fn list<T: LowerHex>(f: &mut Formatter, name: &str, elements: &[T], in_line: usize) -> fmt::Result {
    writeln!(f, "  {name}, {} elements", elements.len())?;
    let digits = 2 * size_of::<T>();
    for line in elements.chunks(in_line) {
        write!(f, "   ")?;
        for element in line {
            write!(f, " {element:0digits$x}")?;
        }
        writeln!(f)?;
    }
    Ok(())
}

impl Buffer {
    /// Where each buffer first differs from the other's, in words.
    pub fn differences(&self, other: &Buffer) -> Vec<String> {
        let found = match (self, other) {
            (Buffer::Words(a), Buffer::Words(b)) => vec![first_difference("room", a, b)],
            (Buffer::Values(a), Buffer::Values(b)) => vec![first_difference("store", a, b)],
            (Buffer::Bytes(a), Buffer::Bytes(b)) => vec![first_difference("room", a, b)],
            (Buffer::Depot { stores: a, room: c }, Buffer::Depot { stores: b, room: d }) => {
                vec![first_difference("stores", a, b), first_difference("room", c, d)]
            }
            _ => vec![],
        };
        found.into_iter().flatten().collect()
    }
}

fn first_difference<T: LowerHex + PartialEq>(name: &str, expected: &[T], got: &[T]) -> Option<String> {
    let i = expected.iter().zip(got).position(|(a, b)| a != b)?;
    Some(format!("element {i} of {name} should be {:x} and is {:x}", expected[i], got[i]))
}
