// SPDX-License-Identifier: Apache-2.0 AND BSD-3-Clause
//! A line as a command, or the reason why it is none. Errors are found in the order that the language fixes.

use crate::words::{number, words, LONGEST_LINE};

/// Which address a setter sets.
#[derive(Clone, Copy, Debug, PartialEq, Eq)]
pub enum Area {
    Table,
    Avail,
    Used,
}

/// Which descriptors of a chain are wanted.
#[derive(Clone, Copy, Debug, PartialEq, Eq)]
pub enum Wanted {
    Next,
    Readable,
    Writable,
}

/// A command whose words are right.
#[derive(Clone, Debug, PartialEq, Eq)]
pub enum Command {
    Memory {
        len: u64,
    },
    Region {
        base: u64,
        len: u64,
        offset: u64,
    },
    /// `bytes`, `u16`, `u32`, `u64` and `desc`.
    Store {
        offset: u64,
        bytes: Vec<u8>,
        counted: bool,
    },
    Fill {
        offset: u64,
        count: u64,
        byte: u8,
    },
    Dump {
        offset: u64,
        count: u64,
    },
    Sum,
    Queue {
        largest: u16,
    },
    Size(u16),
    Address {
        area: Area,
        low: Option<u32>,
        high: Option<u32>,
    },
    Ready(bool),
    Event(bool),
    NextAvail(u16),
    NextUsed(u16),
    Reset,
    Valid,
    Begin,
    Head,
    Pop,
    Back,
    Chain {
        head: u16,
    },
    Descriptor(Wanted),
    Walk,
    Put {
        head: u16,
        len: u32,
    },
    Stop,
    Ask,
    Question,
    State,
}

impl Command {
    /// Whether it is one of the image's commands, those that the guest's side makes.
    pub fn is_image(&self) -> bool {
        use Command::*;
        matches!(self, Memory { .. } | Region { .. } | Store { .. } | Fill { .. } | Dump { .. } | Sum)
    }

    /// Whether it is about a chain alone.
    pub fn is_chain(&self) -> bool {
        matches!(self, Command::Chain { .. } | Command::Descriptor(_) | Command::Walk)
    }
}

/// Why a line is no command.
#[derive(Clone, Copy, Debug, PartialEq, Eq)]
pub enum Bad {
    TooLong,
    UnknownCommand,
    WrongNumberOfWords,
    NotANumber,
}

impl Bad {
    /// As the answer says it.
    pub fn text(self) -> &'static str {
        match self {
            Bad::TooLong => "too long",
            Bad::UnknownCommand => "unknown command",
            Bad::WrongNumberOfWords => "wrong number of words",
            Bad::NotANumber => "not a number",
        }
    }
}

const U8: u64 = u8::MAX as u64;
const U16: u64 = u16::MAX as u64;
const U32: u64 = u32::MAX as u64;
const U64: u64 = u64::MAX;
const MOST_DUMPED: u64 = 256;

/// What the words after the first must be.
pub enum Shape {
    /// Numbers, each at most so large.
    Numbers(&'static [u64]),
    /// Two halves of an address, or `-`.
    Halves,
    /// An offset and 1 to 64 bytes.
    Bytes,
}

/// Every command's first word and shape.
pub const COMMANDS: &[(&str, Shape)] = &[
    ("memory", Shape::Numbers(&[U64])),
    ("region", Shape::Numbers(&[U64, U64, U64])),
    ("bytes", Shape::Bytes),
    ("fill", Shape::Numbers(&[U64, U64, U8])),
    ("u16", Shape::Numbers(&[U64, U16])),
    ("u32", Shape::Numbers(&[U64, U32])),
    ("u64", Shape::Numbers(&[U64, U64])),
    ("desc", Shape::Numbers(&[U64, U64, U32, U16, U16])),
    ("dump", Shape::Numbers(&[U64, MOST_DUMPED])),
    ("sum", Shape::Numbers(&[])),
    ("queue", Shape::Numbers(&[U16])),
    ("size", Shape::Numbers(&[U16])),
    ("table", Shape::Halves),
    ("avail", Shape::Halves),
    ("used", Shape::Halves),
    ("ready", Shape::Numbers(&[1])),
    ("event", Shape::Numbers(&[1])),
    ("next-avail", Shape::Numbers(&[U16])),
    ("next-used", Shape::Numbers(&[U16])),
    ("reset", Shape::Numbers(&[])),
    ("valid", Shape::Numbers(&[])),
    ("begin", Shape::Numbers(&[])),
    ("head", Shape::Numbers(&[])),
    ("pop", Shape::Numbers(&[])),
    ("back", Shape::Numbers(&[])),
    ("chain", Shape::Numbers(&[U16])),
    ("next", Shape::Numbers(&[])),
    ("readable", Shape::Numbers(&[])),
    ("writable", Shape::Numbers(&[])),
    ("walk", Shape::Numbers(&[])),
    ("put", Shape::Numbers(&[U16, U32])),
    ("stop", Shape::Numbers(&[])),
    ("ask", Shape::Numbers(&[])),
    ("question", Shape::Numbers(&[])),
    ("state", Shape::Numbers(&[])),
];

/// A line's command with its first word; nothing for a line without words.
pub fn parse(line: &[u8]) -> Result<Option<(&'static str, Command)>, Bad> {
    if line.len() > LONGEST_LINE {
        return Err(Bad::TooLong);
    }
    let mut words = words(line);
    let Some(first) = words.next() else {
        return Ok(None);
    };
    let known = COMMANDS.iter().find(|(name, _)| name.as_bytes() == first);
    let (name, shape) = known.ok_or(Bad::UnknownCommand)?;
    let words: Vec<&[u8]> = words.collect();
    let command = match shape {
        Shape::Numbers(limits) => from_numbers(name, &numbers(&words, limits)?),
        Shape::Halves => from_halves(name, &words)?,
        Shape::Bytes => from_bytes(&words)?,
    };
    Ok(Some((name, command)))
}

fn numbers(words: &[&[u8]], limits: &[u64]) -> Result<Vec<u64>, Bad> {
    if words.len() != limits.len() {
        return Err(Bad::WrongNumberOfWords);
    }
    let read = |(word, limit): (&&[u8], &u64)| number(word, *limit).ok_or(Bad::NotANumber);
    words.iter().zip(limits).map(read).collect()
}

fn from_halves(name: &str, words: &[&[u8]]) -> Result<Command, Bad> {
    let [low, high] = words else {
        return Err(Bad::WrongNumberOfWords);
    };
    let area = match name {
        "table" => Area::Table,
        "avail" => Area::Avail,
        _ => Area::Used,
    };
    Ok(Command::Address { area, low: half(low)?, high: half(high)? })
}

fn half(word: &[u8]) -> Result<Option<u32>, Bad> {
    if word == b"-" {
        return Ok(None);
    }
    match number(word, U32) {
        Some(value) => Ok(Some(value as u32)),
        None => Err(Bad::NotANumber),
    }
}

fn from_bytes(words: &[&[u8]]) -> Result<Command, Bad> {
    if !(2..=65).contains(&words.len()) {
        return Err(Bad::WrongNumberOfWords);
    }
    let offset = number(words[0], U64).ok_or(Bad::NotANumber)?;
    let byte = |word: &&[u8]| number(word, U8).map(|value| value as u8).ok_or(Bad::NotANumber);
    let bytes = words[1..].iter().map(byte).collect::<Result<_, _>>()?;
    Ok(Command::Store { offset, bytes, counted: true })
}

/// The numbers are within the limits of the command's shape, so the casts lose nothing.
fn from_numbers(name: &str, n: &[u64]) -> Command {
    let store = |bytes: &[u8]| Command::Store { offset: n[0], bytes: bytes.to_vec(), counted: false };
    match name {
        "memory" => Command::Memory { len: n[0] },
        "region" => Command::Region { base: n[0], len: n[1], offset: n[2] },
        "fill" => Command::Fill { offset: n[0], count: n[1], byte: n[2] as u8 },
        "u16" => store(&(n[1] as u16).to_le_bytes()),
        "u32" => store(&(n[1] as u32).to_le_bytes()),
        "u64" => store(&n[1].to_le_bytes()),
        "desc" => store(&descriptor(n[1], n[2] as u32, n[3] as u16, n[4] as u16)),
        "dump" => Command::Dump { offset: n[0], count: n[1] },
        "sum" => Command::Sum,
        "queue" => Command::Queue { largest: n[0] as u16 },
        "size" => Command::Size(n[0] as u16),
        "ready" => Command::Ready(n[0] == 1),
        "event" => Command::Event(n[0] == 1),
        "next-avail" => Command::NextAvail(n[0] as u16),
        "next-used" => Command::NextUsed(n[0] as u16),
        "reset" => Command::Reset,
        "valid" => Command::Valid,
        "begin" => Command::Begin,
        "head" => Command::Head,
        "pop" => Command::Pop,
        "back" => Command::Back,
        "chain" => Command::Chain { head: n[0] as u16 },
        "next" => Command::Descriptor(Wanted::Next),
        "readable" => Command::Descriptor(Wanted::Readable),
        "writable" => Command::Descriptor(Wanted::Writable),
        "walk" => Command::Walk,
        "put" => Command::Put { head: n[0] as u16, len: n[1] as u32 },
        "stop" => Command::Stop,
        "ask" => Command::Ask,
        "question" => Command::Question,
        "state" => Command::State,
        _ => unreachable!("every name of the table is above"),
    }
}

fn descriptor(addr: u64, len: u32, flags: u16, next: u16) -> [u8; 16] {
    let mut bytes = [0; 16];
    bytes[..8].copy_from_slice(&addr.to_le_bytes());
    bytes[8..12].copy_from_slice(&len.to_le_bytes());
    bytes[12..14].copy_from_slice(&flags.to_le_bytes());
    bytes[14..].copy_from_slice(&next.to_le_bytes());
    bytes
}
