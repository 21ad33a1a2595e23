// SPDX-License-Identifier: Apache-2.0 AND BSD-3-Clause
//! Writes scripts, one after the other into one stream, and knows the crate's answer to each line as it is written.
//!
//! A line that may not be compared isn't written: the author asks the interpreter first. So what is kept out of the
//! comparison is kept out of the scripts, and nothing has to be cut from them afterwards.

use std::collections::BTreeMap;

use oracle::domain::Outside;
use oracle::Replay;

use crate::random::Random;

/// A stream of scripts as it is written.
pub struct Author {
    pub random: Random,
    pub replay: Replay,
    /// No bytes but printable ASCII, blanks and line feeds: for lists that are kept as text.
    pub text_only: bool,
    input: Vec<u8>,
    answers: Vec<u8>,
    /// The number of the first line of each script, from 0.
    starts: Vec<u64>,
    last_answer: usize,
    withheld: BTreeMap<Outside, u64>,
}

/// A finished stream.
pub struct Stream {
    pub lines: u64,
    pub input: Vec<u8>,
    pub answers: Vec<u8>,
    /// The number of the first line of each script, from 0.
    pub starts: Vec<u64>,
    /// How many lines were not written because they may not be compared, by reason.
    pub withheld: BTreeMap<Outside, u64>,
}

impl Author {
    pub fn new(random: Random) -> Self {
        Author {
            random,
            replay: Replay::new(),
            text_only: false,
            input: Vec::new(),
            answers: Vec::new(),
            starts: Vec::new(),
            last_answer: 0,
            withheld: BTreeMap::new(),
        }
    }

    /// The stream as it is. The last line of a script may lack its line feed, so here it does every other time, unless
    /// the stream is to be kept as text.
    pub fn finish(mut self) -> Stream {
        if !self.text_only && self.random.one_in(2) {
            self.input.pop();
        }
        Stream {
            lines: self.replay.lines(),
            input: self.input,
            answers: self.answers,
            starts: self.starts,
            withheld: self.withheld,
        }
    }

    /// The next line is a script's first.
    pub fn begin_script(&mut self) {
        self.starts.push(self.replay.lines());
    }

    /// How many lines the current script has.
    pub fn lines(&self) -> u64 {
        self.replay.lines() - self.starts.last().copied().unwrap_or(0)
    }

    /// How many lines the stream has.
    pub fn all_lines(&self) -> u64 {
        self.replay.lines()
    }

    /// How many bytes the stream has.
    pub fn bytes(&self) -> usize {
        self.input.len()
    }

    /// Writes a line if it may be compared, and says whether it was written.
    pub fn line(&mut self, line: &[u8]) -> bool {
        if line.contains(&b'\n') {
            return false;
        }
        if let Some(reason) = self.replay.outside(line) {
            *self.withheld.entry(reason).or_default() += 1;
            return false;
        }
        self.input.extend_from_slice(line);
        self.input.push(b'\n');
        self.last_answer = self.answers.len();
        self.replay.line(line, &mut self.answers);
        true
    }

    /// The answer to the last line that was written.
    pub fn answer(&self) -> &str {
        std::str::from_utf8(&self.answers[self.last_answer..]).unwrap_or("").trim_end()
    }

    /// The number that the last line was answered with, as by `head` and `pop`.
    pub fn answered_number(&self) -> Option<u64> {
        self.answer().split(' ').nth(1)?.parse().ok()
    }

    /// Writes a command with its numbers, each in some form that the language allows.
    pub fn say(&mut self, word: &str, numbers: &[u64]) -> bool {
        let mut line = word.to_string();
        for value in numbers {
            line.push(' ');
            line.push_str(&self.number(*value));
        }
        self.line(line.as_bytes())
    }

    /// A number in some form.
    pub fn number(&mut self, value: u64) -> String {
        match self.random.below(24) {
            0 => format!("{value:#x}"),
            1 => format!("0x{value:X}"),
            2 => format!("0x{value:020x}"),
            3 => format!("{value:05}"),
            4..=8 if value > 64 => format!("{value:#x}"),
            _ => value.to_string(),
        }
    }

    /// Sets an address, in one command or half by half.
    pub fn set_address(&mut self, area: &str, addr: u64) {
        let (low, high) = (addr & 0xFFFF_FFFF, addr >> 32);
        if self.random.one_in(4) {
            let low = self.number(low);
            self.line(format!("{area} {low} -").as_bytes());
            let high = self.number(high);
            self.line(format!("{area} - {high}").as_bytes());
        } else {
            self.say(area, &[low, high]);
        }
    }
}
