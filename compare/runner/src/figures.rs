// SPDX-License-Identifier: Apache-2.0 AND BSD-3-Clause
//! What a run has seen: how many scripts, lines and answers, and which kinds of answers.

use std::collections::BTreeMap;

use oracle::domain::Outside;

use crate::author::Stream;

/// Every kind of answer that the language has. A run that misses one has a hole.
const EXPECTED: &str = "\
    memory: N; memory: refused; region: ok; region: refused full; region: refused empty; \
    region: refused beyond 2^64; region: refused beyond the image; region: refused overlap; bytes: N; fill: N; \
    u16: ok; u32: ok; u64: ok; desc: ok; dump: NOTHING; dump: BYTES; sum: CRC; queue: ok; \
    queue: refused largest size; size: ok; \
    size: refused size; table: ok; table: refused alignment; avail: ok; avail: refused alignment; used: ok; \
    used: refused alignment; ready: ok; event: ok; next-avail: ok; next-used: ok; reset: ok; valid: yes; \
    valid: no; begin: ok; begin: refused not ready; begin: refused memory; begin: refused available index; \
    head: N; head: none; pop: N; pop: none; back: ok; chain: N; next: DESCRIPTOR; next: none; \
    readable: DESCRIPTOR; readable: none; writable: DESCRIPTOR; writable: none; walk: 0; walk: SOME; put: ok; \
    put: refused descriptor index; put: refused memory; stop: ok; stop: refused memory; ask: yes; ask: no; \
    ask: refused memory; question: yes; question: no; question: refused memory; state: STATE; error: too long; \
    error: unknown command; error: wrong number of words; error: not a number; error: no queue; error: no pass; \
    error: no chain; error: outside the image";

/// Sums over streams.
#[derive(Default)]
pub struct Figures {
    pub scripts: u64,
    pub lines: u64,
    pub answers: u64,
    kinds: BTreeMap<String, u64>,
    withheld: BTreeMap<Outside, u64>,
}

impl Figures {
    pub fn add(&mut self, stream: &Stream) {
        self.scripts += stream.starts.len() as u64;
        self.lines += stream.lines;
        for answer in stream.answers.split(|byte| *byte == b'\n').filter(|answer| !answer.is_empty()) {
            self.answers += 1;
            *self.kinds.entry(kind(answer)).or_default() += 1;
        }
        for (reason, count) in &stream.withheld {
            *self.withheld.entry(*reason).or_default() += count;
        }
    }

    pub fn join(&mut self, other: Figures) {
        self.scripts += other.scripts;
        self.lines += other.lines;
        self.answers += other.answers;
        for (kind, count) in other.kinds {
            *self.kinds.entry(kind).or_default() += count;
        }
        for (reason, count) in other.withheld {
            *self.withheld.entry(reason).or_default() += count;
        }
    }

    /// The kinds of answers that never came.
    pub fn missing(&self) -> Vec<&'static str> {
        EXPECTED.split("; ").filter(|kind| !self.kinds.contains_key(*kind)).collect()
    }

    pub fn print(&self) {
        println!("answers by kind:");
        for (kind, count) in &self.kinds {
            println!("{count:>10}  {kind}");
        }
        println!("lines that were not written because they may not be compared, by reason:");
        for (reason, count) in &self.withheld {
            println!("{count:>10}  {}", reason.text());
        }
        println!("scripts: {}", self.scripts);
        println!("lines: {}", self.lines);
        println!("answers: {}", self.answers);
    }
}

/// An answer without its numbers.
fn kind(answer: &[u8]) -> String {
    let answer = String::from_utf8_lossy(answer);
    let (word, rest) = answer.split_once(": ").unwrap_or((&answer, ""));
    let starts_with_number = rest.starts_with(|c: char| c.is_ascii_digit());
    let rest = match word {
        "error" => rest.split_once(": ").map_or(rest, |(_, error)| error),
        "dump" if rest.is_empty() => "NOTHING",
        "dump" => "BYTES",
        "sum" => "CRC",
        "state" => "STATE",
        "walk" if rest.starts_with("0 ") => "0",
        "walk" => "SOME",
        "next" | "readable" | "writable" if starts_with_number => "DESCRIPTOR",
        _ if starts_with_number => "N",
        _ => rest,
    };
    format!("{word}: {rest}")
}
