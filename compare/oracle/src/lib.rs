// SPDX-License-Identifier: Apache-2.0 AND BSD-3-Clause
//! The replay language over the crate virtio-queue: the side of the comparison that is held to be right.
//!
//! A [`Replay`] takes a script line by line and appends the answers. Its queue, passes and chains are the crate's own;
//! what is ours is the reading of lines ([`words`], [`command`]), the image with its regions ([`image`]), and the rule of
//! which scripts may be compared at all ([`domain`]).

pub mod command;
pub mod crc;
pub mod domain;
pub mod image;
pub mod replay;
#[cfg(test)]
mod tests;
pub mod words;

pub use replay::Replay;

use std::io::{self, BufRead, Write};

/// Runs a whole script.
pub fn run(mut input: impl BufRead, mut output: impl Write) -> io::Result<()> {
    let mut replay = Replay::new();
    let mut line = Vec::new();
    let mut answer = Vec::new();
    while input.read_until(b'\n', &mut line)? > 0 {
        replay.line(words::without_line_feed(&line), &mut answer);
        output.write_all(&answer)?;
        line.clear();
        answer.clear();
    }
    output.flush()
}
