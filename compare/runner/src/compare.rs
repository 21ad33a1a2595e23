// SPDX-License-Identifier: Apache-2.0 AND BSD-3-Clause
//! Both sides over one stream, and where they part.

use std::io;

use oracle::words::without_line_feed;
use oracle::Replay;

use crate::author::Stream;
use crate::port::Port;
use crate::shrink::shrink;

/// A script on which the two sides part, as short as it could be made.
pub struct Disagreement {
    /// Which script of the stream, from 0.
    pub script: usize,
    pub lines: Vec<Vec<u8>>,
    /// Whether the last line lacks its line feed.
    pub ends_without_line_feed: bool,
    pub crate_answers: Vec<u8>,
    pub port_answers: Vec<u8>,
}

/// Runs the port over a stream and holds its answers against the crate's.
pub fn compare(stream: &Stream, port: &Port) -> io::Result<Option<Disagreement>> {
    let answers = port.run(&stream.input)?;
    if answers == stream.answers {
        return Ok(None);
    }
    let lines = lines_of(&stream.input);
    let last = line_of_answer(&lines, first_difference(&stream.answers, &answers));
    let script = stream.starts.iter().rposition(|start| *start <= last as u64).unwrap_or(0);
    let start = stream.starts[script] as usize;

    let both = Both { port, ends_without_line_feed: last + 1 == lines.len() && !stream.input.ends_with(b"\n") };

    // The script by itself, if that is enough; otherwise everything up to the line.
    let alone = &lines[start..=last];
    let enough = if both.part(alone)?.is_some() { alone } else { &lines[..=last] };
    let found = shrink(enough.to_vec(), |candidate| Ok(both.part(candidate)?.is_some()))?;
    let (crate_answers, port_answers) = both.part(&found)?.unwrap_or((stream.answers.clone(), answers));
    let ends_without_line_feed = both.ends_without_line_feed;
    Ok(Some(Disagreement { script, lines: found, ends_without_line_feed, crate_answers, port_answers }))
}

/// Both sides over scripts that end like the stream in which they parted.
struct Both<'a> {
    port: &'a Port,
    ends_without_line_feed: bool,
}

impl Both<'_> {
    /// Both answers to a script, if the script may be compared and they differ.
    fn part(&self, lines: &[Vec<u8>]) -> io::Result<Option<(Vec<u8>, Vec<u8>)>> {
        let Some(expected) = answers_within_domain(lines) else {
            return Ok(None);
        };
        let mut input = lines.join(&b'\n');
        if !self.ends_without_line_feed {
            input.push(b'\n');
        }
        let answers = self.port.run(&input)?;
        Ok((answers != expected).then_some((expected, answers)))
    }
}

/// The crate's answers, unless a line may not be compared: a shortened script can leave what the whole one kept to.
fn answers_within_domain(lines: &[Vec<u8>]) -> Option<Vec<u8>> {
    let mut replay = Replay::new();
    let mut answers = Vec::new();
    for line in lines {
        if replay.outside(line).is_some() {
            return None;
        }
        replay.line(line, &mut answers);
    }
    Some(answers)
}

/// The lines of a stream, without their line feeds.
pub fn lines_of(input: &[u8]) -> Vec<Vec<u8>> {
    input.split_inclusive(|byte| *byte == b'\n').map(|line| without_line_feed(line).to_vec()).collect()
}

/// How many answers are the same at the start.
pub fn first_difference(ours: &[u8], theirs: &[u8]) -> usize {
    let pairs = ours.split(|byte| *byte == b'\n').zip(theirs.split(|byte| *byte == b'\n'));
    pairs.take_while(|(ours, theirs)| ours == theirs).count()
}

/// The number of the line that has the given answer, both from 0: lines without words have none.
fn line_of_answer(lines: &[Vec<u8>], answer: usize) -> usize {
    let mut replay = Replay::new();
    let mut answers = Vec::new();
    let mut seen = 0;
    for (number, line) in lines.iter().enumerate() {
        answers.clear();
        replay.line(line, &mut answers);
        if !answers.is_empty() {
            if seen == answer {
                return number;
            }
            seen += 1;
        }
    }
    lines.len() - 1
}
