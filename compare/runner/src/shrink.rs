// SPDX-License-Identifier: Apache-2.0 AND BSD-3-Clause
//! Shortens a script while something stays true of it.

use std::io;

use oracle::words::{number, words};

type Lines = Vec<Vec<u8>>;

/// How many lines are run, over all attempts, before the shortest script so far has to do. A script of ordinary length
/// stays far below; one of 65,536 puts, none of which can go, would be tried for hours.
const MOST_LINES: u64 = 5_000_000;

/// Deletes lines, first many at a time and then one by one, and then makes the remaining ones plain.
pub fn shrink(lines: Lines, holds: impl FnMut(&[Vec<u8>]) -> io::Result<bool>) -> io::Result<Lines> {
    let mut search = Search { lines, holds, left: MOST_LINES };
    search.delete()?;
    search.make_plain()?;
    // A plainer number may have made further lines needless.
    search.delete()?;
    Ok(search.lines)
}

struct Search<F> {
    /// The shortest so far.
    lines: Lines,
    holds: F,
    left: u64,
}

impl<F: FnMut(&[Vec<u8>]) -> io::Result<bool>> Search<F> {
    /// Takes a candidate if it will do, and says whether it did.
    fn try_out(&mut self, candidate: Lines) -> io::Result<bool> {
        self.left = self.left.saturating_sub(candidate.len() as u64);
        let taken = !candidate.is_empty() && (self.holds)(&candidate)?;
        if taken {
            self.lines = candidate;
        }
        Ok(taken)
    }

    fn delete(&mut self) -> io::Result<()> {
        let mut chunk = self.lines.len().div_ceil(2);
        loop {
            let deleted = self.delete_chunks(chunk)?;
            if self.left == 0 || chunk == 1 && !deleted {
                return Ok(());
            }
            chunk = chunk.div_ceil(2);
        }
    }

    /// From the end: what comes late depends on what comes early.
    fn delete_chunks(&mut self, chunk: usize) -> io::Result<bool> {
        let mut deleted = false;
        let mut end = self.lines.len();
        while end > 0 && self.left > 0 {
            let start = end.saturating_sub(chunk);
            deleted |= self.try_out([&self.lines[..start], &self.lines[end..]].concat())?;
            end = start;
        }
        Ok(deleted)
    }

    fn make_plain(&mut self) -> io::Result<()> {
        for place in 0..self.lines.len() {
            for plainer in plainer_forms(&self.lines[place]) {
                if self.left > 0 && plainer != self.lines[place] {
                    let mut candidate = self.lines.clone();
                    candidate[place] = plainer;
                    self.try_out(candidate)?;
                }
            }
        }
        Ok(())
    }
}

/// The line without comments and needless blanks, numbers in decimal; then with each number in turn 0.
fn plainer_forms(line: &[u8]) -> Vec<Vec<u8>> {
    let plain: Lines = words(line).map(plain_word).collect();
    let mut forms = vec![plain.join(&b' ')];
    for place in 1..plain.len() {
        if number(&plain[place], u64::MAX).is_some() {
            let mut zeroed = plain.clone();
            zeroed[place] = b"0".to_vec();
            forms.push(zeroed.join(&b' '));
        }
    }
    forms
}

fn plain_word(word: &[u8]) -> Vec<u8> {
    match number(word, u64::MAX) {
        Some(value) => value.to_string().into_bytes(),
        None => word.to_vec(),
    }
}

#[cfg(test)]
mod tests {
    use super::*;

    #[test]
    fn what_is_needed_stays() {
        let lines: Lines = (0..100).map(|n| format!("put {n} 0x{n:x} # {n}").into_bytes()).collect();
        let needs = |lines: &[Vec<u8>]| {
            let has = |start: &str| lines.iter().any(|line| line.starts_with(start.as_bytes()));
            Ok(has("put 17 ") && has("put 60 "))
        };
        let found = shrink(lines, needs).unwrap();
        assert_eq!(found, [b"put 17 0".to_vec(), b"put 60 0".to_vec()]);
    }
}
