// SPDX-License-Identifier: Apache-2.0 AND BSD-3-Clause
//! The fixed list: a sample of scripts with the crate's answers, for a gate that has no Rust.

use std::fs;

use crate::generator::{batch, Plan};
use crate::options::Options;

/// Writes the list. The scripts are text without control bytes but the tab, so that it can be kept under version control.
pub fn write(words: &[String]) -> Result<(), String> {
    let options = Options::read(words, &["script", "answers", "command", "seed", "lines", "bytes"])?;
    let command = options.needed("command")?;
    let header = format!(
        "# Scripts of the replay language. The crate's answers to them are kept beside this file.\n# Made by: {command}\n"
    );
    let plan = Plan {
        seed: options.number("seed", 1)?,
        scripts: u64::MAX,
        text_only: true,
        most_lines: options.number("lines", 20_000)?,
        most_bytes: options.number("bytes", 1_000_000)?,
    };
    // Number 0 is the run's long script, so no run compares this batch.
    let mut script = header.into_bytes();
    script.extend(batch(&plan, 0).input);
    let mut answers = Vec::new();
    oracle::run(&script[..], &mut answers).map_err(|why| why.to_string())?;
    put(options.needed("script")?, &script)?;
    put(options.needed("answers")?, &answers)
}

fn put(path: &str, bytes: &[u8]) -> Result<(), String> {
    fs::write(path, bytes).map_err(|why| format!("{path}: {why}"))
}
