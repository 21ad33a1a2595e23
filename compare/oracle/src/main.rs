// SPDX-License-Identifier: Apache-2.0 AND BSD-3-Clause
//! Reads a script from standard input and prints the crate's answers.

use std::io::{stdin, stdout, BufReader, BufWriter};
use std::process::ExitCode;

fn main() -> ExitCode {
    match oracle::run(BufReader::new(stdin().lock()), BufWriter::new(stdout().lock())) {
        Ok(()) => ExitCode::SUCCESS,
        Err(why) => {
            eprintln!("oracle: {why}");
            ExitCode::FAILURE
        }
    }
}
