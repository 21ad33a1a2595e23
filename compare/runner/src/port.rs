// SPDX-License-Identifier: Apache-2.0 AND BSD-3-Clause
//! The other side: a program that reads a script from standard input.

use std::ffi::OsString;
use std::io::{self, Read, Write};
use std::process::{Command, Stdio};

/// How the port's program is started.
#[derive(Clone, Debug)]
pub struct Port {
    /// The program, with what stands before it: an emulator, where the machine needs one.
    pub command: Vec<OsString>,
}

impl Port {
    /// Runs a script. A program that ends badly says so in a last line of its own, which no script can be answered with.
    pub fn run(&self, input: &[u8]) -> io::Result<Vec<u8>> {
        let mut child = Command::new(&self.command[0])
            .args(&self.command[1..])
            .stdin(Stdio::piped())
            .stdout(Stdio::piped())
            // A program that falls over would fill the screen while its script is shortened.
            .stderr(Stdio::null())
            .spawn()?;
        let mut stdin = child.stdin.take().expect("piped above");
        let mut stdout = child.stdout.take().expect("piped above");
        let mut output = Vec::new();
        std::thread::scope(|scope| {
            // Written beside the reading: either pipe may be full. A program that ends early closes its input, and what
            // that means shows in its answers.
            scope.spawn(move || {
                let _ = stdin.write_all(input);
            });
            stdout.read_to_end(&mut output)
        })?;
        let status = child.wait()?;
        if !status.success() {
            output.extend_from_slice(format!("the program ended: {status}\n").as_bytes());
        }
        Ok(output)
    }
}
