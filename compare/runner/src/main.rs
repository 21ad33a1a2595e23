// SPDX-License-Identifier: Apache-2.0 AND BSD-3-Clause
//! Holds the port against the crate over many scripts. `run` in this folder's parent starts it.

mod author;
mod bad;
mod compare;
mod device;
mod figures;
mod fixed;
mod generator;
mod guest;
mod layout;
mod options;
mod port;
mod random;
mod shrink;

use std::io::{self, Write};
use std::process::ExitCode;
use std::sync::atomic::{AtomicBool, AtomicU64, Ordering};
use std::sync::Mutex;
use std::time::Instant;

use compare::Disagreement;
use figures::Figures;
use generator::Plan;
use options::Options;
use port::Port;

const HELP: &str = "runner compare --port PROGRAM [--prefix COMMAND] [--seed N] [--scripts N] [--batch N] [--jobs N]
    Makes scripts, runs each on both sides, prints the figures. Status 1 on a disagreement, which is shortened and
    printed, or if a kind of answer never came in a run of at least 2,000 scripts.
runner script [--seed N] [--number N] [--batch N]
    Prints the scripts of one batch as they are fed to the port.
runner long
    Prints the script with 65,536 puts between two questions.
runner fixed --script FILE --answers FILE --command TEXT [--seed N] [--lines N] [--bytes N]
    Writes a sample of scripts, and the crate's answers to it.
runner kinds
    Prints the kinds of scripts.
";

fn main() -> ExitCode {
    let words: Vec<String> = std::env::args().skip(1).collect();
    let (command, rest) = match words.split_first() {
        Some((command, rest)) => (command.as_str(), rest),
        None => ("", &[][..]),
    };
    let outcome = match command {
        "compare" => compare_all(rest),
        "script" => print_batch(rest),
        "long" => print(&generator::long_run().input),
        "fixed" => fixed::write(rest).map(|()| true),
        "kinds" => print(generator::kinds().collect::<Vec<_>>().join("\n").as_bytes()),
        _ => {
            eprint!("{HELP}");
            return ExitCode::from(2);
        }
    };
    match outcome {
        Ok(true) => ExitCode::SUCCESS,
        Ok(false) => ExitCode::FAILURE,
        Err(why) => {
            eprintln!("runner: {why}");
            ExitCode::from(2)
        }
    }
}

fn print(bytes: &[u8]) -> Result<bool, String> {
    io::stdout().write_all(bytes).map_err(|why| why.to_string())?;
    Ok(true)
}

fn plan(options: &Options) -> Result<Plan, String> {
    Ok(Plan {
        seed: options.number("seed", 1)?,
        scripts: options.number("batch", 200)?,
        text_only: false,
        most_lines: u64::MAX / 2,
        most_bytes: usize::MAX / 2,
    })
}

fn print_batch(words: &[String]) -> Result<bool, String> {
    let options = Options::read(words, &["seed", "number", "batch"])?;
    print(&generator::batch(&plan(&options)?, options.number("number", 0)?).input)
}

/// What the workers share.
struct Run {
    plan: Plan,
    port: Port,
    batches: u64,
    next: AtomicU64,
    stop: AtomicBool,
    figures: Mutex<Figures>,
    found: Mutex<Option<(u64, Disagreement)>>,
}

fn compare_all(words: &[String]) -> Result<bool, String> {
    let options = Options::read(words, &["port", "prefix", "seed", "scripts", "batch", "jobs"])?;
    let started = Instant::now();
    let plan = plan(&options)?;
    let scripts: u64 = options.number("scripts", 20_000)?;
    let processors = std::thread::available_parallelism().map_or(1, |count| count.get());
    let prefix = options.text("prefix").unwrap_or("").split_whitespace().map(Into::into);
    let run = Run {
        batches: scripts.div_ceil(plan.scripts),
        port: Port { command: prefix.chain([options.needed("port")?.into()]).collect() },
        plan,
        next: AtomicU64::new(0),
        stop: AtomicBool::new(false),
        figures: Mutex::default(),
        found: Mutex::new(None),
    };
    work_all(&run, options.number("jobs", processors)?)?;

    let figures = run.figures.into_inner().expect("no worker panicked");
    let found = run.found.into_inner().expect("no worker panicked");
    figures.print();
    println!("disagreements: {}", u64::from(found.is_some()));
    println!("seconds: {:.1}", started.elapsed().as_secs_f64());
    println!("seed: {}", run.plan.seed);
    if let Some((batch, disagreement)) = found {
        print_disagreement(&run.plan, batch, &disagreement);
        return Ok(false);
    }
    let missing = figures.missing();
    if !missing.is_empty() {
        println!("kinds of answers that never came: {}", missing.join(", "));
    }
    Ok(missing.is_empty() || scripts < 2_000)
}

fn work_all(run: &Run, jobs: usize) -> Result<(), String> {
    std::thread::scope(|scope| {
        let workers: Vec<_> = (0..jobs.max(1)).map(|_| scope.spawn(|| work(run))).collect();
        for worker in workers {
            worker.join().expect("a worker panicked").map_err(|why| format!("the port's program: {why}"))?;
        }
        Ok(())
    })
}

/// Takes batches until there are none. Batch 0 is the long run.
fn work(run: &Run) -> io::Result<()> {
    let mut figures = Figures::default();
    while !run.stop.load(Ordering::Relaxed) {
        let number = run.next.fetch_add(1, Ordering::Relaxed);
        if number > run.batches {
            break;
        }
        let stream = if number == 0 { generator::long_run() } else { generator::batch(&run.plan, number) };
        figures.add(&stream);
        let compared = compare::compare(&stream, &run.port);
        if !matches!(compared, Ok(None)) {
            run.stop.store(true, Ordering::Relaxed);
        }
        if let Some(disagreement) = compared? {
            run.found.lock().expect("no worker panicked").get_or_insert((number, disagreement));
        }
    }
    run.figures.lock().expect("no worker panicked").join(figures);
    Ok(())
}

fn print_disagreement(plan: &Plan, batch: u64, found: &Disagreement) {
    println!("\nThe two sides part in script {} of batch {batch}, seed {}. Shortened:\n", found.script, plan.seed);
    print_lines(&found.lines, usize::MAX);
    if found.ends_without_line_feed {
        println!("\nThe last line has no line feed.");
    }
    let same = compare::first_difference(&found.crate_answers, &found.port_answers);
    println!("\nThe crate answers:\n");
    print_lines(&compare::lines_of(&found.crate_answers), same);
    println!("\nThe port answers:\n");
    print_lines(&compare::lines_of(&found.port_answers), same);
}

/// Prints lines, with a mark at one of them. Many of the same are printed once, with their number.
fn print_lines(lines: &[Vec<u8>], marked: usize) {
    let mut from = 0;
    while from < lines.len() {
        let mut to = from + 1;
        while to < lines.len() && lines[to] == lines[from] && to != marked && from != marked {
            to += 1;
        }
        let mark = if from == marked { '>' } else { ' ' };
        let times = if to - from > 1 { format!("    ({} times)", to - from) } else { String::new() };
        println!("  {mark} {}{times}", lines[from].escape_ascii());
        from = to;
    }
    if marked == lines.len() {
        println!("  > (nothing more)");
    }
}
