// SPDX-License-Identifier: Apache-2.0 AND BSD-3-Clause
//! Lines that are no commands, lines that are barely ones, and commands with any numbers.

use oracle::command::{Shape, COMMANDS};

use crate::author::Author;

const U64: u64 = u64::MAX;

/// A line that is wrong in one way or in several, or only looks wrong.
pub fn bad_line(author: &mut Author) {
    match author.random.below(12) {
        0 => unknown_word(author),
        1 | 2 => wrong_count(author),
        3..=5 => not_a_number(author),
        6 | 7 => outside_the_image(author),
        8 => without_pass_or_chain(author),
        9 => refused_memory(author),
        10 => odd_but_right(author),
        _ if author.random.one_in(4) => long_line(author),
        _ if author.random.one_in(2) => no_blanks(author),
        _ => any_bytes(author),
    }
}

fn unknown_word(author: &mut Author) {
    let words = ["Memory", "heads", "u8", "next-", "error:", "0", "-", "put:", "nextavail", "stat", "0x", "QUEUE 8"];
    let word = author.random.pick(&words);
    author.line(word.as_bytes());
}

/// One word too few or too many; the words may be wrong as well, which must not matter.
fn wrong_count(author: &mut Author) {
    let (name, shape) = &COMMANDS[author.random.below(COMMANDS.len() as u64) as usize];
    let right = match shape {
        Shape::Numbers(limits) => limits.len(),
        Shape::Halves => 2,
        Shape::Bytes => 65,
    };
    let count = match shape {
        Shape::Bytes => author.random.pick(&[0, 1, 66, 67]),
        _ if right > 0 && author.random.one_in(2) => right - 1,
        _ => right + 1,
    };
    let word = author.random.pick(&["0", "1", "x", "-", "99999999999999999999"]);
    let line = name.to_string() + &format!(" {word}").repeat(count);
    author.line(line.as_bytes());
}

/// A command in which one number is none, or is too large for its field.
fn not_a_number(author: &mut Author) {
    let (name, shape) = &COMMANDS[author.random.below(COMMANDS.len() as u64) as usize];
    let limits: &[u64] = match shape {
        Shape::Numbers(limits) => limits,
        Shape::Halves => &[0xFFFF_FFFF; 2],
        Shape::Bytes => &[U64, 255, 255, 255],
    };
    if limits.is_empty() {
        return;
    }
    let wrong = author.random.below(limits.len() as u64) as usize;
    let mut line = name.to_string();
    for (place, limit) in limits.iter().enumerate() {
        line.push(' ');
        if place == wrong {
            line.push_str(&no_number(author, *limit, matches!(shape, Shape::Halves)));
        } else {
            let value = author.random.below(limit.saturating_add(1).max(1)).min(*limit);
            line.push_str(&author.number(value));
        }
    }
    author.line(line.as_bytes());
}

fn no_number(author: &mut Author, limit: u64, half: bool) -> String {
    if author.random.one_in(2) {
        let above = u128::from(limit) + u128::from(author.random.pick(&[1u64, 1, 2, 4096]));
        return if author.random.one_in(3) { format!("{above:#x}") } else { above.to_string() };
    }
    let words = ["+1", "-1", "0x", "0X1", "1e3", "0xg", "1_000", "x", "--", "0x1 0x", "12a", "0x-1", "1,", "0b1"];
    let word = author.random.pick(&words);
    if word == "--" && !half {
        "-".into()
    } else {
        word.into()
    }
}

/// Image commands at the image's end, just past it, and where the sum passes 2^64. Some are right.
fn outside_the_image(author: &mut Author) {
    let len = author.replay.image().len();
    let random = &mut author.random;
    let count = random.pick(&[0, 0, 1, 2, 16, len, len + 1, U64]);
    let near = len.wrapping_sub(random.pick(&[0, 1, 2, 4, 8, 16, U64, U64 - 1]));
    let offset = random.pick(&[near, near, near, len, U64, 1 << 63]);
    match random.below(7) {
        0 => author.say("u16", &[offset, 1]),
        1 => author.say("u32", &[offset, 0]),
        2 => author.say("u64", &[offset, 0]),
        3 => author.say("desc", &[offset, 0, 0, 0, 0]),
        4 => author.say("bytes", &[offset, 0, 0]),
        5 => author.say("dump", &[offset, count.min(256)]),
        // A large fill would wipe the script's own rings away.
        _ => count <= 16 && author.say("fill", &[offset, count, 0]) || author.say("fill", &[offset, U64, 7]),
    };
}

fn without_pass_or_chain(author: &mut Author) {
    let word = author.random.pick(&["head", "next", "readable", "writable", "walk"]);
    author.say(word, &[]);
}

/// Images, regions and queues that are refused.
fn refused_memory(author: &mut Author) {
    let len = author.replay.image().len();
    let random = &mut author.random;
    match random.below(9) {
        0 => {
            let len = random.pick(&[(1 << 20) + 1, 1 << 21, U64]);
            author.say("memory", &[len]);
        }
        1 => {
            let largest = random.pick(&[0, 3, 5, 6, 12, 32_767, 32_769, 65_535]);
            author.say("queue", &[largest]);
        }
        2 => {
            author.say("region", &[0, 0, 0]);
        }
        3 => {
            author.say("region", &[U64 - 1, 4, 0]);
        }
        4 => {
            author.say("region", &[1 << 40, len + 2, 0]);
        }
        5 => {
            let offset = random.pick(&[len, U64, U64 - 1]);
            author.say("region", &[1 << 40, 2, offset]);
        }
        // Two reasons or three at once: the first of the tests decides.
        6 => {
            let region = random.pick(&[
                [0, 0, U64],
                [U64, 0, 0],
                [U64, len + 2, 0],
                [U64, 2, len],
                [0, len + 2, 0],
                [0, 2, U64],
            ]);
            author.say("region", &region);
        }
        // Fine while there is room in the table and in the image, and refused otherwise.
        _ => {
            let base = random.pick(&[0, 2, 16, 64, 1 << 40, (1 << 40) + 2]);
            let offset = 2 * random.below(len / 2 + 1);
            author.say("region", &[base, 2, offset]);
        }
    }
}

/// Comments, blanks and carriage returns in every place where they may stand.
fn odd_but_right(author: &mut Author) {
    let words = ["state", "valid", "sum", "question", "back", "pop", "next"];
    let word = author.random.pick(&words);
    let cr = if author.text_only { "" } else { "\r" };
    let line = match author.random.below(8) {
        0 => format!("{word}# comment"),
        1 => format!("  {word}"),
        2 => format!("\t{word}\t"),
        3 => format!("{word}{cr}"),
        4 => format!("{}#{}", &word[..2], &word[2..]),
        5 => " \t".to_string() + cr,
        6 => "# ".to_string() + word,
        _ => String::new(),
    };
    author.line(line.as_bytes());
}

/// Around 4,095 bytes: blanks, zeros and comments count.
fn long_line(author: &mut Author) {
    let len = author.random.pick(&[4094, 4095, 4095, 4096, 4096, 4097, 5000]);
    let mut line = author.random.pick(&["state ", "next-used ", "state #", "# ", "nothing "]).to_string();
    let filler = match line.as_str() {
        "state " => " ",
        "next-used " => "0",
        _ => "x",
    };
    line.push_str(&filler.repeat(len - line.len()));
    author.line(line.as_bytes());
}

/// Bytes that other languages take for blanks belong to the word here.
fn no_blanks(author: &mut Author) {
    if author.text_only {
        return;
    }
    let byte = author.random.pick(&[0u8, 0x0B, 0x0C, 0x1F, 0x7F, 0x85, 0xA0]);
    let mut line = author.random.pick(&["state", "put 0 0", "next-used 1", "table - 0", "\t", ""]).as_bytes().to_vec();
    let place = author.random.below(line.len() as u64 + 1) as usize;
    line.insert(place, byte);
    author.line(&line);
}

/// Bytes of all kinds, without line feeds.
fn any_bytes(author: &mut Author) {
    let count = author.random.between(1, 40);
    let mut line: Vec<u8> = Vec::new();
    for _ in 0..count {
        let byte = author.random.any() as u8;
        line.push(if author.text_only { b' ' + byte % 95 } else { byte });
    }
    author.line(&line);
}

/// A command with numbers at the edges of their fields. Commands that would end the script's queue are rare.
pub fn any_command(author: &mut Author) {
    let (name, shape) = &COMMANDS[author.random.below(COMMANDS.len() as u64) as usize];
    let ends = matches!(*name, "memory" | "queue" | "reset" | "fill");
    if ends && !author.random.one_in(12) {
        return;
    }
    match shape {
        Shape::Numbers(limits) => {
            let numbers: Vec<u64> = limits.iter().map(|limit| edge(author, *limit)).collect();
            author.say(name, &numbers);
        }
        Shape::Halves => {
            let addr = edge(author, U64);
            author.set_address(name, addr);
        }
        Shape::Bytes => {
            let numbers = [edge(author, U64), edge(author, 255), edge(author, 255)];
            author.say(name, &numbers);
        }
    }
}

fn edge(author: &mut Author, limit: u64) -> u64 {
    let len = author.replay.image().len();
    let random = &mut author.random;
    match random.below(8) {
        0 => limit - random.below(3).min(limit),
        1 => limit / 2 + 1,
        2 | 3 => random.below(len + 1).min(limit),
        4 => random.any() & limit,
        _ => random.below(10).min(limit),
    }
}

/// The first lines of a stream: nothing is there yet, so nearly everything is an error.
pub fn before_memory(author: &mut Author) {
    for line in ["sum", "dump 0 0", "dump 0 1", "fill 0 0 0", "region 0 2 0", "region 0 0 0", "valid", "put 0"] {
        author.line(line.as_bytes());
    }
    for _ in 0..20 {
        if author.random.one_in(2) {
            bad_line(author);
        } else {
            any_command(author);
        }
    }
    let largest = author.random.pick(&[1, 2, 4, 8]);
    author.say("queue", &[largest]);
    for line in ["ready 1", "avail 2 -", "valid", "begin", "head", "pop", "put 0 0", "ask", "stop", "chain 0", "walk"] {
        author.line(line.as_bytes());
    }
    for _ in 0..20 {
        any_command(author);
    }
}
