// SPDX-License-Identifier: Apache-2.0 AND BSD-3-Clause
//! What the device does: the queue's calls, in orders that a device would use and in others.

use virtio_queue::QueueT;

use crate::author::Author;
use crate::guest::{self, areas, Style};

/// Makes the queue ready over the areas that the layout chose.
pub fn set_up(author: &mut Author, areas: crate::layout::Areas, largest: u64) {
    author.say("queue", &[largest]);
    if areas.size != largest || author.random.one_in(4) {
        author.say("size", &[areas.size]);
    }
    author.set_address("table", areas.table);
    author.set_address("avail", areas.avail);
    author.set_address("used", areas.used);
    if !author.random.one_in(25) {
        author.say("ready", &[1]);
    }
    author.say("valid", &[]);
}

/// A pass: begin, some heads with what may come between them, then the answers to what was taken.
pub fn pass(author: &mut Author, style: Style) {
    author.say("begin", &[]);
    if author.answer() != "begin: ok" && !author.random.one_in(4) {
        return;
    }
    let mut taken = Vec::new();
    for _ in 0..author.random.between(1, 10) {
        match author.random.below(17) {
            0 => guest::offer_chain(author, style),
            16 if author.random.one_in(4) => guest::new_region(author),
            1 => guest::change_byte(author),
            2 => guest::scribble(author),
            3 => guest::change_length(author),
            4 => {
                author.say("back", &[]);
            }
            5..=8 => chain_commands(author),
            _ => {
                author.say("head", &[]);
                taken.extend(author.answered_number());
            }
        }
    }
    for head in taken {
        if !author.random.one_in(5) {
            put(author, head);
        }
    }
}

/// One chain from taking to answering.
pub fn serve_one(author: &mut Author) {
    author.say("pop", &[]);
    let head = author.answered_number();
    if head.is_some() || author.random.one_in(6) {
        chain_commands(author);
    }
    if let Some(head) = head {
        put(author, head);
    }
    if author.random.one_in(2) {
        author.say("question", &[]);
    }
}

/// A few commands on the current chain; rarely more after its end.
pub fn chain_commands(author: &mut Author) {
    for _ in 0..author.random.below(7) {
        let word = author.random.weighted(&[("next", 8), ("readable", 2), ("writable", 2), ("walk", 2)]);
        author.say(word, &[]);
        let ended = !author.answer().starts_with("next: ") || author.answer().ends_with(": none");
        if ended && !author.random.one_in(4) {
            return;
        }
    }
}

/// A chain from any head.
pub fn chain_at(author: &mut Author) {
    let Some(areas) = areas(author) else { return };
    let head = match author.random.below(6) {
        0 => author.random.pick(&[areas.size, 65_535, areas.size + 1]),
        _ => author.random.below(areas.size),
    };
    author.say("chain", &[head]);
    chain_commands(author);
}

/// Answers a head.
pub fn put(author: &mut Author, head: u64) {
    let len = author.random.pick(&[0, 1, 32, 512, 0xFFFF_FFFF, 0x8000_0000, 0x0102_0304]);
    author.say("put", &[head, len]);
}

/// Answers any head, taken or not, sometimes many times.
pub fn put_any(author: &mut Author) {
    let Some(areas) = areas(author) else { return };
    let times = if author.random.one_in(8) { author.random.between(2, 20) } else { 1 };
    for _ in 0..times {
        let head = match author.random.below(10) {
            0 => author.random.pick(&[areas.size, 65_535, areas.size + 1]),
            _ => author.random.below(areas.size),
        };
        put(author, head);
    }
}

/// The calls about notification.
pub fn notify(author: &mut Author) {
    let word = author.random.weighted(&[("question", 4), ("stop", 2), ("ask", 3)]);
    author.say(word, &[]);
}

/// Looks at what was left behind.
pub fn look(author: &mut Author) {
    match author.random.below(6) {
        0 | 1 => author.say("state", &[]),
        2 => author.say("valid", &[]),
        3 | 4 => dump_area(author),
        // The sum of a large image takes a while.
        _ => author.replay.image().len() < 100_000 && author.say("sum", &[]),
    };
}

fn dump_area(author: &mut Author) -> bool {
    let Some(areas) = areas(author) else { return false };
    let addr = author.random.pick(&[areas.used, areas.used, areas.avail, areas.table]);
    let Some(offset) = author.replay.image().place(addr) else { return false };
    let count = author.random.pick(&[2, 4, 12, 22, 38, 70]).min(author.replay.image().len() - offset);
    author.say("dump", &[offset, count])
}

/// Any setter with any value.
pub fn set_any(author: &mut Author) {
    let largest = author.replay.queue().map_or(8, |queue| u64::from(queue.max_size()));
    let random = &mut author.random;
    match random.below(12) {
        0 | 1 => {
            let sizes = [0, 1, 2, 3, 4, 6, 8, largest, largest + 1, (2 * largest).min(65_535), 32_768, 65_535];
            let size = random.pick(&sizes);
            author.say("size", &[size]);
        }
        2 => {
            let ready = random.below(4).min(1);
            author.say("ready", &[ready]);
        }
        3 | 4 => {
            let on = random.below(2);
            author.say("event", &[on]);
        }
        5 => move_position(author, "next-avail"),
        6 => move_position(author, "next-used"),
        _ => set_some_address(author),
    }
}

fn set_some_address(author: &mut Author) {
    let Some(areas) = areas(author) else { return };
    let (area, now) = author.random.pick(&[("table", areas.table), ("avail", areas.avail), ("used", areas.used)]);
    let random = &mut author.random;
    let low = match random.below(8) {
        0 => random.below(1 << 32),
        1 => 0xFFFF_FFFF - random.below(64),
        2 => 0,
        3 => now & 0xFFFF_FFFF,
        _ => (now & 0xFFFF_FFFF) ^ random.pick(&[1, 2, 4, 8, 16, 32]),
    };
    let high = random.pick(&[0, 0, now >> 32, now >> 32, 1, 0xFFFF_FFFF]);
    let (low, high) = match random.below(4) {
        0 => ("-".to_string(), author.number(high)),
        1 => (author.number(low), "-".to_string()),
        2 if author.random.one_in(4) => ("-".to_string(), "-".to_string()),
        _ => (author.number(low), author.number(high)),
    };
    author.line(format!("{area} {low} {high}").as_bytes());
}

/// Sets a position, mostly where 16 bits wrap.
pub fn move_position(author: &mut Author, word: &str) {
    let position = near_the_wrap(author);
    author.say(word, &[position]);
}

/// A position near 65,535, or anywhere.
pub fn near_the_wrap(author: &mut Author) -> u64 {
    let random = &mut author.random;
    match random.below(5) {
        0 => random.below(65_536),
        1 => random.below(4),
        _ => 65_535 - random.below(9),
    }
}
