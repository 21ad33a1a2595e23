// SPDX-License-Identifier: Apache-2.0 AND BSD-3-Clause
//! Scripts of many kinds. A kind is a layout, a memory, a way to lay chains, and weights for what happens.

use crate::author::{Author, Stream};
use crate::guest::{self, Style};
use crate::layout::{choose_areas, make_memory, Layout, Regions};
use crate::random::Random;
use crate::{bad, device};

/// Something that happens in a script.
#[derive(Clone, Copy, Debug)]
enum Act {
    OfferChain,
    OfferAny,
    WildDescriptor,
    ChangeByte,
    ChangeLength,
    Scribble,
    SetIdx,
    SetUsedEvent,
    SetFlags,
    NewRegion,
    Pass,
    ServeOne,
    ChainAt,
    ChainCommands,
    PutAny,
    Notify,
    Look,
    Back,
    SetAny,
    Reset,
    BadLine,
    AnyCommand,
}

/// What makes a script of some kind.
struct Kind {
    name: &'static str,
    layouts: &'static [Layout],
    regions: &'static [Regions],
    styles: &'static [Style],
    acts: &'static [(Act, u64)],
}

const DEVICE_AT_WORK: &[(Act, u64)] = &[
    (Act::OfferChain, 16),
    (Act::Pass, 10),
    (Act::ServeOne, 12),
    (Act::Notify, 6),
    (Act::Look, 5),
    (Act::PutAny, 2),
    (Act::SetUsedEvent, 3),
    (Act::SetFlags, 1),
    (Act::ChainAt, 2),
    (Act::Back, 1),
    (Act::BadLine, 1),
    (Act::SetAny, 1),
];

const HOSTILE_GUEST: &[(Act, u64)] = &[
    (Act::OfferChain, 10),
    (Act::OfferAny, 6),
    (Act::ChangeByte, 10),
    (Act::ChangeLength, 2),
    (Act::Scribble, 4),
    (Act::WildDescriptor, 4),
    (Act::SetIdx, 4),
    (Act::SetUsedEvent, 2),
    (Act::NewRegion, 1),
    (Act::Pass, 12),
    (Act::ServeOne, 12),
    (Act::PutAny, 3),
    (Act::Notify, 5),
    (Act::Look, 5),
    (Act::ChainAt, 4),
    (Act::Back, 1),
    (Act::BadLine, 1),
];

const CHAINS: &[(Act, u64)] = &[
    (Act::OfferChain, 12),
    (Act::WildDescriptor, 10),
    (Act::ChangeLength, 6),
    (Act::ChainAt, 14),
    (Act::ChainCommands, 10),
    (Act::Pass, 6),
    (Act::ServeOne, 6),
    (Act::ChangeByte, 2),
    (Act::Look, 2),
    (Act::BadLine, 1),
];

const NOTIFICATION: &[(Act, u64)] = &[
    (Act::PutAny, 14),
    (Act::Notify, 14),
    (Act::SetUsedEvent, 12),
    (Act::SetIdx, 5),
    (Act::ServeOne, 4),
    (Act::OfferChain, 4),
    (Act::SetAny, 4),
    (Act::SetFlags, 2),
    (Act::Look, 5),
];

const SETTERS: &[(Act, u64)] = &[
    (Act::SetAny, 30),
    (Act::Look, 12),
    (Act::ServeOne, 4),
    (Act::Pass, 4),
    (Act::PutAny, 4),
    (Act::Notify, 4),
    (Act::Back, 2),
    (Act::Reset, 1),
    (Act::OfferAny, 4),
    (Act::ChainAt, 3),
    (Act::BadLine, 2),
];

const BAD_LINES: &[(Act, u64)] = &[
    (Act::BadLine, 40),
    (Act::AnyCommand, 10),
    (Act::Look, 6),
    (Act::ServeOne, 4),
    (Act::Pass, 4),
    (Act::OfferChain, 4),
    (Act::SetAny, 2),
];

const ANYTHING: &[(Act, u64)] = &[
    (Act::AnyCommand, 30),
    (Act::NewRegion, 2),
    (Act::Scribble, 12),
    (Act::WildDescriptor, 6),
    (Act::SetIdx, 6),
    (Act::Pass, 6),
    (Act::ServeOne, 6),
    (Act::Look, 6),
    (Act::PutAny, 3),
    (Act::ChainAt, 4),
    (Act::Reset, 1),
];

use Layout::{Adjacent, Apart, AtTheEnd, AtTheTop, Overlapping};
use Regions::{Aliased, Ends, Holes, Moved, One, Split};
use Style::{Legal, Loop, Sum, Wild};

const KINDS: &[Kind] = &[
    Kind {
        name: "a device at work",
        layouts: &[Apart, Adjacent],
        regions: &[One, One, Moved],
        styles: &[Legal],
        acts: DEVICE_AT_WORK,
    },
    Kind {
        name: "one byte changed",
        layouts: &[Apart, Adjacent],
        regions: &[One, Moved],
        styles: &[Legal, Legal, Wild],
        acts: HOSTILE_GUEST,
    },
    Kind {
        name: "rings over each other",
        layouts: &[Overlapping],
        regions: &[One, One, Split, Aliased],
        styles: &[Legal, Wild, Loop],
        acts: HOSTILE_GUEST,
    },
    Kind {
        name: "at the image's end",
        layouts: &[AtTheEnd],
        regions: &[One, One, Moved, Split],
        styles: &[Legal, Loop, Wild],
        acts: HOSTILE_GUEST,
    },
    Kind {
        name: "at the top of addresses",
        layouts: &[AtTheTop, AtTheTop, AtTheEnd],
        regions: &[Ends, Ends, Ends, One, Moved, Split],
        styles: &[Legal, Wild],
        acts: HOSTILE_GUEST,
    },
    Kind {
        name: "loops and sums",
        layouts: &[Apart, Adjacent, AtTheEnd],
        regions: &[One, One, Split],
        styles: &[Loop, Sum, Sum, Wild],
        acts: CHAINS,
    },
    Kind {
        name: "several regions, at work",
        layouts: &[Apart, Adjacent],
        regions: &[Split, Split, Aliased, Holes],
        styles: &[Legal, Sum],
        acts: DEVICE_AT_WORK,
    },
    Kind {
        name: "several regions, hostile",
        layouts: &[Apart, Adjacent, Overlapping, AtTheEnd, AtTheTop],
        regions: &[Split, Holes, Aliased],
        styles: &[Legal, Loop, Sum, Wild],
        acts: HOSTILE_GUEST,
    },
    Kind {
        name: "notification",
        layouts: &[Apart, Adjacent, AtTheEnd, AtTheTop],
        regions: &[One, Moved, Split, Holes, Ends],
        styles: &[Legal],
        acts: NOTIFICATION,
    },
    Kind {
        name: "setters",
        layouts: &[Apart, Adjacent, Overlapping, AtTheTop],
        regions: &[One, Moved, Split],
        styles: &[Legal, Wild],
        acts: SETTERS,
    },
    Kind { name: "bad lines", layouts: &[Apart, AtTheEnd], regions: &[One, Holes], styles: &[Legal], acts: BAD_LINES },
    Kind {
        name: "anything",
        layouts: &[Overlapping, Adjacent, AtTheEnd],
        regions: &[One, Split, Aliased],
        styles: &[Wild],
        acts: ANYTHING,
    },
];

/// The names of the kinds.
pub fn kinds() -> impl Iterator<Item = &'static str> {
    KINDS.iter().map(|kind| kind.name)
}

/// How a batch is made.
pub struct Plan {
    pub seed: u64,
    /// How many scripts.
    pub scripts: u64,
    /// No bytes but printable ASCII and blanks.
    pub text_only: bool,
    /// Stop before the stream grows past so many lines.
    pub most_lines: u64,
    /// And past so many bytes.
    pub most_bytes: usize,
}

/// The scripts of one batch, one after the other. The first begins before there is memory; every other one begins with
/// `memory` and `queue`, which bring both sides to a known state.
pub fn batch(plan: &Plan, number: u64) -> Stream {
    let mut author = Author::new(Random::new(plan.seed, number));
    author.text_only = plan.text_only;
    author.begin_script();
    bad::before_memory(&mut author);
    for script in 1..plan.scripts {
        // A script is at most about 400 lines of at most some 5,000 bytes, and most are far from it.
        if author.all_lines() + 400 > plan.most_lines || author.bytes() + 40_000 > plan.most_bytes {
            break;
        }
        author.begin_script();
        // The kinds take turns, and over a run each kind meets each turn of the position at its start.
        let kind = &KINDS[((script + number) % KINDS.len() as u64) as usize];
        write_script(&mut author, kind, (script + number / 3).is_multiple_of(3));
    }
    author.finish()
}

fn write_script(author: &mut Author, kind: &Kind, at_the_wrap: bool) {
    let layout = author.random.pick(kind.layouts);
    let regions = author.random.pick(kind.regions);
    let style = author.random.pick(kind.styles);
    let size = author.random.pick(&[1, 2, 4, 8]);
    let largest = if author.random.one_in(3) { author.random.pick(&[size, 8, 16, 1024, 32_768]) } else { size };

    let span = make_memory(author, regions, layout);
    if author.random.one_in(10) {
        // After `memory` there is no queue: its commands are errors.
        bad::any_command(author);
    }
    let areas = choose_areas(author, layout, span, size);
    device::set_up(author, areas, largest);
    start_positions(author, at_the_wrap);
    if author.random.one_in(2) {
        author.say("event", &[1]);
    }

    let lines = author.random.between(60, 260);
    while author.lines() < lines {
        let act = author.random.weighted(kind.acts);
        perform(author, act, style);
    }
    author.say("state", &[]);
    author.say("sum", &[]);
}

/// Both positions, and the guest's idx with them.
fn start_positions(author: &mut Author, at_the_wrap: bool) {
    if !at_the_wrap && author.random.one_in(2) {
        return;
    }
    let random = &mut author.random;
    let position = if at_the_wrap { 65_535 - random.below(6) } else { random.below(65_536) };
    author.say("next-avail", &[position]);
    guest::set_idx_to(author, position as u16);
    let used = if author.random.one_in(3) { device::near_the_wrap(author) } else { position };
    author.say("next-used", &[used]);
}

fn perform(author: &mut Author, act: Act, style: Style) {
    match act {
        Act::OfferChain => guest::offer_chain(author, style),
        Act::OfferAny => guest::offer_any(author),
        Act::WildDescriptor => guest::wild_descriptor(author),
        Act::ChangeByte => guest::change_byte(author),
        Act::ChangeLength => guest::change_length(author),
        Act::Scribble => guest::scribble(author),
        Act::SetIdx => guest::set_idx(author),
        Act::SetUsedEvent => guest::set_used_event(author),
        Act::SetFlags => guest::set_avail_flags(author),
        Act::NewRegion => guest::new_region(author),
        Act::Pass => device::pass(author, style),
        Act::ServeOne => device::serve_one(author),
        Act::ChainAt => device::chain_at(author),
        Act::ChainCommands => device::chain_commands(author),
        Act::PutAny => device::put_any(author),
        Act::Notify => device::notify(author),
        Act::Look => device::look(author),
        Act::Back => {
            author.say("back", &[]);
        }
        Act::SetAny => device::set_any(author),
        Act::Reset => reset(author),
        Act::BadLine => bad::bad_line(author),
        Act::AnyCommand => bad::any_command(author),
    }
    // An act can come to nothing; a line in any case keeps the script from standing still.
    if author.random.one_in(20) {
        author.say("state", &[]);
    }
}

/// A reset, and mostly a new start at the same places.
fn reset(author: &mut Author) {
    let areas = guest::areas(author);
    author.say("reset", &[]);
    let Some(areas) = areas.filter(|_| !author.random.one_in(4)) else { return };
    author.say("size", &[areas.size]);
    author.set_address("table", areas.table);
    author.set_address("avail", areas.avail);
    author.set_address("used", areas.used);
    author.say("ready", &[1]);
}

/// One long script: 65,536 puts between two questions, and one more.
pub fn long_run() -> Stream {
    let mut author = Author::new(Random::new(0, 0));
    author.begin_script();
    for line in ["memory 64", "queue 1", "used 32 0", "avail 16 0", "ready 1", "event 1", "question", "put 0 0"] {
        author.line(line.as_bytes());
    }
    author.line(b"question");
    for _ in 0..65_536u32 {
        author.line(b"put 0 0");
    }
    for line in ["state", "question", "put 0 0", "question", "u16 22 2", "put 0 0", "question", "sum"] {
        author.line(line.as_bytes());
    }
    author.finish()
}
