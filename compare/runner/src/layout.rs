// SPDX-License-Identifier: Apache-2.0 AND BSD-3-Clause
//! Where a script's rings lie, and in what memory.

use crate::author::Author;

/// How the three areas lie to each other and to memory.
#[derive(Clone, Copy, Debug, PartialEq, Eq)]
pub enum Layout {
    /// With room between them.
    Apart,
    /// One right after the other.
    Adjacent,
    /// Over each other, a few bytes apart.
    Overlapping,
    /// The last area ends at the image's end, or a little before or after it.
    AtTheEnd,
    /// Around 2^64, in memory or not.
    AtTheTop,
}

/// What memory is made of.
#[derive(Clone, Copy, Debug, PartialEq, Eq)]
pub enum Regions {
    /// The one that `memory` makes.
    One,
    /// One that lies elsewhere.
    Moved,
    /// Several, one after the other, in any order of the image.
    Split,
    /// Several, with holes between them.
    Holes,
    /// Several that lie over each other in the image.
    Aliased,
    /// One at each end of all addresses: a sum that wraps instead of failing would find memory.
    Ends,
}

/// The areas of a queue of `size` places.
#[derive(Clone, Copy, Debug)]
pub struct Areas {
    pub size: u64,
    pub table: u64,
    pub avail: u64,
    pub used: u64,
}

impl Areas {
    pub fn avail_len(&self) -> u64 {
        6 + 2 * self.size
    }

    pub fn used_len(&self) -> u64 {
        6 + 8 * self.size
    }
}

/// The guest addresses that a script's memory begins and ends at, as far as the layout is concerned.
#[derive(Clone, Copy, Debug)]
pub struct Span {
    pub base: u64,
    pub len: u64,
}

/// Writes `memory`, the regions, and answers the addresses over which they lie.
pub fn make_memory(author: &mut Author, regions: Regions, layout: Layout) -> Span {
    let len = image_length(author, layout);
    author.say("memory", &[len]);
    if regions == Regions::One {
        return Span { base: 0, len };
    }
    let even = len & !1;
    if regions == Regions::Ends {
        return both_ends(author, even);
    }
    let base = span_base(author, even, layout);
    match regions {
        Regions::One | Regions::Ends => unreachable!("answered above"),
        Regions::Moved => {
            author.say("region", &[base, even, 0]);
        }
        Regions::Split | Regions::Holes | Regions::Aliased => many_regions(author, regions, base, even),
    }
    Span { base, len: even }
}

fn image_length(author: &mut Author, layout: Layout) -> u64 {
    let random = &mut author.random;
    if layout == Layout::AtTheEnd && random.one_in(2) {
        // Ends just before, at and just after a place where a table could end.
        return 16 * random.between(24, 64) + random.pick(&[0, 1, 2, 13, 14, 15]);
    }
    let len = match layout {
        Layout::Overlapping => random.between(32, 320),
        Layout::Adjacent => random.between(300, 512),
        _ if random.one_in(150) => random.pick(&[1 << 20, (1 << 20) - 1, (1 << 20) - 16, 65_536]),
        _ => random.between(384, 2048),
    };
    if random.one_in(5) {
        len
    } else {
        len & !1
    }
}

fn span_base(author: &mut Author, len: u64, layout: Layout) -> u64 {
    let random = &mut author.random;
    let high = layout == Layout::AtTheTop || random.one_in(8);
    match random.below(4) {
        // The last address of memory is 2^64 - 3, or less.
        0 | 1 if high => 0u64.wrapping_sub(len + random.pick(&[2, 2, 4, 16, 30])),
        0 => 0,
        1 => 16 * random.between(1, 64),
        2 => (1 << 32) - 16 * random.between(0, 40),
        _ => 16 * random.below(1 << 50),
    }
}

/// A small region up to 2^64 - 2, and the rest from 0 on. Up to 2^64 itself may not be compared.
fn both_ends(author: &mut Author, len: u64) -> Span {
    let top = 2 * author.random.between(4, 64);
    author.say("region", &[0u64.wrapping_sub(top + 2), top, 0]);
    author.say("region", &[0, len - top, top]);
    Span { base: 0, len: len - top }
}

/// Cuts the span into parts at even places and maps each.
fn many_regions(author: &mut Author, regions: Regions, base: u64, len: u64) {
    let count = author.random.between(2, 8);
    let mut cuts: Vec<u64> = (1..count).map(|_| 2 * author.random.below(len / 2)).collect();
    // Near the front lie the rings: more cuts there than elsewhere.
    for cut in cuts.iter_mut() {
        if author.random.one_in(2) {
            *cut %= 200.min(len);
        }
    }
    cuts.extend([0, len]);
    cuts.sort_unstable();
    cuts.dedup();
    let mut parts: Vec<(u64, u64)> = cuts.windows(2).map(|pair| (pair[0], pair[1] - pair[0])).collect();
    if author.random.one_in(2) {
        author.random.shuffle(&mut parts);
    }
    let mut free = 0;
    for (start, part) in parts {
        let offset = match regions {
            Regions::Aliased => 2 * author.random.below((len - part) / 2 + 1),
            _ => free,
        };
        free += part;
        if regions == Regions::Holes && author.random.one_in(4) {
            continue;
        }
        author.say("region", &[base + start, part, offset]);
    }
}

/// Chooses addresses for a queue.
pub fn choose_areas(author: &mut Author, layout: Layout, span: Span, size: u64) -> Areas {
    let random = &mut author.random;
    let mut areas = Areas { size, table: 0, avail: 0, used: 0 };
    match layout {
        Layout::Apart | Layout::Adjacent => {
            let gap = if layout == Layout::Apart { 16 * random.below(8) } else { 0 };
            areas.table = up(span.base, 0, 16);
            areas.avail = up(areas.table, 16 * size + gap, 2);
            areas.used = up(areas.avail, areas.avail_len() + gap, 4);
        }
        Layout::Overlapping => {
            areas.table = up(span.base, 16 * random.below(3), 16);
            areas.avail = up(span.base, 2 * random.below(40), 2);
            areas.used = up(span.base, 4 * random.below(20), 4);
        }
        Layout::AtTheEnd => at_the_end(author, span, &mut areas),
        Layout::AtTheTop => at_the_top(author, span, &mut areas),
    }
    areas
}

/// The first multiple of `step` that lies at least `count` after `addr`. At the top of addresses it may pass 2^64.
fn up(addr: u64, count: u64, step: u64) -> u64 {
    addr.wrapping_add(count + step - 1) & !(step - 1)
}

/// One area reaches to the end of memory, give or take a few bytes; the others lie well inside.
fn at_the_end(author: &mut Author, span: Span, areas: &mut Areas) {
    *areas = choose_areas(author, Layout::Apart, span, areas.size);
    let random = &mut author.random;
    let end = span.base.wrapping_add(span.len);
    let near = |len: u64, step: u64, slip: u64| (end.wrapping_sub(len).wrapping_add(slip)) & !(step - 1);
    match random.below(3) {
        0 => areas.table = near(16 * areas.size, 16, random.pick(&[0, 15, 16, 32])),
        1 => areas.avail = near(areas.avail_len(), 2, random.pick(&[0, 1, 2, 4, 6, 8])),
        _ => areas.used = near(areas.used_len(), 4, random.pick(&[0, 2, 3, 4, 8, 12])),
    }
}

/// One or more areas lie at the top of all addresses, where sums pass 2^64.
fn at_the_top(author: &mut Author, span: Span, areas: &mut Areas) {
    *areas = choose_areas(author, Layout::Apart, span, areas.size);
    let random = &mut author.random;
    let top = |below: u64, step: u64| 0u64.wrapping_sub(below) & !(step - 1);
    for area in 0..3 {
        if random.one_in(2) {
            continue;
        }
        match area {
            0 => areas.table = top(16 * random.between(1, areas.size + 1), 16),
            1 => areas.avail = top(2 * random.between(1, areas.size + 4), 2),
            _ => areas.used = top(4 * random.between(1, 2 * areas.size + 3), 4),
        }
    }
}
