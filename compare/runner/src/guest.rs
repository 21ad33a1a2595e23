// SPDX-License-Identifier: Apache-2.0 AND BSD-3-Clause
//! What the driver does: writes into the image, mostly at the queue's areas, well or badly.

use virtio_queue::QueueT;

use crate::author::Author;
use crate::layout::Areas;

const NEXT: u64 = 1;
const WRITE: u64 = 2;
const INDIRECT: u64 = 4;

/// How the driver lays its chains.
#[derive(Clone, Copy, Debug, PartialEq, Eq)]
pub enum Style {
    /// As the specification wants it.
    Legal,
    /// With a descriptor that leads back to an earlier one or to itself.
    Loop,
    /// With lengths that add up to about 2^32.
    Sum,
    /// Anything.
    Wild,
}

/// The areas as the device has them now.
pub fn areas(author: &Author) -> Option<Areas> {
    let queue = author.replay.queue()?;
    Some(Areas {
        size: u64::from(queue.size()),
        table: queue.desc_table(),
        avail: queue.avail_ring(),
        used: queue.used_ring(),
    })
}

/// How many entries lie between the device's position and the guest's idx; nothing if idx isn't in memory.
pub fn outstanding(author: &Author) -> Option<u16> {
    let queue = author.replay.queue()?;
    Some(read_u16(author, queue.avail_ring().wrapping_add(2))?.wrapping_sub(queue.next_avail()))
}

/// Lays a chain and makes it available. A driver that keeps to the rules waits while the ring is full; an idx that is
/// wrong is mostly set right first, because nothing can be taken until it is.
pub fn offer_chain(author: &mut Author, style: Style) {
    let (Some(areas), Some(outstanding)) = (areas(author), outstanding(author)) else { return };
    if u64::from(outstanding) > areas.size && !author.random.one_in(4) {
        repair_idx(author);
    } else if u64::from(outstanding) == areas.size && !author.random.one_in(30) {
        return;
    }
    let mut indexes: Vec<u64> = (0..areas.size).collect();
    author.random.shuffle(&mut indexes);
    indexes.truncate(author.random.between(1, areas.size) as usize);
    let lens = lengths(author, style, indexes.len());
    let first_writable = author.random.below(indexes.len() as u64 + 1);
    for (place, index) in (0..).zip(&indexes) {
        let next = match indexes.get(place as usize + 1) {
            Some(next) => Some(*next),
            None if style == Style::Loop => Some(author.random.pick(&indexes)),
            None => None,
        };
        let writable = if style == Style::Wild { author.random.one_in(2) } else { place >= first_writable };
        let flags = u64::from(next.is_some()) * NEXT + u64::from(writable) * WRITE;
        let addr = buffer_address(author);
        write_descriptor(author, *index, [addr, lens[place as usize], flags, next.unwrap_or(0)]);
    }
    offer(author, indexes[0]);
}

fn lengths(author: &mut Author, style: Style, count: usize) -> Vec<u64> {
    let random = &mut author.random;
    if style != Style::Sum {
        return (0..count).map(|_| random.pick(&[0, 1, 16, 512, 4096, 65_536])).collect();
    }
    // The last length brings the sum to 2^32 - 1, or to a little less or more.
    let mut left: u64 = random.pick(&[u32::MAX as u64, u32::MAX as u64, 1 << 32, (1 << 32) + 1, (1 << 32) - 2]);
    let mut lens = Vec::new();
    for place in 0..count {
        let most = left.min(u32::MAX as u64);
        let len = if place + 1 == count { most } else { random.pick(&[most / 2, most, 1, 0, 0x8000_0000]).min(most) };
        left -= len;
        lens.push(len);
    }
    lens
}

fn buffer_address(author: &mut Author) -> u64 {
    let random = &mut author.random;
    match random.below(4) {
        0 => random.any(),
        1 => 0u64.wrapping_sub(random.between(1, 4096)),
        _ => 16 * random.below(65_536),
    }
}

/// Any descriptor anywhere in the table. The flag for indirect tables is rare: a chain that meets it can't go on.
pub fn wild_descriptor(author: &mut Author) {
    let Some(areas) = areas(author) else { return };
    let addr = buffer_address(author);
    let random = &mut author.random;
    let index = random.below(areas.size);
    let len = random.pick(&[0, 1, 4096, 0x7FFF_FFFF, 0x8000_0000, 0xFFFF_FFFF, 0xFFFF_FFFE]);
    let other_bits = if random.one_in(4) { random.below(65_536) & !7 } else { 0 };
    let indirect = if random.one_in(60) { INDIRECT } else { 0 };
    let flags = random.below(4) | other_bits | indirect;
    let next = match random.below(6) {
        0 => index,
        1 => random.pick(&[areas.size, areas.size + 1, 65_535, 32_768]),
        _ => random.below(areas.size),
    };
    write_descriptor(author, index, [addr, len, flags, next]);
}

/// One length becomes another, while a chain may be under way.
pub fn change_length(author: &mut Author) {
    let Some(areas) = areas(author) else { return };
    let index = author.random.below(areas.size);
    let len = author.random.pick(&[0u32, 1, 0x7FFF_FFFF, 0x8000_0000, 0xFFFF_FFFF]);
    store(author, areas.table.wrapping_add(16 * index + 8), &len.to_le_bytes());
}

/// Makes a head available.
pub fn offer(author: &mut Author, head: u64) {
    let Some(areas) = areas(author) else { return };
    let Some(idx) = read_u16(author, areas.avail.wrapping_add(2)) else { return };
    let place = u64::from(idx) % areas.size;
    write_u16(author, areas.avail.wrapping_add(4 + 2 * place), head as u16);
    write_u16(author, areas.avail.wrapping_add(2), idx.wrapping_add(1));
}

/// Makes a head available that is as likely wrong as right.
pub fn offer_any(author: &mut Author) {
    let Some(areas) = areas(author) else { return };
    let wrong = author.random.pick(&[areas.size, areas.size + 1, 32_768, 65_535]);
    let right = author.random.below(areas.size);
    let head = if author.random.one_in(2) { wrong } else { right };
    offer(author, head);
}

/// Sets the available idx relative to the device's position: right, at the limit, beyond it, behind.
pub fn set_idx(author: &mut Author) {
    let Some(areas) = areas(author) else { return };
    let Some(position) = author.replay.queue().map(|queue| queue.next_avail()) else { return };
    let size = areas.size as u16;
    let ahead = author.random.pick(&[0, 1, size, size, size + 1, 0xFFFF, 0xFFFE, 0x8000, size / 2]);
    write_u16(author, areas.avail.wrapping_add(2), position.wrapping_add(ahead));
}

/// Sets the available idx to the device's position: everything counts as taken.
fn repair_idx(author: &mut Author) {
    if let Some(position) = author.replay.queue().map(|queue| queue.next_avail()) {
        set_idx_to(author, position);
    }
}

/// Sets the available idx to a value.
pub fn set_idx_to(author: &mut Author, idx: u16) {
    if let Some(areas) = areas(author) {
        write_u16(author, areas.avail.wrapping_add(2), idx);
    }
}

/// Sets used_event near the device's position in the used ring.
pub fn set_used_event(author: &mut Author) {
    let Some(areas) = areas(author) else { return };
    let Some(position) = author.replay.queue().map(|queue| queue.next_used()) else { return };
    let ahead = author.random.pick(&[0u16, 1, 2, 3, 0xFFFF, 0xFFFE, 0xFFFD, 0xFFFC, 0x8000, 0x7FFF]);
    write_u16(author, areas.avail.wrapping_add(4 + 2 * areas.size), position.wrapping_add(ahead));
}

/// Sets the available ring's flags, which the crate never reads.
pub fn set_avail_flags(author: &mut Author) {
    let Some(areas) = areas(author) else { return };
    let flags = author.random.pick(&[0u16, 1, 0xFFFF]);
    write_u16(author, areas.avail, flags);
}

/// Changes one byte of the three areas.
pub fn change_byte(author: &mut Author) {
    let Some(areas) = areas(author) else { return };
    let random = &mut author.random;
    let addr = match random.below(4) {
        0 => areas.used.wrapping_add(random.below(areas.used_len())),
        1 => areas.avail.wrapping_add(random.below(areas.avail_len())),
        _ => areas.table.wrapping_add(random.below(16 * areas.size)),
    };
    let Some(old) = read_byte(author, addr) else { return };
    let new = match author.random.below(3) {
        0 => old ^ 1 << author.random.below(8),
        1 => old.wrapping_add(1),
        _ => author.random.any() as u8,
    };
    // The flag for indirect tables would end what the script can do with its chains.
    let is_flags = addr.wrapping_sub(areas.table) < 16 * areas.size && addr.wrapping_sub(areas.table) % 16 == 12;
    let keep_out = is_flags && !author.random.one_in(8);
    store(author, addr, &[if keep_out { new & !(INDIRECT as u8) } else { new }]);
}

/// Writes something somewhere in the image.
pub fn scribble(author: &mut Author) {
    let len = author.replay.image().len();
    let random = &mut author.random;
    let offset = random.below(len + 2);
    let value = random.any();
    match random.below(5) {
        0 => author.say("u16", &[offset, value & 0xFFFF]),
        1 => author.say("u32", &[offset, value & 0xFFFF_FFFF]),
        2 => author.say("u64", &[offset, value]),
        3 => {
            let count = author.random.below(24).min(len + 1);
            author.say("fill", &[offset, count, value & 0xFB])
        }
        _ => {
            let count = author.random.between(1, 12);
            let bytes: Vec<u8> = (0..count).map(|_| author.random.any() as u8 & 0xFB).collect();
            say_bytes(author, offset, &bytes)
        }
    };
}

/// Maps some more addresses, mostly at or near the areas. The first time this replaces what `memory` made, so then the
/// new region is mostly a large one.
pub fn new_region(author: &mut Author) {
    let Some(areas) = areas(author) else { return };
    let even = author.replay.image().len() & !1;
    if even == 0 {
        return;
    }
    let random = &mut author.random;
    let area = random.pick(&[areas.table, areas.avail, areas.used]);
    let base = area.wrapping_add(2 * random.below(24)).wrapping_sub(16) & !1;
    let (base, len, offset) = match random.below(4) {
        0 => (0, even, 0),
        1 => (base, even, 0),
        _ => {
            let len = 2 * random.between(1, (even / 2).min(40));
            (base, len, 2 * random.below((even - len) / 2 + 1))
        }
    };
    author.say("region", &[base, len, offset]);
}

fn write_descriptor(author: &mut Author, index: u64, [addr, len, flags, next]: [u64; 4]) {
    let Some(areas) = areas(author) else { return };
    let guest = areas.table.wrapping_add(16 * index);
    let whole = (0..16).map(|n| author.replay.image().place(guest.wrapping_add(n))).collect::<Option<Vec<u64>>>();
    match whole {
        Some(places) if places[15] == places[0].wrapping_add(15) && !author.random.one_in(10) => {
            author.say("desc", &[places[0], addr, len, flags, next]);
        }
        _ => {
            let mut bytes = addr.to_le_bytes().to_vec();
            bytes.extend((len as u32).to_le_bytes());
            bytes.extend((flags as u16).to_le_bytes());
            bytes.extend((next as u16).to_le_bytes());
            store(author, guest, &bytes);
        }
    }
}

fn write_u16(author: &mut Author, addr: u64, value: u16) {
    match author.replay.image().place(addr) {
        Some(offset) if !author.random.one_in(10) => {
            author.say("u16", &[offset, u64::from(value)]);
        }
        _ => store(author, addr, &value.to_le_bytes()),
    }
}

/// Writes at guest addresses: bytes that lie together in the image by one command. What isn't in memory is left out.
fn store(author: &mut Author, addr: u64, bytes: &[u8]) {
    let place = |author: &Author, n: usize| author.replay.image().place(addr.wrapping_add(n as u64));
    let mut from = 0;
    while from < bytes.len() {
        let Some(offset) = place(author, from) else {
            from += 1;
            continue;
        };
        let mut to = from + 1;
        while to < bytes.len() && place(author, to) == Some(offset + (to - from) as u64) {
            to += 1;
        }
        say_bytes(author, offset, &bytes[from..to]);
        from = to;
    }
}

fn say_bytes(author: &mut Author, offset: u64, bytes: &[u8]) -> bool {
    let mut numbers = vec![offset];
    numbers.extend(bytes.iter().map(|byte| u64::from(*byte)));
    author.say("bytes", &numbers)
}

fn read_byte(author: &Author, addr: u64) -> Option<u8> {
    let image = author.replay.image();
    Some(image.bytes(image.place(addr)?, 1)[0])
}

fn read_u16(author: &Author, addr: u64) -> Option<u16> {
    Some(u16::from_le_bytes([read_byte(author, addr)?, read_byte(author, addr.wrapping_add(1))?]))
}
