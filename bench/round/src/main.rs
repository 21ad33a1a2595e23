// SPDX-License-Identifier: Apache-2.0 AND BSD-3-Clause
//! The round over the Rust crate. It reads eight numbers, `ROUNDS EVENT REGIONS SIZE DESC AVAIL USED LEN`, and prints the sum and the
//! image's checksum; `crates/bench` does the same over the port. A call that is refused adds nothing, on both sides.

use std::io::Read;
use std::rc::Rc;
use std::sync::atomic::Ordering;

use virtio_queue::desc::split::Descriptor;
use virtio_queue::{Queue, QueueT};
use vm_memory::{Bytes, GuestAddress, GuestMemoryMmap, HostBuffer, Region};

/// The largest image, as the port's program has it.
const MOST: u64 = 65_536;
/// The driver comes once in so many rounds, adds as many entries, and wants to hear of the one at `EVENT_AFTER`.
const PASS: u64 = 64;
const EVENT_AFTER: u16 = 31;

struct Numbers {
    rounds: u64,
    event: bool,
    regions: u64,
    size: u16,
    desc: u64,
    avail: u64,
    used: u64,
    len: u64,
}

fn numbers() -> Option<Numbers> {
    let mut text = String::new();
    std::io::stdin().read_to_string(&mut text).ok()?;
    let words: Vec<u64> = text.split_whitespace().map_while(|word| word.parse().ok()).collect();
    let &[rounds, event, regions, size, desc, avail, used, len] = &words[..] else {
        return None;
    };
    let fits = event <= 1 && (1..=8).contains(&regions) && len <= MOST && desc.max(avail).max(used) <= MOST;
    let size = u16::try_from(size).ok()?;
    fits.then_some(Numbers { rounds, event: event == 1, regions, size, desc, avail, used, len })
}

fn memory(n: &Numbers, buffer: &Rc<HostBuffer>) -> GuestMemoryMmap {
    let len = n.len / n.regions;
    let region = |i| Region { base: i * len, len, offset: (i * len) as usize, buffer: buffer.clone() };
    GuestMemoryMmap::over((0..n.regions).map(region).collect())
}

/// The descriptors and the available ring's entries.
fn lay(n: &Numbers, mem: &GuestMemoryMmap) {
    const FLAGS: [u16; 4] = [1, 1, 3, 2];
    for i in 0..n.size {
        let (k, next) = (u64::from(i), ((u32::from(i) + 1) % u32::from(n.size)) as u16);
        let d = Descriptor::new(0x8000 + 64 * k, 64 + u32::from(i), FLAGS[usize::from(i % 4)], next);
        let _ = mem.write_obj(d, GuestAddress(n.desc + 16 * k));
        let head = (4 * u32::from(i) % u32::from(n.size)) as u16;
        let _ = mem.store(head.to_le(), GuestAddress(n.avail + 4 + 2 * k), Ordering::Relaxed);
    }
}

fn queue(n: &Numbers) -> Option<Queue> {
    let mut queue = Queue::new(n.size).ok()?;
    queue.set_desc_table_address(Some(n.desc as u32), None);
    queue.set_avail_ring_address(Some(n.avail as u32), None);
    queue.set_used_ring_address(Some(n.used as u32), None);
    queue.set_event_idx(n.event);
    queue.set_ready(true);
    Some(queue)
}

/// The driver's part: used_event, then idx, which it answers.
fn drive(n: &Numbers, mem: &GuestMemoryMmap, idx: u16) -> u16 {
    let used_event = GuestAddress(n.avail + 4 + 2 * u64::from(n.size));
    let _ = mem.store(idx.wrapping_add(EVENT_AFTER).to_le(), used_event, Ordering::Relaxed);
    let idx = idx.wrapping_add(PASS as u16);
    let _ = mem.store(idx.to_le(), GuestAddress(n.avail + 2), Ordering::Release);
    idx
}

/// The device's part: take, walk, put, ask. It answers what the round adds to the sum.
fn round(queue: &mut Queue, mem: &GuestMemoryMmap, number: u64) -> u64 {
    let Some(mut chain) = queue.pop_descriptor_chain(mem) else {
        return 0;
    };
    let (mut sum, mut last) = (0u64, 0);
    let head = chain.head_index();
    while let Some(d) = chain.next() {
        sum = sum.wrapping_add(d.addr().0).wrapping_add(u64::from(d.flags()));
        last = d.len();
    }
    let _ = queue.add_used(mem, head, last);
    match queue.needs_notification(mem) {
        Ok(true) => sum.wrapping_add(number),
        _ => sum,
    }
}

fn rounds(n: &Numbers, mem: &GuestMemoryMmap, queue: &mut Queue) -> u64 {
    let (mut sum, mut idx) = (0u64, 0);
    for i in 0..n.rounds {
        if i % PASS == 0 {
            idx = drive(n, mem, idx);
        }
        sum = sum.wrapping_add(round(queue, mem, i + 1));
    }
    sum
}

fn checksum(n: &Numbers, buffer: &HostBuffer) -> u64 {
    // SAFETY: in the buffer; nobody writes any more.
    let bytes = unsafe { std::slice::from_raw_parts(buffer.host(), n.len as usize) };
    bytes.iter().fold(0, |h: u64, &byte| h.wrapping_mul(31).wrapping_add(u64::from(byte)))
}

fn main() {
    let Some(n) = numbers() else {
        println!("refused");
        return;
    };
    let buffer = Rc::new(HostBuffer::new(n.len as usize));
    let mem = memory(&n, &buffer);
    lay(&n, &mem);
    let Some(mut queue) = queue(&n) else {
        println!("refused");
        return;
    };
    let sum = rounds(&n, &mem, &mut queue);
    println!("{} {}", sum, checksum(&n, &buffer));
}
