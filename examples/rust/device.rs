// SPDX-License-Identifier: Apache-2.0 AND BSD-3-Clause
//! A device and its main loop. It answers each request with the bytes that it was given, in capitals. The driver is played
//! by this program too: it lays the image and adds requests. At the end come calls that the library has to refuse.

mod ql; // ql.rs: the library's calls over slices

use std::ptr::null;

/// The guest's memory begins at this guest address; there the driver has its three areas, for `SIZE` descriptors.
const BASE: u64 = 0x1_0000_0000;
const DESC: u64 = BASE;
const AVAIL: u64 = BASE + 0x100;
const USED: u64 = BASE + 0x200;
const SIZE: u16 = 8;

/// Everything that is lent. A chain has at most as many descriptors as the queue has places, so each fits into the array.
#[derive(Clone, PartialEq)]
struct Device {
    state: [u64; ql::STATE_WORDS],
    chain: [u64; ql::CHAIN_WORDS],
    regions: [u64; ql::TABLE_WORDS],
    out: [u64; SIZE as usize * ql::DESCRIPTOR_WORDS],
    mem: [u8; 4096],
}

fn expect(holds: bool, what: &str) {
    if !holds {
        println!("not as expected: {what}");
        std::process::exit(1);
    }
}

/// The driver.
impl Device {
    fn store(&mut self, addr: u64, bytes: &[u8]) {
        let at = (addr - BASE) as usize;
        self.mem[at..at + bytes.len()].copy_from_slice(bytes);
    }

    fn descriptor(&mut self, i: u64, addr: u64, len: u32, flags: u16, next: u16) {
        self.store(DESC + 16 * i, &addr.to_le_bytes());
        self.store(DESC + 16 * i + 8, &len.to_le_bytes());
        self.store(DESC + 16 * i + 12, &flags.to_le_bytes());
        self.store(DESC + 16 * i + 14, &next.to_le_bytes());
    }

    /// Three chains: from descriptor 0, from 2, and from 5, whose buffer runs past the end of memory.
    fn lay(&mut self) {
        self.store(BASE + 0x800, b"hello");
        self.descriptor(0, BASE + 0x800, 5, ql::DESC_F_NEXT, 1);
        self.descriptor(1, BASE + 0x900, 16, ql::DESC_F_WRITE, 0);
        self.store(BASE + 0x810, b"to the device");
        self.descriptor(2, BASE + 0x810, 7, ql::DESC_F_NEXT, 3);
        self.descriptor(3, BASE + 0x817, 6, ql::DESC_F_NEXT, 4);
        self.descriptor(4, BASE + 0x910, 16, ql::DESC_F_WRITE, 0);
        self.descriptor(5, BASE + 4090, 16, ql::DESC_F_WRITE, 0);
        // used_event: the driver wants to hear of entry 1 of the used ring
        self.store(AVAIL + 4 + 2 * u64::from(SIZE), &1u16.to_le_bytes());
    }

    /// Makes a chain available as entry `number`: first the entry, then idx.
    fn add(&mut self, number: u16, head: u16) {
        self.store(AVAIL + 4 + 2 * u64::from(number % SIZE), &head.to_le_bytes());
        self.store(AVAIL + 2, &(number + 1).to_le_bytes());
    }
}

/// The device.
impl Device {
    fn configure(&mut self) {
        let (size, high) = (self.mem.len(), Some((BASE >> 32) as u32));
        let state = &mut self.state;
        expect(ql::add_region(&mut self.regions, size, BASE, size as u64, 0) == 0, "a region is added");
        expect(ql::new(state, 256) == 0, "a queue of at most 256 places");
        expect(ql::set_size(state, SIZE) == 0, "the size");
        expect(ql::set_desc_table_address(state, Some(DESC as u32), high) == 0, "the descriptor table");
        expect(ql::set_avail_ring_address(state, Some(AVAIL as u32), high) == 0, "the available ring");
        expect(ql::set_used_ring_address(state, Some(USED as u32), high) == 0, "the used ring");
        expect(ql::set_event_idx(state, true) == 0, "event index");
        expect(ql::set_ready(state, true) == 0, "ready");
        expect(ql::is_valid(state, &self.regions, &self.mem) == 1, "the three areas are in memory");
        println!("configured: {SIZE} places, valid");
    }

    /// The bytes of a descriptor. Its address and length are the guest's word: the library has read them and has not looked
    /// at what they say. This device has one region, at offset 0.
    fn bytes(&mut self, addr: u64, len: u64) -> Option<&mut [u8]> {
        let from = usize::try_from(addr.checked_sub(BASE)?).ok()?;
        self.mem.get_mut(from..)?.get_mut(..len as usize)
    }

    /// Serves the chain whose descriptors are in the array, and answers how many bytes were written.
    fn serve(&mut self, count: u32) -> u32 {
        let (mut text, mut done) = (Vec::new(), 0);
        for i in 0..count as usize {
            let x = &self.out[i * ql::DESCRIPTOR_WORDS..];
            let (addr, len) = (x[ql::DESCRIPTOR_ADDR], x[ql::DESCRIPTOR_LEN]);
            let write = x[ql::DESCRIPTOR_FLAGS] & u64::from(ql::DESC_F_WRITE) != 0;
            let found = self.bytes(addr, len);
            let note = if found.is_some() { "" } else { ": not in memory" };
            println!("    {len} bytes to {} at {addr:#x}{note}", if write { "write" } else { "read" });
            let Some(bytes) = found else { continue };
            if write {
                let n = bytes.len().min(text.len() - done);
                bytes[..n].copy_from_slice(&text[done..done + n]);
                done += n;
            } else {
                let room = 64 - text.len();
                text.extend(bytes.iter().take(room).map(u8::to_ascii_uppercase));
            }
        }
        done as u32
    }

    /// One pass over the available ring. Answers false where the guest has broken the queue, and the device has to give it up.
    fn pass(&mut self) -> bool {
        let last = ql::iter(&self.state, &self.regions, &self.mem);
        if ql::refused(last) {
            return false;
        }
        println!("a pass up to idx {last}");
        loop {
            let d = &mut *self;
            let count = ql::take(&mut d.state, &mut d.chain, &d.regions, &d.mem, last as u16, &mut d.out);
            if count == ql::NONE {
                break;
            }
            expect(!ql::refused(count), "what is lent to take is right");
            let head = self.chain[ql::CHAIN_HEAD_INDEX] as u16;
            println!("  taken: head {head}, descriptors: {count}");
            let written = self.serve(count);
            let notify = ql::put_and_ask(&mut self.state, &self.regions, &mut self.mem, head, written);
            if ql::refused(notify) {
                return false;
            }
            let note = if notify == 1 { "; the driver is notified" } else { "" };
            println!("  put: head {head}, bytes written: {written}{note}");
        }
        // An entry that can't be read also ends a pass. Without this test a guest could keep the device in its loop for ever.
        self.state[ql::NEXT_AVAIL] == u64::from(last)
    }
}

/// Makes a call that has to be refused for this reason, and to leave everything that is lent as it was.
fn refusal(d: &mut Device, what: &str, reason: u32, name: &str, call: impl FnOnce(&mut Device) -> u32) {
    let before = d.clone();
    let answer = call(d);
    println!("  {what}: {answer}, {name}");
    expect(ql::refused(answer) && answer == reason, name);
    expect(*d == before, "nothing changed");
}

fn refusals(d: &mut Device) {
    let last = d.state[ql::NEXT_AVAIL] as u16 + 1;
    println!("refused, and nothing changed:");
    refusal(d, "put, a state of 9 words", ql::STATE_SHORT, "QL_STATE_SHORT", |d| {
        ql::put_and_ask(&mut d.state[..9], &d.regions, &mut d.mem, 0, 1)
    });
    refusal(d, "new, a state of 9 words", ql::STATE_SHORT, "QL_STATE_SHORT", |d| ql::new(&mut d.state[..9], 8));
    d.state[ql::SIZE] = 70_000;
    refusal(d, "put, a size of 70,000", ql::STATE_FIELD, "QL_STATE_FIELD", |d| {
        ql::put_and_ask(&mut d.state, &d.regions, &mut d.mem, 0, 1)
    });
    d.state[ql::SIZE] = u64::from(SIZE);
    d.state[ql::READY] = 2;
    refusal(d, "put, a flag of 2", ql::STATE_FIELD, "QL_STATE_FIELD", |d| {
        ql::put_and_ask(&mut d.state, &d.regions, &mut d.mem, 0, 1)
    });
    d.state[ql::READY] = 1;
    // What is empty, once by a null pointer as from C, and once by an empty slice of Rust, whose pointer is not null.
    refusal(d, "begin, an empty memory", ql::GUEST_MEMORY, "QL_GUEST_MEMORY", |d| {
        let (state, regions) = (&mut d.state, &d.regions);
        // SAFETY: the pointers are those of slices, and the third slice is empty.
        unsafe { ql::raw::ql_iter(state.as_ptr(), state.len(), regions.as_ptr(), regions.len(), null(), 0) }
    });
    refusal(d, "put, an empty memory", ql::GUEST_MEMORY, "QL_GUEST_MEMORY", |d| {
        ql::put_and_ask(&mut d.state, &d.regions, &mut [], 0, 1)
    });
    refusal(d, "begin, an empty table", ql::GUEST_MEMORY, "QL_GUEST_MEMORY", |d| {
        let (state, mem) = (&mut d.state, &d.mem);
        // SAFETY: the pointers are those of slices, and the second slice is empty.
        unsafe { ql::raw::ql_iter(state.as_ptr(), state.len(), null(), 0, mem.as_ptr(), mem.len()) }
    });
    refusal(d, "put, an empty table", ql::GUEST_MEMORY, "QL_GUEST_MEMORY", |d| {
        ql::put_and_ask(&mut d.state, &[], &mut d.mem, 0, 1)
    });
    refusal(d, "take, a chain of 5 words", ql::CHAIN_SHORT, "QL_CHAIN_SHORT", |d| {
        ql::take(&mut d.state, &mut d.chain[..5], &d.regions, &d.mem, last, &mut d.out)
    });
    refusal(d, "take, an array of 2 words", ql::NO_ROOM, "QL_NO_ROOM", |d| {
        ql::take(&mut d.state, &mut d.chain, &d.regions, &d.mem, last, &mut d.out[..2])
    });
    refusal(d, "take, nothing lent at all", ql::CHAIN_SHORT, "QL_CHAIN_SHORT", |_| {
        ql::take(&mut [], &mut [], &[], &[], last, &mut [])
    });
    refusal(d, "put, a head beyond the size", ql::INVALID_DESCRIPTOR_INDEX, "QL_INVALID_DESCRIPTOR_INDEX", |d| {
        ql::put_and_ask(&mut d.state, &d.regions, &mut d.mem, SIZE, 1)
    });
    refusal(d, "add a region, a table that has it", ql::REGION_OVERLAP, "QL_REGION_OVERLAP", |d| {
        ql::add_region(&mut d.regions, d.mem.len(), BASE, 16, 0)
    });
}

fn main() {
    let mut d = Device {
        state: [0; ql::STATE_WORDS],
        chain: [0; ql::CHAIN_WORDS],
        regions: [0; ql::TABLE_WORDS],
        out: [0; SIZE as usize * ql::DESCRIPTOR_WORDS],
        mem: [0; 4096],
    };
    d.lay();
    d.configure();
    d.add(0, 0);
    d.add(1, 2);
    // The main loop: tell the driver that it need not notify, serve what is there, ask for notifications again.
    loop {
        expect(ql::disable_notification(&mut d.state, &d.regions, &mut d.mem) == 0, "stop");
        expect(d.pass(), "the guest keeps the queue whole");
        // The driver may add a request just now, before the device has asked to be notified. Here it does so once.
        if d.state[ql::NEXT_AVAIL] == 2 {
            d.add(2, 5);
        }
        let more = ql::enable_notification(&mut d.state, &d.regions, &mut d.mem);
        expect(!ql::refused(more), "ask");
        if more == 0 {
            break; // here a device waits for the driver's notification
        }
        println!("asked: something came in meanwhile");
    }
    println!("asked: nothing came in");
    expect(d.mem[0x900..].starts_with(b"HELLO"), "the first answer");
    expect(d.mem[0x910..].starts_with(b"TO THE DEVICE"), "the second answer");
    refusals(&mut d);
    println!("all as expected");
}
