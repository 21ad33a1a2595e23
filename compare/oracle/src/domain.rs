// SPDX-License-Identifier: Apache-2.0 AND BSD-3-Clause
//! Which lines may stand in a comparison. The port and the crate are not meant to agree everywhere; what is kept out is
//! written here, once, for the generator and for the shortening of scripts.

use virtio_queue::desc::split::Descriptor;
use virtio_queue::QueueT;
use vm_memory::{Bytes, GuestAddress, GuestMemory, Permissions};

use crate::command::{parse, Command, Wanted};
use crate::image::Memory;
use crate::Replay;

/// Why a line stays out.
#[derive(Clone, Copy, Debug, PartialEq, Eq, PartialOrd, Ord)]
pub enum Outside {
    /// A head of a pass after a command that the crate's borrow of the queue would not have allowed.
    InterruptedPass,
    /// A region whose first address, length or place is odd: the crate's 2-byte fields could lie across two regions
    /// or at an odd host address, and the crate refuses both.
    OddRegion,
    /// A region up to 2^64: the crate goes on at address 0 there.
    RegionToTheEnd,
    /// A used entry that begins in memory and doesn't end there: the crate writes the part that is.
    StraddlingEntry,
    /// A used entry that can be written under an idx that can't: the crate's numbers have grown by then, and the port
    /// changes nothing, on purpose.
    UnwritableIdx,
    /// A descriptor with the flag for indirect tables, which the port doesn't have yet.
    Indirect,
}

impl Outside {
    /// In words.
    pub fn text(self) -> &'static str {
        match self {
            Outside::InterruptedPass => "a head of an interrupted pass",
            Outside::OddRegion => "an odd region",
            Outside::RegionToTheEnd => "a region up to 2^64",
            Outside::StraddlingEntry => "a used entry that straddles the end of memory",
            Outside::UnwritableIdx => "a used entry under an idx that isn't in memory",
            Outside::Indirect => "a descriptor with the flag for indirect tables",
        }
    }
}

/// What the crate's pass remembers: descriptor table, available ring, size and idx.
pub type Pass = (u64, u64, u16, u16);

/// A pass, and whether a command came that the crate's borrow of the queue would not have allowed.
pub struct KeptPass {
    pub(crate) pass: Pass,
    interrupted: bool,
}

impl KeptPass {
    pub(crate) fn new(pass: Pass) -> Self {
        KeptPass { pass, interrupted: false }
    }
}

/// Where a chain stands: the crate doesn't tell, but it follows from what the chain has answered.
#[derive(Clone)]
pub struct ChainPlace {
    table: u64,
    size: u16,
    index: u16,
    ration: u16,
}

impl ChainPlace {
    pub(crate) fn new(table: u64, size: u16, head: u16) -> Self {
        ChainPlace { table, size, index: head, ration: size }
    }

    /// After the chain has answered `desc`.
    pub(crate) fn after(&mut self, desc: Option<&Descriptor>) {
        match desc {
            Some(desc) if desc.has_next() => {
                self.index = desc.next();
                self.ration = self.ration.saturating_sub(1);
            }
            Some(_) => self.ration = 0,
            None => {}
        }
    }

    /// Whether the descriptor that is read next has the flag for indirect tables.
    fn is_at_indirect(&self, memory: &Memory) -> bool {
        if self.ration == 0 || self.index >= self.size {
            return false;
        }
        let addr = self.table.checked_add(16 * u64::from(self.index));
        let desc = addr.and_then(|addr| memory.read_obj::<Descriptor>(GuestAddress(addr)).ok());
        desc.is_some_and(|desc| desc.refers_to_indirect_table())
    }
}

impl Replay {
    /// Why the line can't be compared as the next line of this script; nothing if it can.
    pub fn outside(&self, line: &[u8]) -> Option<Outside> {
        let (_, command) = parse(line).ok()??;
        match command {
            Command::Region { base, len, offset } => self.region_outside(base, len, offset),
            Command::Head => {
                let interrupted = self.pass.as_ref().is_some_and(|kept| kept.interrupted);
                interrupted.then_some(Outside::InterruptedPass)
            }
            Command::Put { head, .. } => self.put_outside(head),
            Command::Descriptor(Wanted::Next) => self.chain_outside(1),
            Command::Descriptor(_) | Command::Walk => self.chain_outside(u32::MAX),
            _ => None,
        }
    }

    pub(crate) fn interrupt_pass(&mut self) {
        if let Some(kept) = &mut self.pass {
            kept.interrupted = true;
        }
    }

    pub(crate) fn note_interruption(&mut self, command: &Command) {
        if !command.is_chain() && !matches!(command, Command::Head | Command::Back) {
            self.interrupt_pass();
        }
    }

    /// A region that is refused may be anything, but it must be refused on both sides: so only what is plainly so.
    fn region_outside(&self, base: u64, len: u64, offset: u64) -> Option<Outside> {
        let fits = self.image.holds(offset, len) && len > 0;
        match base.checked_add(len) {
            _ if !fits => None,
            None if base.wrapping_add(len) != 0 => None,
            None => Some(Outside::RegionToTheEnd),
            Some(_) if (base | len | offset) & 1 == 1 => Some(Outside::OddRegion),
            Some(_) => None,
        }
    }

    fn put_outside(&self, head: u16) -> Option<Outside> {
        let queue = self.queue.as_ref().filter(|queue| head < queue.size())?;
        let memory = self.image.memory();
        let can_write = |addr: Option<u64>, count| {
            addr.is_some_and(|addr| memory.check_range(GuestAddress(addr), count, Permissions::Write))
        };
        let place = u64::from(queue.next_used() % queue.size());
        let entry = queue.used_ring().checked_add(4 + 8 * place);
        if !can_write(entry, 8) {
            return can_write(entry, 1).then_some(Outside::StraddlingEntry);
        }
        (!can_write(queue.used_ring().checked_add(2), 2)).then_some(Outside::UnwritableIdx)
    }

    /// Looks at as many descriptors as the command may read, on a copy of the chain.
    fn chain_outside(&self, most: u32) -> Option<Outside> {
        let current = self.chain.as_ref()?;
        let memory = self.image.memory();
        let (mut chain, mut place) = (current.chain.clone(), current.place.clone());
        for _ in 0..most {
            if place.is_at_indirect(&memory) {
                return Some(Outside::Indirect);
            }
            let desc = chain.next();
            place.after(desc.as_ref());
            desc?;
        }
        None
    }
}
