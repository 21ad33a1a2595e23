// SPDX-License-Identifier: Apache-2.0 AND BSD-3-Clause
//! A driver for tests: lays a split queue into guest memory and writes descriptors and available entries.
//!
//! The crate's module of this name isn't given. This one is ours, with the names and meanings that the crate's unit
//! tests and examples use; what they don't use isn't there.

use std::marker::PhantomData;
use std::mem::size_of;

use virtio_bindings::bindings::virtio_ring::VRING_DESC_F_NEXT;
use vm_memory::{ByteValued, Bytes, GuestAddress, GuestMemory, GuestMemoryError};

use crate::desc::split::{Descriptor, VirtqUsedElem};
use crate::desc::RawDescriptor;
use crate::{Error, QueueT};

/// Why the driver couldn't write.
#[derive(Debug)]
pub enum MockError {
    /// No such place in the ring or table.
    InvalidIndex,
    /// Guest memory refused.
    Memory(GuestMemoryError),
}

/// One object in guest memory.
pub struct Ref<'a, M, T> {
    mem: &'a M,
    addr: GuestAddress,
    object: PhantomData<T>,
}

impl<'a, M: GuestMemory, T: ByteValued> Ref<'a, M, T> {
    fn new(mem: &'a M, addr: GuestAddress) -> Self {
        Ref { mem, addr, object: PhantomData }
    }

    /// Reads it.
    pub fn load(&self) -> T {
        self.mem.read_obj(self.addr).expect("the mock's memory holds its queue")
    }

    /// Writes it.
    pub fn store(&self, value: T) {
        self.mem.write_obj(value, self.addr).expect("the mock's memory holds its queue");
    }
}

/// Objects one after the other in guest memory.
pub struct ArrayRef<'a, M, T> {
    mem: &'a M,
    addr: GuestAddress,
    len: u16,
    object: PhantomData<T>,
}

impl<'a, M: GuestMemory, T: ByteValued> ArrayRef<'a, M, T> {
    fn new(mem: &'a M, addr: GuestAddress, len: u16) -> Self {
        ArrayRef { mem, addr, len, object: PhantomData }
    }

    /// The one at `index`.
    pub fn ref_at(&self, index: u16) -> Result<Ref<'a, M, T>, MockError> {
        if index >= self.len {
            return Err(MockError::InvalidIndex);
        }
        Ok(Ref::new(self.mem, after(self.addr, u64::from(index) * size_of::<T>() as u64)))
    }
}

/// A ring: flags, idx, and its entries.
pub struct Ring<'a, M, T> {
    mem: &'a M,
    addr: GuestAddress,
    len: u16,
    entry: PhantomData<T>,
}

impl<'a, M: GuestMemory, T: ByteValued> Ring<'a, M, T> {
    fn new(mem: &'a M, addr: GuestAddress, len: u16) -> Self {
        Ring { mem, addr, len, entry: PhantomData }
    }

    /// How many entries were ever put, modulo 65,536, as it lies in memory.
    pub fn idx(&self) -> Ref<'a, M, u16> {
        Ref::new(self.mem, after(self.addr, 2))
    }

    /// The entries.
    pub fn ring(&self) -> ArrayRef<'a, M, T> {
        ArrayRef::new(self.mem, after(self.addr, 4), self.len)
    }
}

/// A table of descriptors anywhere in guest memory.
pub struct DescriptorTable<'a, M> {
    table: ArrayRef<'a, M, RawDescriptor>,
}

impl<'a, M: GuestMemory> DescriptorTable<'a, M> {
    /// The table of `len` descriptors at `addr`.
    pub fn new(mem: &'a M, addr: GuestAddress, len: u16) -> Self {
        DescriptorTable { table: ArrayRef::new(mem, addr, len) }
    }

    /// Writes one of them.
    pub fn store(&self, index: u16, desc: RawDescriptor) -> Result<(), MockError> {
        let place = self.table.ref_at(index)?;
        place.mem.write_obj(desc, place.addr).map_err(MockError::Memory)
    }
}

/// A split queue in guest memory: table, available ring and used ring one after the other.
pub struct MockSplitQueue<'a, M> {
    mem: &'a M,
    len: u16,
    table: GuestAddress,
    avail: GuestAddress,
    used: GuestAddress,
}

impl<'a, M: GuestMemory> MockSplitQueue<'a, M> {
    /// A queue of `len` places at address 0.
    pub fn new(mem: &'a M, len: u16) -> Self {
        Self::create(mem, GuestAddress(0), len)
    }

    /// A queue of `len` places at `start`, a multiple of 16.
    pub fn create(mem: &'a M, start: GuestAddress, len: u16) -> Self {
        let places = u64::from(len);
        let avail = after(start, 16 * places);
        let used = GuestAddress(after(avail, 6 + 2 * places).0.next_multiple_of(4));
        MockSplitQueue { mem, len, table: start, avail, used }
    }

    /// Where it starts.
    pub fn start(&self) -> GuestAddress {
        self.table
    }

    /// The first address after it.
    pub fn end(&self) -> GuestAddress {
        after(self.used, 6 + 8 * u64::from(self.len))
    }

    /// The descriptor table's address.
    pub fn desc_table_addr(&self) -> GuestAddress {
        self.table
    }

    /// The available ring's address.
    pub fn avail_addr(&self) -> GuestAddress {
        self.avail
    }

    /// The used ring's address.
    pub fn used_addr(&self) -> GuestAddress {
        self.used
    }

    /// The descriptor table.
    pub fn desc_table(&self) -> DescriptorTable<'a, M> {
        DescriptorTable::new(self.mem, self.table, self.len)
    }

    /// The available ring.
    pub fn avail(&self) -> Ring<'a, M, u16> {
        Ring::new(self.mem, self.avail, self.len)
    }

    /// The used ring.
    pub fn used(&self) -> Ring<'a, M, VirtqUsedElem> {
        Ring::new(self.mem, self.used, self.len)
    }

    /// The device's queue over these rings, ready.
    pub fn create_queue<Q: QueueT>(&self) -> Result<Q, Error> {
        let mut queue = Q::new(self.len)?;
        let halves = |addr: GuestAddress| (Some(addr.0 as u32), Some((addr.0 >> 32) as u32));
        let (low, high) = halves(self.table);
        queue.set_desc_table_address(low, high);
        let (low, high) = halves(self.avail);
        queue.set_avail_ring_address(low, high);
        let (low, high) = halves(self.used);
        queue.set_used_ring_address(low, high);
        queue.set_ready(true);
        Ok(queue)
    }

    /// Writes the descriptors from place `first` on, as they are, and makes each one available that doesn't follow on a
    /// descriptor with the flag for "goes on".
    pub fn add_desc_chains(&self, descs: &[RawDescriptor], first: u16) -> Result<(), MockError> {
        let mut idx = u16::from_le(self.avail().idx().load());
        let mut is_head = true;
        for (place, desc) in (first..).zip(descs) {
            self.desc_table().store(place, *desc)?;
            if is_head {
                self.avail().ring().ref_at(idx % self.len)?.store(place.to_le());
                idx = idx.wrapping_add(1);
            }
            is_head = !Descriptor::from(*desc).has_next();
        }
        self.avail().idx().store(idx.to_le());
        Ok(())
    }

    /// Writes the descriptors as one chain, whatever their `next` and their flag for "goes on" say, and makes it
    /// available.
    pub fn build_desc_chain(&self, descs: &[RawDescriptor]) -> Result<(), MockError> {
        let next_flag = VRING_DESC_F_NEXT as u16;
        let mut chain = Vec::new();
        for (place, desc) in (0u16..).zip(descs) {
            let mut desc = Descriptor::from(*desc);
            if usize::from(place) + 1 < descs.len() {
                desc.set_flags(desc.flags() | next_flag);
                desc.set_next(place + 1);
            } else {
                desc.set_flags(desc.flags() & !next_flag);
            }
            chain.push(RawDescriptor::from(desc));
        }
        self.add_desc_chains(&chain, 0)
    }

    /// Writes several chains: a descriptor goes on at the place after its own if its flag says so.
    pub fn build_multiple_desc_chains(&self, descs: &[RawDescriptor]) -> Result<(), MockError> {
        let mut chains = Vec::new();
        for (place, desc) in (0u16..).zip(descs) {
            let mut desc = Descriptor::from(*desc);
            desc.set_next(place + 1);
            chains.push(RawDescriptor::from(desc));
        }
        self.add_desc_chains(&chains, 0)
    }
}

fn after(addr: GuestAddress, count: u64) -> GuestAddress {
    GuestAddress(addr.0 + count)
}
