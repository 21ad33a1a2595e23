// SPDX-License-Identifier: Apache-2.0 AND BSD-3-Clause
//! A child of the crate's `queue` module, compiled under `--cfg kani`, so that it sees the queue's private fields.
//!
//! The crate's pass, `AvailIter`, borrows the queue for as long as it lives. An interpreter of commands can't hold such
//! a borrow from one line to the next. Here a pass is taken apart into what it remembers, and put together again for
//! each call: the code that answers is the crate's.

use super::*;

/// What an `AvailIter` remembers, apart from its borrows: descriptor table, available ring, size and idx. A tuple, because
/// this module is private to the crate, so that nobody outside could name a type of its own.
type Remembered = (u64, u64, u16, u16);

fn resume<M>(pass: Remembered, mem: M, queue: &mut Queue) -> AvailIter<'_, M> {
    let (desc_table, avail_ring, queue_size, last_index) = pass;
    AvailIter {
        mem,
        desc_table: GuestAddress(desc_table),
        avail_ring: GuestAddress(avail_ring),
        queue_size,
        last_index: Wrapping(last_index),
        next_avail: &mut queue.next_avail,
    }
}

impl Queue {
    /// Begins a pass.
    pub fn begin_pass<M>(&mut self, mem: M) -> Result<Remembered, Error>
    where
        M: Deref,
        M::Target: GuestMemory,
    {
        let iter = self.iter(mem)?;
        Ok((iter.desc_table.0, iter.avail_ring.0, iter.queue_size, iter.last_index.0))
    }

    /// The next head of a pass.
    pub fn next_of_pass<M>(&mut self, pass: Remembered, mem: M) -> Option<DescriptorChain<M>>
    where
        M: Clone + Deref,
        M::Target: GuestMemory,
    {
        resume(pass, mem, self).next()
    }

    /// A step back within a pass.
    pub fn back_in_pass<M>(&mut self, pass: Remembered, mem: M)
    where
        M: Deref,
        M::Target: GuestMemory,
    {
        resume(pass, mem, self).go_to_previous_position();
    }

    /// A chain that starts at `head`, over the queue's table and size.
    pub fn chain_at<M>(&self, mem: M, head: u16) -> DescriptorChain<M>
    where
        M: Deref,
        M::Target: GuestMemory,
    {
        DescriptorChain::new(mem, self.desc_table, self.size, head)
    }
}
