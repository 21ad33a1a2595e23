// SPDX-License-Identifier: Apache-2.0 AND BSD-3-Clause
//! Guest memory made of regions, each a range of guest addresses that lies in a host buffer.

use std::cell::UnsafeCell;
use std::marker::PhantomData;
use std::rc::Rc;

use crate::bitmap::Bitmap;
use crate::guest::Piece;
use crate::{GuestAddress, GuestMemory, GuestMemoryError, Permissions, VolatileSlice};

/// Zeroed host memory, at an address that suits every number: a region at an even place of it has an even host address.
#[derive(Debug)]
pub struct HostBuffer {
    words: Box<[UnsafeCell<u64>]>,
    len: usize,
}

impl HostBuffer {
    /// `len` zero bytes.
    pub fn new(len: usize) -> Self {
        let words = (0..len.div_ceil(8)).map(|_| UnsafeCell::new(0)).collect();
        HostBuffer { words, len }
    }

    /// How many bytes.
    pub fn len(&self) -> usize {
        self.len
    }

    /// Whether there are none.
    pub fn is_empty(&self) -> bool {
        self.len == 0
    }

    /// The first byte.
    pub fn host(&self) -> *mut u8 {
        self.words.as_ptr() as *mut u8
    }
}

/// A range of guest addresses and where it lies. Several regions may lie at the same place.
#[derive(Clone, Debug)]
pub struct Region {
    /// The first guest address.
    pub base: u64,
    /// How many addresses; `base + len` is at most 2^64.
    pub len: u64,
    /// The place of the first byte in the buffer.
    pub offset: usize,
    /// The buffer.
    pub buffer: Rc<HostBuffer>,
}

impl Region {
    fn holds(&self, addr: u64) -> bool {
        addr >= self.base && addr - self.base < self.len
    }
}

/// Guest memory made of regions.
#[derive(Debug)]
pub struct GuestMemoryMmap<B = ()> {
    regions: Vec<Region>,
    bitmap: PhantomData<B>,
}

/// The ranges are not in rising order, or overlap, or one is empty or passes the end of addresses.
#[derive(Debug)]
pub struct RangesError;

impl<B> GuestMemoryMmap<B> {
    /// Memory with a buffer of its own for each range.
    pub fn from_ranges(ranges: &[(GuestAddress, usize)]) -> Result<Self, RangesError> {
        let mut free = 0;
        for (base, len) in ranges {
            let end = base.0.checked_add(*len as u64).ok_or(RangesError)?;
            if *len == 0 || base.0 < free {
                return Err(RangesError);
            }
            free = end;
        }
        let own = |(base, len): &(GuestAddress, usize)| Region {
            base: base.0,
            len: *len as u64,
            offset: 0,
            buffer: Rc::new(HostBuffer::new(*len)),
        };
        Ok(Self::over(ranges.iter().map(own).collect()))
    }

    /// Not in the crate: memory over regions that lie in buffers of the caller. The caller sees to it that no two hold
    /// the same guest address and that each lies in its buffer.
    pub fn over(regions: Vec<Region>) -> Self {
        for region in &regions {
            assert!(region.offset as u64 + region.len <= region.buffer.len() as u64);
        }
        GuestMemoryMmap { regions, bitmap: PhantomData }
    }

    /// The regions.
    pub fn regions(&self) -> &[Region] {
        &self.regions
    }
}

impl GuestMemory for GuestMemoryMmap<()> {
    type Bitmap = ();

    fn get_slices<'a>(
        &'a self,
        addr: GuestAddress,
        count: usize,
        _access: Permissions,
    ) -> Result<impl Iterator<Item = Result<Piece<'a, Self>, GuestMemoryError>>, GuestMemoryError> {
        Ok(Pieces { memory: self, addr: addr.0, left: count, bitmap: () })
    }
}

/// The pieces of a range, from region to region.
pub struct Pieces<'a, B> {
    memory: &'a GuestMemoryMmap<B>,
    addr: u64,
    left: usize,
    bitmap: B,
}

impl<'a, B: Bitmap + Clone> Iterator for Pieces<'a, B> {
    type Item = Result<VolatileSlice<'a, B>, GuestMemoryError>;

    fn next(&mut self) -> Option<Self::Item> {
        if self.left == 0 {
            return None;
        }
        let Some(region) = self.memory.regions.iter().find(|region| region.holds(self.addr)) else {
            // Nothing comes after a hole.
            self.left = 0;
            return Some(Err(GuestMemoryError::InvalidGuestAddress(GuestAddress(self.addr))));
        };
        let inside = self.addr - region.base;
        let count = (region.len - inside).min(self.left as u64);
        self.left -= count as usize;
        // A region that ends at 2^64 is followed by address 0: the only sum that can wrap, and the crate lets it.
        self.addr = self.addr.wrapping_add(count);
        // SAFETY: the region lies in its buffer, which it keeps alive.
        Some(Ok(unsafe {
            let host = region.buffer.host().add(region.offset + inside as usize);
            VolatileSlice::with_bitmap(host, count as usize, self.bitmap.clone())
        }))
    }
}
