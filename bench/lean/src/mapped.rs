// SPDX-License-Identifier: Apache-2.0 AND BSD-3-Clause
//! The lean stand-in's regions: three words each, base, length and host address, looked for from the first.

use std::cell::UnsafeCell;
use std::marker::PhantomData;
use std::rc::Rc;

use crate::guest::Piece;
use crate::{GuestAddress, GuestMemory, GuestMemoryError, Permissions, VolatileSlice};

/// Zeroed host memory, at an address that suits every number.
#[derive(Debug)]
pub struct HostBuffer {
    words: Box<[UnsafeCell<u64>]>,
    len: usize,
}

impl HostBuffer {
    /// `len` zero bytes.
    pub fn new(len: usize) -> Self {
        let words = (0..len.div_ceil(8)).map(|_| UnsafeCell::new(0)).collect();
        HostBuffer { words, len }
    }

    /// The first byte.
    pub fn host(&self) -> *mut u8 {
        self.words.as_ptr() as *mut u8
    }
}

/// A range of guest addresses and where it lies.
#[derive(Clone, Debug)]
pub struct Region {
    /// The first guest address.
    pub base: u64,
    /// How many addresses; `base + len` is at most 2^64.
    pub len: u64,
    /// The place of the first byte in the buffer.
    pub offset: usize,
    /// The buffer.
    pub buffer: Rc<HostBuffer>,
}

#[derive(Debug)]
struct Row {
    base: u64,
    len: u64,
    host: *mut u8,
}

/// Guest memory made of regions.
#[derive(Debug)]
pub struct GuestMemoryMmap<B = ()> {
    rows: Vec<Row>,
    /// Keeps the buffers alive.
    _regions: Vec<Region>,
    bitmap: PhantomData<B>,
}

/// Not answered: the faithful stand-in's name for ranges that are refused.
#[derive(Debug)]
pub struct RangesError;

/// Only its name is needed.
pub struct Pieces;

impl<B> GuestMemoryMmap<B> {
    /// Memory over regions that lie in buffers of the caller.
    pub fn over(regions: Vec<Region>) -> Self {
        let row = |region: &Region| {
            assert!(region.offset as u64 + region.len <= region.buffer.len as u64);
            // SAFETY: the region lies in its buffer.
            let host = unsafe { region.buffer.host().add(region.offset) };
            Row { base: region.base, len: region.len, host }
        };
        GuestMemoryMmap { rows: regions.iter().map(row).collect(), _regions: regions, bitmap: PhantomData }
    }
}

impl GuestMemory for GuestMemoryMmap<()> {
    type Bitmap = ();

    fn host(&self, addr: GuestAddress, count: usize) -> Option<*mut u8> {
        let row = self.rows.iter().find(|row| addr.0 >= row.base && addr.0 - row.base < row.len)?;
        let inside = addr.0 - row.base;
        if row.len - inside < count as u64 {
            return None;
        }
        // SAFETY: `inside` is below the region's length.
        Some(unsafe { row.host.add(inside as usize) })
    }

    fn get_slices<'a>(
        &'a self,
        addr: GuestAddress,
        count: usize,
        _access: Permissions,
    ) -> Result<impl Iterator<Item = Result<Piece<'a, Self>, GuestMemoryError>>, GuestMemoryError> {
        let piece = match self.host(addr, count) {
            // SAFETY: one region holds the bytes.
            Some(host) => Ok(unsafe { VolatileSlice::with_bitmap(host, count, ()) }),
            None => Err(GuestMemoryError::InvalidGuestAddress(addr)),
        };
        Ok(std::iter::once(piece))
    }
}
