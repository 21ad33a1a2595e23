// SPDX-License-Identifier: Apache-2.0 AND BSD-3-Clause
//! Pieces of host memory that others may write at any time, so they are never lent as Rust slices.

use std::fmt;
use std::marker::PhantomData;
use std::sync::atomic::Ordering;

use crate::AtomicAccess;

/// Why an access to a piece failed.
#[derive(Debug)]
pub enum VolatileMemoryError {
    /// It goes past the piece's end.
    OutOfBounds {
        /// The first place after what was asked for.
        end: usize,
    },
    /// An atomic access at a host address that doesn't suit it.
    Misaligned {
        /// The host address.
        host: usize,
        /// What it should be a multiple of.
        alignment: usize,
    },
}

impl fmt::Display for VolatileMemoryError {
    fn fmt(&self, f: &mut fmt::Formatter<'_>) -> fmt::Result {
        match self {
            Self::OutOfBounds { end } => write!(f, "place {end} is past the end"),
            Self::Misaligned { host, alignment } => write!(f, "{host:#x} is no multiple of {alignment}"),
        }
    }
}

impl std::error::Error for VolatileMemoryError {}

type Result<T> = std::result::Result<T, VolatileMemoryError>;

/// A piece of host memory.
#[derive(Clone, Copy, Debug)]
pub struct VolatileSlice<'a, B = ()> {
    host: *mut u8,
    len: usize,
    bitmap: B,
    owner: PhantomData<&'a u8>,
}

/// Holds the piece while its address is used.
pub struct PtrGuard<T>(T);

impl PtrGuard<*const u8> {
    /// The piece's first byte.
    pub fn as_ptr(&self) -> *const u8 {
        self.0
    }
}

impl PtrGuard<*mut u8> {
    /// The piece's first byte.
    pub fn as_ptr(&self) -> *mut u8 {
        self.0
    }
}

impl<B> VolatileSlice<'_, B> {
    /// A piece of `len` bytes from `host` on.
    ///
    /// # Safety
    ///
    /// The bytes live as long as the piece's lifetime, and nobody holds a Rust reference to them meanwhile.
    pub unsafe fn with_bitmap(host: *mut u8, len: usize, bitmap: B) -> Self {
        VolatileSlice { host, len, bitmap, owner: PhantomData }
    }

    /// How many bytes.
    pub fn len(&self) -> usize {
        self.len
    }

    /// Whether there are none.
    pub fn is_empty(&self) -> bool {
        self.len == 0
    }

    /// Who is told of writes.
    pub fn bitmap(&self) -> &B {
        &self.bitmap
    }

    /// The host address, for reading.
    pub fn ptr_guard(&self) -> PtrGuard<*const u8> {
        PtrGuard(self.host)
    }

    /// The host address, for writing.
    pub fn ptr_guard_mut(&self) -> PtrGuard<*mut u8> {
        PtrGuard(self.host)
    }

    /// Copies to `buf` what there is, at most its length.
    pub fn read(&self, buf: &mut [u8]) -> usize {
        let count = buf.len().min(self.len);
        // SAFETY: `count` bytes are in both; `buf` is a Rust reference, so they don't overlap.
        unsafe { std::ptr::copy_nonoverlapping(self.host, buf.as_mut_ptr(), count) };
        count
    }

    /// Copies from `buf` what there is room for.
    pub fn write(&self, buf: &[u8]) -> usize {
        let count = buf.len().min(self.len);
        // SAFETY: as in `read`.
        unsafe { std::ptr::copy_nonoverlapping(buf.as_ptr(), self.host, count) };
        count
    }

    /// Reads a number in one go at the piece's start: whole in the piece, and aligned in the host.
    pub fn load<T: AtomicAccess>(&self, order: Ordering) -> Result<T> {
        let host = self.atomic_place::<T>()?;
        // SAFETY: in the piece and aligned.
        Ok(unsafe { T::load_at(host, order) })
    }

    /// Writes a number in one go at the piece's start, under the same conditions.
    pub fn store<T: AtomicAccess>(&self, value: T, order: Ordering) -> Result<()> {
        let host = self.atomic_place::<T>()?;
        // SAFETY: in the piece and aligned.
        unsafe { value.store_at(host, order) };
        Ok(())
    }

    fn atomic_place<T: AtomicAccess>(&self) -> Result<*mut u8> {
        let end = std::mem::size_of::<T>();
        if end > self.len {
            return Err(VolatileMemoryError::OutOfBounds { end });
        }
        let (host, alignment) = (self.host as usize, T::ALIGNMENT);
        if host % alignment != 0 {
            return Err(VolatileMemoryError::Misaligned { host, alignment });
        }
        Ok(self.host)
    }
}

impl<B: Clone> VolatileSlice<'_, B> {
    /// The piece without its first `count` bytes.
    pub fn offset(&self, count: usize) -> Result<Self> {
        let len = self.len.checked_sub(count).ok_or(VolatileMemoryError::OutOfBounds { end: count })?;
        self.subslice(count, len)
    }

    /// `count` bytes of the piece from `offset` on.
    pub fn subslice(&self, offset: usize, count: usize) -> Result<Self> {
        let end = offset.checked_add(count).filter(|end| *end <= self.len);
        if end.is_none() {
            return Err(VolatileMemoryError::OutOfBounds { end: offset.saturating_add(count) });
        }
        // SAFETY: a part of a piece that is alive.
        Ok(unsafe { Self::with_bitmap(self.host.add(offset), count, self.bitmap.clone()) })
    }
}
