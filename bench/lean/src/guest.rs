// SPDX-License-Identifier: Apache-2.0 AND BSD-3-Clause
//! The lean stand-in's guest memory: an access finds its region, tests that the region holds all its bytes, and makes one access. An access
//! in two regions fails, and no alignment is tested. The rest is as in the faithful stand-in, whose other files it uses.

use std::fmt;
use std::sync::atomic::Ordering;

use crate::bitmap::{Bitmap, WithBitmapSlice};
use crate::{AtomicAccess, ByteValued, Bytes, GuestAddress, VolatileMemoryError, VolatileSlice};

/// Why an access to guest memory failed.
#[derive(Debug)]
pub enum GuestMemoryError {
    /// No region holds all the bytes from this address on.
    InvalidGuestAddress(GuestAddress),
    /// Not answered here: the crate's messages name it.
    PartialBuffer {
        /// How many bytes were asked for.
        expected: usize,
        /// How many were done.
        completed: usize,
    },
    /// Not answered here either.
    Piece(VolatileMemoryError),
}

impl fmt::Display for GuestMemoryError {
    fn fmt(&self, f: &mut fmt::Formatter<'_>) -> fmt::Result {
        write!(f, "{self:?}")
    }
}

impl std::error::Error for GuestMemoryError {}

type Result<T> = std::result::Result<T, GuestMemoryError>;

/// What an access wants to do. Nothing is refused for it here.
#[derive(Clone, Copy, Debug, PartialEq, Eq)]
pub enum Permissions {
    /// Nothing.
    No,
    /// Read.
    Read,
    /// Write.
    Write,
    /// Both.
    ReadWrite,
}

/// A piece with the bitmap's part that belongs to it.
pub type Piece<'a, M> = VolatileSlice<'a, <<M as GuestMemory>::Bitmap as WithBitmapSlice<'a>>::S>;

/// Guest memory.
pub trait GuestMemory {
    /// Who is told of writes.
    type Bitmap: Bitmap;

    /// Where `count` bytes from `addr` on lie in the host, if one region holds them.
    fn host(&self, addr: GuestAddress, count: usize) -> Option<*mut u8>;

    /// The one piece of `count` bytes from `addr` on. Readers and writers ask for it; the round has none.
    fn get_slices<'a>(
        &'a self,
        addr: GuestAddress,
        count: usize,
        access: Permissions,
    ) -> Result<impl Iterator<Item = Result<Piece<'a, Self>>>>;

    /// Whether all `count` bytes from `addr` on are in one region.
    fn check_range(&self, addr: GuestAddress, count: usize, _access: Permissions) -> bool {
        self.host(addr, count).is_some()
    }
}

fn place<M: GuestMemory + ?Sized>(mem: &M, addr: GuestAddress, count: usize) -> Result<*mut u8> {
    mem.host(addr, count).ok_or(GuestMemoryError::InvalidGuestAddress(addr))
}

impl<M: GuestMemory + ?Sized> Bytes<GuestAddress> for M {
    type E = GuestMemoryError;

    fn write(&self, buf: &[u8], addr: GuestAddress) -> Result<usize> {
        self.write_slice(buf, addr)?;
        Ok(buf.len())
    }

    fn read(&self, buf: &mut [u8], addr: GuestAddress) -> Result<usize> {
        self.read_slice(buf, addr)?;
        Ok(buf.len())
    }

    fn write_slice(&self, buf: &[u8], addr: GuestAddress) -> Result<()> {
        let host = place(self, addr, buf.len())?;
        // SAFETY: one region holds the bytes, and `buf` is none of them.
        unsafe { std::ptr::copy_nonoverlapping(buf.as_ptr(), host, buf.len()) };
        Ok(())
    }

    fn read_slice(&self, buf: &mut [u8], addr: GuestAddress) -> Result<()> {
        let host = place(self, addr, buf.len())?;
        // SAFETY: as in `write_slice`.
        unsafe { std::ptr::copy_nonoverlapping(host, buf.as_mut_ptr(), buf.len()) };
        Ok(())
    }

    fn write_obj<T: ByteValued>(&self, value: T, addr: GuestAddress) -> Result<()> {
        let host = place(self, addr, size_of::<T>())?;
        // SAFETY: one region holds the bytes.
        unsafe { host.cast::<T>().write_unaligned(value) };
        Ok(())
    }

    fn read_obj<T: ByteValued>(&self, addr: GuestAddress) -> Result<T> {
        let host = place(self, addr, size_of::<T>())?;
        // SAFETY: one region holds the bytes, and any bytes are a value.
        Ok(unsafe { host.cast::<T>().read_unaligned() })
    }

    fn store<T: AtomicAccess>(&self, value: T, addr: GuestAddress, order: Ordering) -> Result<()> {
        let host = place(self, addr, size_of::<T>())?;
        // SAFETY: one region holds the bytes; the round's numbers lie at even addresses.
        unsafe { value.store_at(host, order) };
        Ok(())
    }

    fn load<T: AtomicAccess>(&self, addr: GuestAddress, order: Ordering) -> Result<T> {
        let host = place(self, addr, size_of::<T>())?;
        // SAFETY: as in `store`.
        Ok(unsafe { T::load_at(host, order) })
    }
}
