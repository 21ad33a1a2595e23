// SPDX-License-Identifier: Apache-2.0 AND BSD-3-Clause
//! Guest memory as the queue sees it: ranges of guest addresses, cut into pieces of host memory.

use std::fmt;
use std::sync::atomic::Ordering;

use crate::bitmap::{Bitmap, WithBitmapSlice};
use crate::{AtomicAccess, Bytes, GuestAddress, VolatileMemoryError, VolatileSlice};

/// Why an access to guest memory failed.
#[derive(Debug)]
pub enum GuestMemoryError {
    /// No region holds this address.
    InvalidGuestAddress(GuestAddress),
    /// The access stopped at a hole; what came before it is done.
    PartialBuffer {
        /// How many bytes were asked for.
        expected: usize,
        /// How many were done.
        completed: usize,
    },
    /// An atomic access that isn't whole in one piece, or isn't aligned.
    Piece(VolatileMemoryError),
}

impl fmt::Display for GuestMemoryError {
    fn fmt(&self, f: &mut fmt::Formatter<'_>) -> fmt::Result {
        match self {
            Self::InvalidGuestAddress(addr) => write!(f, "no memory at {:#x}", addr.0),
            Self::PartialBuffer { expected, completed } => write!(f, "{completed} bytes of {expected}"),
            Self::Piece(why) => write!(f, "{why}"),
        }
    }
}

impl std::error::Error for GuestMemoryError {}

type Result<T> = std::result::Result<T, GuestMemoryError>;

/// What an access wants to do. Nothing is refused for it here.
#[derive(Clone, Copy, Debug, PartialEq, Eq)]
pub enum Permissions {
    /// Nothing.
    No,
    /// Read.
    Read,
    /// Write.
    Write,
    /// Both.
    ReadWrite,
}

/// A piece with the bitmap's part that belongs to it.
pub type Piece<'a, M> = VolatileSlice<'a, <<M as GuestMemory>::Bitmap as WithBitmapSlice<'a>>::S>;

/// Guest memory.
pub trait GuestMemory {
    /// Who is told of writes.
    type Bitmap: Bitmap;

    /// The pieces of `count` bytes from `addr` on, in rising order. At a hole comes an error, and nothing after it.
    fn get_slices<'a>(
        &'a self,
        addr: GuestAddress,
        count: usize,
        access: Permissions,
    ) -> Result<impl Iterator<Item = Result<Piece<'a, Self>>>>;

    /// Whether all `count` bytes from `addr` on are in memory.
    fn check_range(&self, addr: GuestAddress, count: usize, access: Permissions) -> bool {
        match self.get_slices(addr, count, access) {
            Ok(mut pieces) => pieces.all(|piece| piece.is_ok()),
            Err(_) => false,
        }
    }
}

impl<M: GuestMemory + ?Sized> Bytes<GuestAddress> for M {
    type E = GuestMemoryError;

    fn write(&self, buf: &[u8], addr: GuestAddress) -> Result<usize> {
        let mut done = 0;
        for piece in self.get_slices(addr, buf.len(), Permissions::Write)? {
            match piece {
                Ok(piece) => done += piece.write(&buf[done..]),
                Err(why) if done == 0 => return Err(why),
                Err(_) => break,
            }
        }
        Ok(done)
    }

    fn read(&self, buf: &mut [u8], addr: GuestAddress) -> Result<usize> {
        let mut done = 0;
        for piece in self.get_slices(addr, buf.len(), Permissions::Read)? {
            match piece {
                Ok(piece) => done += piece.read(&mut buf[done..]),
                Err(why) if done == 0 => return Err(why),
                Err(_) => break,
            }
        }
        Ok(done)
    }

    fn write_slice(&self, buf: &[u8], addr: GuestAddress) -> Result<()> {
        all_done(buf.len(), self.write(buf, addr)?)
    }

    fn read_slice(&self, buf: &mut [u8], addr: GuestAddress) -> Result<()> {
        all_done(buf.len(), self.read(buf, addr)?)
    }

    fn store<T: AtomicAccess>(&self, value: T, addr: GuestAddress, order: Ordering) -> Result<()> {
        first_piece(self.get_slices(addr, size_of::<T>(), Permissions::Write)?)?
            .store(value, order)
            .map_err(GuestMemoryError::Piece)
    }

    fn load<T: AtomicAccess>(&self, addr: GuestAddress, order: Ordering) -> Result<T> {
        first_piece(self.get_slices(addr, size_of::<T>(), Permissions::Read)?)?
            .load(order)
            .map_err(GuestMemoryError::Piece)
    }
}

fn all_done(expected: usize, completed: usize) -> Result<()> {
    if completed == expected {
        Ok(())
    } else {
        Err(GuestMemoryError::PartialBuffer { expected, completed })
    }
}

/// An atomic access looks at the first piece only: if it is too short, the access isn't whole in one region.
fn first_piece<P>(mut pieces: impl Iterator<Item = Result<P>>) -> Result<P> {
    pieces.next().expect("a number has at least one byte")
}
