// SPDX-License-Identifier: Apache-2.0 AND BSD-3-Clause
//! Stand-in for `vm-memory`: the part that virtio-queue uses, written from what the crate's users see of it.
//!
//! What matters to a queue, and is the same here:
//!
//! * a range of guest addresses is cut into one piece for each region that it touches, in rising order;
//! * a read or write of several pieces does them one after the other, so the bytes before a hole have already been
//!   written when the access fails;
//! * an atomic access is made whole in one piece, and at a host address that suits its alignment, or it fails.
//!
//! Left out: mapping of files, dirty bitmaps, IOMMUs, permissions that refuse, memory that is swapped while it is used.

mod address;
pub mod bitmap;
mod bytes;
mod endian;
mod guest;
mod mapped;
#[cfg(test)]
mod tests;
mod volatile;

pub use address::{Address, GuestAddress};
pub use bytes::{AtomicAccess, ByteValued, Bytes};
pub use endian::{Le16, Le32, Le64};
pub use guest::{GuestMemory, GuestMemoryError, Permissions};
pub use mapped::{GuestMemoryMmap, HostBuffer, Pieces, RangesError, Region};
pub use volatile::{PtrGuard, VolatileMemoryError, VolatileSlice};

/// Only its name is needed: one of the crate's examples imports it.
pub trait GuestAddressSpace {}
