// SPDX-License-Identifier: Apache-2.0 AND BSD-3-Clause
//! Guest addresses: 64 bits, with additions that tell when they pass the end.

/// An address as the guest sees it.
#[derive(Clone, Copy, Debug, Default, PartialEq, Eq, PartialOrd, Ord, Hash)]
pub struct GuestAddress(pub u64);

/// Arithmetic on addresses.
pub trait Address: Copy {
    /// The number itself.
    fn raw_value(&self) -> u64;

    /// The bits of the address that are also in `mask`.
    fn mask(&self, mask: u64) -> u64 {
        self.raw_value() & mask
    }

    /// The address `count` further on, unless that passes 2^64 - 1.
    fn checked_add(&self, count: u64) -> Option<Self>;

    /// The address `count` further on, for a caller who knows that it exists.
    fn unchecked_add(&self, count: u64) -> Self;
}

impl Address for GuestAddress {
    fn raw_value(&self) -> u64 {
        self.0
    }

    fn checked_add(&self, count: u64) -> Option<Self> {
        self.0.checked_add(count).map(GuestAddress)
    }

    fn unchecked_add(&self, count: u64) -> Self {
        GuestAddress(self.0 + count)
    }
}
