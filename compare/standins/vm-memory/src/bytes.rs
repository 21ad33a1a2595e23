// SPDX-License-Identifier: Apache-2.0 AND BSD-3-Clause
//! Access to memory by bytes, by objects and by atomic numbers.

use std::mem::{size_of, zeroed};
use std::slice::{from_raw_parts, from_raw_parts_mut};
use std::sync::atomic::{AtomicU16, AtomicU32, AtomicU64, AtomicU8, Ordering};

/// Types that are nothing but their bytes.
///
/// # Safety
///
/// No padding, and any bytes are a value.
pub unsafe trait ByteValued: Copy + Send + Sync {
    /// The bytes.
    fn as_slice(&self) -> &[u8] {
        // SAFETY: the trait promises that all bytes are set.
        unsafe { from_raw_parts((self as *const Self).cast(), size_of::<Self>()) }
    }

    /// The bytes, to be changed.
    fn as_mut_slice(&mut self) -> &mut [u8] {
        // SAFETY: as above, and whatever is written is a value.
        unsafe { from_raw_parts_mut((self as *mut Self).cast(), size_of::<Self>()) }
    }
}

macro_rules! byte_valued {
    ($($number:ty),*) => {
        $(
            // SAFETY: a number has no padding and any bytes are a number.
            unsafe impl ByteValued for $number {}
        )*
    };
}

byte_valued!(u8, u16, u32, u64, i8, i16, i32, i64);

/// Numbers that can be read and written in one go at a host address.
pub trait AtomicAccess: ByteValued {
    /// What the host address must be a multiple of.
    const ALIGNMENT: usize = size_of::<Self>();

    /// Reads at `host`.
    ///
    /// # Safety
    ///
    /// `host` is aligned, and the bytes are alive.
    unsafe fn load_at(host: *mut u8, order: Ordering) -> Self;

    /// Writes at `host`.
    ///
    /// # Safety
    ///
    /// As for `load_at`.
    unsafe fn store_at(self, host: *mut u8, order: Ordering);
}

macro_rules! atomic_access {
    ($number:ty, $atomic:ty) => {
        impl AtomicAccess for $number {
            unsafe fn load_at(host: *mut u8, order: Ordering) -> Self {
                unsafe { <$atomic>::from_ptr(host.cast()) }.load(order)
            }

            unsafe fn store_at(self, host: *mut u8, order: Ordering) {
                unsafe { <$atomic>::from_ptr(host.cast()) }.store(self, order)
            }
        }
    };
}

atomic_access!(u8, AtomicU8);
atomic_access!(u16, AtomicU16);
atomic_access!(u32, AtomicU32);
atomic_access!(u64, AtomicU64);

/// Something that has bytes at addresses of type `A`.
pub trait Bytes<A> {
    /// Why an access failed.
    type E;

    /// Writes as many of the bytes as there is memory for; fails only if that is none.
    fn write(&self, buf: &[u8], addr: A) -> Result<usize, Self::E>;

    /// Reads as many bytes as there are; fails only if that is none.
    fn read(&self, buf: &mut [u8], addr: A) -> Result<usize, Self::E>;

    /// Writes all the bytes; when it fails, some may have been written.
    fn write_slice(&self, buf: &[u8], addr: A) -> Result<(), Self::E>;

    /// Reads all the bytes or fails.
    fn read_slice(&self, buf: &mut [u8], addr: A) -> Result<(), Self::E>;

    /// Writes an object.
    fn write_obj<T: ByteValued>(&self, value: T, addr: A) -> Result<(), Self::E> {
        self.write_slice(value.as_slice(), addr)
    }

    /// Reads an object.
    fn read_obj<T: ByteValued>(&self, addr: A) -> Result<T, Self::E> {
        // SAFETY: any bytes are a value, zeros too.
        let mut value: T = unsafe { zeroed() };
        self.read_slice(value.as_mut_slice(), addr)?;
        Ok(value)
    }

    /// Writes a number in one go.
    fn store<T: AtomicAccess>(&self, value: T, addr: A, order: Ordering) -> Result<(), Self::E>;

    /// Reads a number in one go.
    fn load<T: AtomicAccess>(&self, addr: A, order: Ordering) -> Result<T, Self::E>;
}
