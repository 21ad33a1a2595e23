// SPDX-License-Identifier: Apache-2.0 AND BSD-3-Clause
//! Bitmaps of written pages. Only the one that records nothing exists here; the traits are there because the crate's
//! reader and writer name them.

use std::fmt::Debug;

/// Something that is told which bytes were written.
pub trait Bitmap: for<'a> WithBitmapSlice<'a> {
    /// Bytes `offset` up to `offset + len` were written.
    fn mark_dirty(&self, offset: usize, len: usize);
}

/// The part of a bitmap that belongs to a piece of memory, by lifetime.
pub trait WithBitmapSlice<'a> {
    /// Its type.
    type S: BitmapSlice;
}

/// A part of a bitmap, which is a bitmap itself.
pub trait BitmapSlice: Bitmap + Clone + Debug + for<'a> WithBitmapSlice<'a, S = Self> {}

impl WithBitmapSlice<'_> for () {
    type S = ();
}

impl BitmapSlice for () {}

impl Bitmap for () {
    fn mark_dirty(&self, _offset: usize, _len: usize) {}
}
