// SPDX-License-Identifier: Apache-2.0 AND BSD-3-Clause
//! The image: one host buffer, and the table of regions that maps guest addresses to places in it.

use std::cell::{Cell, RefCell};
use std::ops::Deref;
use std::rc::Rc;

use vm_memory::{GuestMemoryMmap, HostBuffer, Region};

use crate::crc::Crc;

/// The largest image.
pub const LARGEST_IMAGE: u64 = 1 << 20;
/// The most regions in a table.
pub const MOST_REGIONS: usize = 8;

/// The memory handle that the crate is given. All copies lead to the newest table, so a pass or a chain that keeps a
/// copy sees a new region at once.
#[derive(Clone)]
pub struct Memory(Rc<Tables>);

struct Tables {
    newest: Cell<*const GuestMemoryMmap>,
    /// Every table so far. None is dropped before the handle's last copy, because references to an old one may live on.
    kept: RefCell<Vec<Rc<GuestMemoryMmap>>>,
}

impl Memory {
    fn new(regions: Vec<Region>) -> Self {
        let tables = Tables { newest: Cell::new(std::ptr::null()), kept: RefCell::default() };
        let memory = Memory(Rc::new(tables));
        memory.replace(regions);
        memory
    }

    fn replace(&self, regions: Vec<Region>) {
        let table = Rc::new(GuestMemoryMmap::over(regions));
        self.0.newest.set(Rc::as_ptr(&table));
        self.0.kept.borrow_mut().push(table);
    }
}

impl Deref for Memory {
    type Target = GuestMemoryMmap;

    fn deref(&self) -> &GuestMemoryMmap {
        // SAFETY: the table is kept as long as `self`, and is never changed.
        unsafe { &*self.0.newest.get() }
    }
}

/// Why a region is refused, in the order of the tests.
#[derive(Clone, Copy, Debug, PartialEq, Eq)]
pub enum NoRegion {
    Full,
    Empty,
    BeyondTop,
    BeyondImage,
    Overlap,
}

impl NoRegion {
    /// In the language's words.
    pub fn text(self) -> &'static str {
        match self {
            NoRegion::Full => "refused full",
            NoRegion::Empty => "refused empty",
            NoRegion::BeyondTop => "refused beyond 2^64",
            NoRegion::BeyondImage => "refused beyond the image",
            NoRegion::Overlap => "refused overlap",
        }
    }
}

/// The image.
pub struct Image {
    buffer: Rc<HostBuffer>,
    memory: Memory,
    /// Whether the one region that `memory` made is still there, to be replaced by the first `region`.
    is_plain: bool,
}

impl Image {
    /// `len` zero bytes, at guest address 0.
    pub fn new(len: u64) -> Self {
        let buffer = Rc::new(HostBuffer::new(len as usize));
        let whole = Region { base: 0, len, offset: 0, buffer: buffer.clone() };
        let regions = if len == 0 { vec![] } else { vec![whole] };
        Image { buffer, memory: Memory::new(regions), is_plain: true }
    }

    /// The handle for the crate.
    pub fn memory(&self) -> Memory {
        self.memory.clone()
    }

    /// How many bytes.
    pub fn len(&self) -> u64 {
        self.buffer.len() as u64
    }

    /// Whether there are none.
    pub fn is_empty(&self) -> bool {
        self.buffer.is_empty()
    }

    /// Whether `count` bytes from `offset` on are in the image.
    pub fn holds(&self, offset: u64, count: u64) -> bool {
        offset.checked_add(count).is_some_and(|end| end <= self.len())
    }

    /// Adds a region, or replaces the one that `memory` made; or says why not, and changes nothing.
    pub fn add_region(&mut self, base: u64, len: u64, offset: u64) -> Result<(), NoRegion> {
        let mut regions = if self.is_plain { vec![] } else { self.memory.regions().to_vec() };
        if regions.len() == MOST_REGIONS {
            return Err(NoRegion::Full);
        }
        let to_last = len.checked_sub(1).ok_or(NoRegion::Empty)?;
        let last = base.checked_add(to_last).ok_or(NoRegion::BeyondTop)?;
        if !self.holds(offset, len) {
            return Err(NoRegion::BeyondImage);
        }
        let overlaps = |other: &Region| base <= other.base + (other.len - 1) && other.base <= last;
        if regions.iter().any(overlaps) {
            return Err(NoRegion::Overlap);
        }
        regions.push(Region { base, len, offset: offset as usize, buffer: self.buffer.clone() });
        self.memory.replace(regions);
        self.is_plain = false;
        Ok(())
    }

    /// The place in the image of a guest address.
    pub fn place(&self, addr: u64) -> Option<u64> {
        let holds = |region: &&Region| addr >= region.base && addr - region.base < region.len;
        let region = self.memory.regions().iter().find(holds)?;
        Some(region.offset as u64 + (addr - region.base))
    }

    /// Writes bytes that the image holds.
    pub fn store(&self, offset: u64, bytes: &[u8]) {
        assert!(self.holds(offset, bytes.len() as u64));
        // SAFETY: in the buffer; nobody holds a Rust reference to its bytes.
        unsafe {
            let host = self.buffer.host().add(offset as usize);
            std::ptr::copy_nonoverlapping(bytes.as_ptr(), host, bytes.len());
        }
    }

    /// Writes one byte many times.
    pub fn fill(&self, offset: u64, count: u64, byte: u8) {
        assert!(self.holds(offset, count));
        // SAFETY: as in `store`.
        unsafe { std::ptr::write_bytes(self.buffer.host().add(offset as usize), byte, count as usize) };
    }

    /// A copy of bytes that the image holds.
    pub fn bytes(&self, offset: u64, count: u64) -> Vec<u8> {
        assert!(self.holds(offset, count));
        // SAFETY: in the buffer, and the reference ends before anything can be written.
        unsafe { std::slice::from_raw_parts(self.buffer.host().add(offset as usize), count as usize).to_vec() }
    }

    /// The CRC-32 of all bytes.
    pub fn sum(&self) -> u32 {
        let mut crc = Crc::new();
        // SAFETY: as in `bytes`.
        crc.add(unsafe { std::slice::from_raw_parts(self.buffer.host(), self.buffer.len()) });
        crc.sum()
    }
}
