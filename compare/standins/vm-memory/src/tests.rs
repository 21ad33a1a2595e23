// SPDX-License-Identifier: Apache-2.0 AND BSD-3-Clause
//! What the queue relies on, and what the comparison keeps out: each has its test.

use std::rc::Rc;
use std::sync::atomic::Ordering::Relaxed;

use crate::{Bytes, GuestAddress, GuestMemory, GuestMemoryMmap, HostBuffer, Permissions, Region};

/// Regions (guest address, length, place) over one buffer of 64 bytes.
fn memory(regions: &[(u64, u64, usize)]) -> (GuestMemoryMmap, Rc<HostBuffer>) {
    let buffer = Rc::new(HostBuffer::new(64));
    let region = |(base, len, offset): &(u64, u64, usize)| Region {
        base: *base,
        len: *len,
        offset: *offset,
        buffer: buffer.clone(),
    };
    (GuestMemoryMmap::over(regions.iter().map(region).collect()), buffer)
}

fn bytes(buffer: &HostBuffer, from: usize, count: usize) -> Vec<u8> {
    // SAFETY: the tests ask for bytes of the buffer, and nothing is written meanwhile.
    unsafe { std::slice::from_raw_parts(buffer.host().add(from), count).to_vec() }
}

fn piece_lengths(memory: &GuestMemoryMmap, addr: u64, count: usize) -> Vec<Option<usize>> {
    let pieces = memory.get_slices(GuestAddress(addr), count, Permissions::Read).unwrap();
    pieces.map(|piece| piece.ok().map(|piece| piece.len())).collect()
}

#[test]
fn a_range_is_cut_into_one_piece_a_region() {
    let (memory, _) = memory(&[(16, 4, 0), (0, 16, 8), (20, 8, 32)]);
    assert_eq!(piece_lengths(&memory, 14, 10), [Some(2), Some(4), Some(4)]);
    assert_eq!(piece_lengths(&memory, 26, 4), [Some(2), None]);
    assert_eq!(piece_lengths(&memory, 28, 4), [None]);
    assert_eq!(piece_lengths(&memory, 28, 0), []);
}

#[test]
fn a_range_is_in_memory_if_all_of_it_is() {
    let (memory, _) = memory(&[(0, 16, 0), (16, 16, 32), (40, 8, 16)]);
    let check = |addr, count| memory.check_range(GuestAddress(addr), count, Permissions::Write);
    assert!(check(0, 32) && check(8, 16) && check(40, 8));
    assert!(!check(0, 33) && !check(31, 10) && !check(32, 1) && !check(47, 2) && !check(u64::MAX, 2));
}

#[test]
fn bytes_before_a_hole_are_written_when_the_access_fails() {
    let (memory, buffer) = memory(&[(0, 4, 0), (4, 2, 8)]);
    assert!(memory.write_obj(0x0807_0605_0403_0201u64, GuestAddress(0)).is_err());
    assert_eq!(bytes(&buffer, 0, 12), [1, 2, 3, 4, 0, 0, 0, 0, 5, 6, 0, 0]);
    assert!(memory.read_obj::<u64>(GuestAddress(0)).is_err());
}

#[test]
fn pieces_over_the_same_place_are_written_in_order() {
    let (memory, buffer) = memory(&[(0, 4, 0), (4, 4, 0)]);
    memory.write_obj(0x0807_0605_0403_0201u64, GuestAddress(0)).unwrap();
    assert_eq!(bytes(&buffer, 0, 4), [5, 6, 7, 8]);
}

#[test]
fn a_number_is_whole_in_one_region() {
    let (memory, buffer) = memory(&[(0, 3, 0), (3, 3, 3)]);
    assert!(memory.store(0x0201u16, GuestAddress(2), Relaxed).is_err());
    assert!(memory.load::<u16>(GuestAddress(2), Relaxed).is_err());
    assert_eq!(bytes(&buffer, 0, 6), [0; 6]);
    // The same bytes as an object may lie in two.
    assert!(memory.write_obj(0x0201u16, GuestAddress(2)).is_ok());
    assert_eq!(memory.read_obj::<u16>(GuestAddress(2)).unwrap(), 0x0201);
}

#[test]
fn a_number_is_at_an_even_host_address() {
    let (memory, _) = memory(&[(0, 8, 1), (101, 8, 9)]);
    // The guest's address doesn't matter, the host's does.
    assert!(memory.load::<u16>(GuestAddress(0), Relaxed).is_err());
    assert!(memory.load::<u16>(GuestAddress(1), Relaxed).is_ok());
    assert!(memory.store(7u16, GuestAddress(102), Relaxed).is_ok());
    assert!(memory.store(7u16, GuestAddress(101), Relaxed).is_err());
}

#[test]
fn after_the_last_address_comes_the_first() {
    let (memory, buffer) = memory(&[(u64::MAX - 3, 4, 0), (0, 4, 8)]);
    assert!(memory.write_obj(0x0807_0605_0403_0201u64, GuestAddress(u64::MAX - 3)).is_ok());
    assert_eq!(bytes(&buffer, 0, 12), [1, 2, 3, 4, 0, 0, 0, 0, 5, 6, 7, 8]);
}

#[test]
fn ranges_are_in_order_and_apart() {
    let ok = |ranges: &[(u64, usize)]| {
        let ranges: Vec<_> = ranges.iter().map(|(base, len)| (GuestAddress(*base), *len)).collect();
        GuestMemoryMmap::<()>::from_ranges(&ranges).is_ok()
    };
    assert!(ok(&[(0, 16), (16, 16), (64, 1)]));
    assert!(!ok(&[(0, 16), (15, 16)]) && !ok(&[(16, 16), (0, 16)]) && !ok(&[(0, 0)]) && !ok(&[(u64::MAX, 1)]));
}
