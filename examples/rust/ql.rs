// SPDX-License-Identifier: Apache-2.0 AND BSD-3-Clause
//! The library's calls that this example makes, safe over slices. include/queueledger.h has them all and says what each
//! answers; the others are declared in the same way.

pub const STATE_WORDS: usize = 10;
pub const CHAIN_WORDS: usize = 6;
pub const DESCRIPTOR_WORDS: usize = 3;
pub const TABLE_WORDS: usize = 8 * 3;

// Words of the state, of a chain, of a descriptor.
pub const NEXT_AVAIL: usize = 1;
pub const SIZE: usize = 5;
pub const READY: usize = 6;
pub const CHAIN_HEAD_INDEX: usize = 2;
pub const DESCRIPTOR_ADDR: usize = 0;
pub const DESCRIPTOR_LEN: usize = 1;
pub const DESCRIPTOR_FLAGS: usize = 2;

pub const DESC_F_NEXT: u16 = 1;
pub const DESC_F_WRITE: u16 = 2;

pub const NONE: u32 = 65536;
pub const STATE_SHORT: u32 = 65537;
pub const STATE_FIELD: u32 = 65538;
pub const INVALID_DESCRIPTOR_INDEX: u32 = 65546;
pub const GUEST_MEMORY: u32 = 65547;
pub const CHAIN_SHORT: u32 = 65549;
pub const NO_ROOM: u32 = 65551;
pub const REGION_OVERLAP: u32 = 65556;

pub fn refused(answer: u32) -> bool {
    answer > NONE
}

/// The calls as they are: a slice goes as pointer and length.
pub mod raw {
    extern "C" {
        pub fn ql_add_region(regions: *mut u64, regions_len: usize, size: usize, base: u64, len: u64, offset: u64) -> u32;
        pub fn ql_new(state: *mut u64, state_len: usize, max_size: u16) -> u32;
        pub fn ql_set_size(state: *mut u64, state_len: usize, size: u16) -> u32;
        pub fn ql_set_desc_table_address(
            state: *mut u64, state_len: usize, has_low: u32, low: u32, has_high: u32, high: u32,
        ) -> u32;
        pub fn ql_set_avail_ring_address(
            state: *mut u64, state_len: usize, has_low: u32, low: u32, has_high: u32, high: u32,
        ) -> u32;
        pub fn ql_set_used_ring_address(
            state: *mut u64, state_len: usize, has_low: u32, low: u32, has_high: u32, high: u32,
        ) -> u32;
        pub fn ql_set_ready(state: *mut u64, state_len: usize, ready: u32) -> u32;
        pub fn ql_set_event_idx(state: *mut u64, state_len: usize, enabled: u32) -> u32;
        pub fn ql_is_valid(
            state: *const u64, state_len: usize, regions: *const u64, regions_len: usize, mem: *const u8, mem_len: usize,
        ) -> u32;
        pub fn ql_iter(
            state: *const u64, state_len: usize, regions: *const u64, regions_len: usize, mem: *const u8, mem_len: usize,
        ) -> u32;
        pub fn ql_take(
            state: *mut u64, state_len: usize, chain: *mut u64, chain_len: usize, regions: *const u64, regions_len: usize,
            mem: *const u8, mem_len: usize, last_index: u16, out: *mut u64, out_len: usize,
        ) -> u32;
        pub fn ql_put_and_ask(
            state: *mut u64, state_len: usize, regions: *const u64, regions_len: usize, mem: *mut u8, mem_len: usize,
            head: u16, len: u32,
        ) -> u32;
        pub fn ql_disable_notification(
            state: *mut u64, state_len: usize, regions: *const u64, regions_len: usize, mem: *mut u8, mem_len: usize,
        ) -> u32;
        pub fn ql_enable_notification(
            state: *mut u64, state_len: usize, regions: *const u64, regions_len: usize, mem: *mut u8, mem_len: usize,
        ) -> u32;
    }
}
use raw::*;

// SAFETY of everything below: a slice is all that the library asks for. Its pointer and length describe memory, a `&mut` overlaps
// nothing else that is lent, and nobody else writes it during the call. An empty slice has a pointer to nowhere, which the
// library does not look at.

/// `size` is the length of the guest's memory.
pub fn add_region(regions: &mut [u64], size: usize, base: u64, len: u64, offset: u64) -> u32 {
    unsafe { ql_add_region(regions.as_mut_ptr(), regions.len(), size, base, len, offset) }
}

pub fn new(state: &mut [u64], max_size: u16) -> u32 {
    unsafe { ql_new(state.as_mut_ptr(), state.len(), max_size) }
}

pub fn set_size(state: &mut [u64], size: u16) -> u32 {
    unsafe { ql_set_size(state.as_mut_ptr(), state.len(), size) }
}

/// Half of an address: whether it is given, and its bits.
fn half(x: Option<u32>) -> (u32, u32) {
    (u32::from(x.is_some()), x.unwrap_or(0))
}

pub fn set_desc_table_address(state: &mut [u64], low: Option<u32>, high: Option<u32>) -> u32 {
    let ((has_low, low), (has_high, high)) = (half(low), half(high));
    unsafe { ql_set_desc_table_address(state.as_mut_ptr(), state.len(), has_low, low, has_high, high) }
}

pub fn set_avail_ring_address(state: &mut [u64], low: Option<u32>, high: Option<u32>) -> u32 {
    let ((has_low, low), (has_high, high)) = (half(low), half(high));
    unsafe { ql_set_avail_ring_address(state.as_mut_ptr(), state.len(), has_low, low, has_high, high) }
}

pub fn set_used_ring_address(state: &mut [u64], low: Option<u32>, high: Option<u32>) -> u32 {
    let ((has_low, low), (has_high, high)) = (half(low), half(high));
    unsafe { ql_set_used_ring_address(state.as_mut_ptr(), state.len(), has_low, low, has_high, high) }
}

pub fn set_ready(state: &mut [u64], ready: bool) -> u32 {
    unsafe { ql_set_ready(state.as_mut_ptr(), state.len(), u32::from(ready)) }
}

pub fn set_event_idx(state: &mut [u64], enabled: bool) -> u32 {
    unsafe { ql_set_event_idx(state.as_mut_ptr(), state.len(), u32::from(enabled)) }
}

pub fn is_valid(state: &[u64], regions: &[u64], mem: &[u8]) -> u32 {
    unsafe { ql_is_valid(state.as_ptr(), state.len(), regions.as_ptr(), regions.len(), mem.as_ptr(), mem.len()) }
}

pub fn iter(state: &[u64], regions: &[u64], mem: &[u8]) -> u32 {
    unsafe { ql_iter(state.as_ptr(), state.len(), regions.as_ptr(), regions.len(), mem.as_ptr(), mem.len()) }
}

pub fn take(state: &mut [u64], chain: &mut [u64], regions: &[u64], mem: &[u8], last_index: u16, out: &mut [u64]) -> u32 {
    let (s, c, o) = (state.as_mut_ptr(), chain.as_mut_ptr(), out.as_mut_ptr());
    let (r, m) = (regions.as_ptr(), mem.as_ptr());
    unsafe { ql_take(s, state.len(), c, chain.len(), r, regions.len(), m, mem.len(), last_index, o, out.len()) }
}

pub fn put_and_ask(state: &mut [u64], regions: &[u64], mem: &mut [u8], head: u16, len: u32) -> u32 {
    let (s, r, m) = (state.as_mut_ptr(), regions.as_ptr(), mem.as_mut_ptr());
    unsafe { ql_put_and_ask(s, state.len(), r, regions.len(), m, mem.len(), head, len) }
}

pub fn disable_notification(state: &mut [u64], regions: &[u64], mem: &mut [u8]) -> u32 {
    let (s, r, m) = (state.as_mut_ptr(), regions.as_ptr(), mem.as_mut_ptr());
    unsafe { ql_disable_notification(s, state.len(), r, regions.len(), m, mem.len()) }
}

pub fn enable_notification(state: &mut [u64], regions: &[u64], mem: &mut [u8]) -> u32 {
    let (s, r, m) = (state.as_mut_ptr(), regions.as_ptr(), mem.as_mut_ptr());
    unsafe { ql_enable_notification(s, state.len(), r, regions.len(), m, mem.len()) }
}
