// SPDX-License-Identifier: Apache-2.0 AND BSD-3-Clause
//! Stand-in for `memoffset`: the language has `offset_of!` by now. Only the crate's unit tests use it.

pub use std::mem::offset_of;
