// SPDX-License-Identifier: Apache-2.0 AND BSD-3-Clause
//! Stand-in for `virtio-bindings`: the few constants of split queues that the crate uses, with the values of VIRTIO 1.2,
//! section 2.7. They are `u32`, as a generator makes them from C's `#define`.

pub mod bindings {
    pub mod virtio_ring {
        /// The chain goes on at `next`.
        pub const VRING_DESC_F_NEXT: u32 = 1;
        /// The device writes this buffer.
        pub const VRING_DESC_F_WRITE: u32 = 2;
        /// The buffer is a table of descriptors.
        pub const VRING_DESC_F_INDIRECT: u32 = 4;
        /// In the used ring's flags: the driver need not notify.
        pub const VRING_USED_F_NO_NOTIFY: u32 = 1;
        /// Alignment of the descriptor table, which is also a descriptor's length.
        pub const VRING_DESC_ALIGN_SIZE: u32 = 16;
    }
}
