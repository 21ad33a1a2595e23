// SPDX-License-Identifier: Apache-2.0 AND BSD-3-Clause
//! Numbers that lie in memory lowest byte first, on every machine.

use crate::ByteValued;

macro_rules! little_endian {
    ($name:ident, $native:ty) => {
        #[doc = concat!("A `", stringify!($native), "`, lowest byte first.")]
        #[repr(transparent)]
        #[derive(Clone, Copy, Debug, Default, PartialEq, Eq)]
        pub struct $name($native);

        impl $name {
            /// The number in the machine's own order.
            pub fn to_native(self) -> $native {
                <$native>::from_le(self.0)
            }
        }

        impl From<$native> for $name {
            fn from(value: $native) -> Self {
                $name(value.to_le())
            }
        }

        impl From<$name> for $native {
            fn from(value: $name) -> Self {
                value.to_native()
            }
        }

        impl PartialEq<$native> for $name {
            fn eq(&self, other: &$native) -> bool {
                self.to_native() == *other
            }
        }

        impl PartialEq<$name> for $native {
            fn eq(&self, other: &$name) -> bool {
                *self == other.to_native()
            }
        }

        // SAFETY: one number and no padding; any bytes are a value.
        unsafe impl ByteValued for $name {}
    };
}

little_endian!(Le16, u16);
little_endian!(Le32, u32);
little_endian!(Le64, u64);
