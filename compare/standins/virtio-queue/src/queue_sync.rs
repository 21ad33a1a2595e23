// SPDX-License-Identifier: Apache-2.0 AND BSD-3-Clause
//! The queue behind a lock isn't given and isn't compared: only its name must exist.

/// Stands for the queue behind a lock.
pub struct QueueSync;
