// SPDX-License-Identifier: Apache-2.0 AND BSD-3-Clause
//! Stand-in for `log`: nothing is printed, calls are counted.
//!
//! The crate's setters answer nothing; when they refuse, they log. So the count before and after a setter tells whether
//! it refused. The count belongs to the thread, because the runner has several interpreters at a time.

use std::cell::Cell;

thread_local! {
    static ERRORS: Cell<u64> = const { Cell::new(0) };
}

/// How often `error!` was called by this thread.
pub fn errors() -> u64 {
    ERRORS.with(Cell::get)
}

/// Called by `error!`, not by hand.
pub fn count_error() {
    ERRORS.with(|errors| errors.set(errors.get() + 1));
}

/// Counts the call. The arguments are checked by the compiler and not formatted.
#[macro_export]
macro_rules! error {
    ($($arg:tt)+) => {{
        let _ = format_args!($($arg)+);
        $crate::count_error();
    }};
}
