//! Whether the run was interrupted from the keyboard. Only here does this crate have unsafe code: std has no handler for
//! signals, and C's own is one call.

use std::sync::atomic::{AtomicBool, Ordering};

static ASKED: AtomicBool = AtomicBool::new(false);

/// The signal of Control-C, and the handler that ends the process as if none had been set. POSIX fixes the first; the
/// second is the null handler on every system with these headers.
const SIGINT: i32 = 2;
const SIG_DFL: usize = 0;

unsafe extern "C" {
    fn signal(number: i32, handler: usize) -> usize;
}

/// From here on the first interruption is noted; a second one ends the process as ever.
pub fn watch() {
    // SAFETY: `note` has the type that C's `signal` asks for, and does only what a handler may do: it stores to an atomic
    // and calls `signal`, which POSIX lists among what is safe there.
    unsafe { signal(SIGINT, note as extern "C" fn(i32) as usize) };
}

extern "C" fn note(_number: i32) {
    ASKED.store(true, Ordering::Relaxed);
    // SAFETY: the null handler is one that `signal` knows.
    unsafe { signal(SIGINT, SIG_DFL) };
}

/// Whether an interruption was noted.
pub fn asked() -> bool {
    ASKED.load(Ordering::Relaxed)
}
