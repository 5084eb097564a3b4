//! A fuzz target: libFuzzer's bytes are read as a case, which the archive and the Rust both run. README.md has the commands.

mod codes;
pub mod input;
mod reader;
mod speller;
pub mod target;

/// libFuzzer's entry: one input.
///
/// # Safety
///
/// `data` points to `size` bytes that nobody writes meanwhile, as libFuzzer sees to.
#[unsafe(no_mangle)]
pub unsafe extern "C" fn LLVMFuzzerTestOneInput(data: *const u8, size: usize) -> i32 {
    // With size 0 the pointer may be null, which no slice may have.
    let input = if size == 0 { &[] } else { unsafe { std::slice::from_raw_parts(data, size) } };
    target::run(input);
    0
}

/// libFuzzer's entry before the first input; the arguments are its own.
///
/// # Safety
///
/// None is asked: the arguments are not looked at.
#[unsafe(no_mangle)]
pub unsafe extern "C" fn LLVMFuzzerInitialize(_count: *mut i32, _arguments: *mut *mut *mut u8) -> i32 {
    unsafe extern "C" {
        fn atexit(last: extern "C" fn()) -> i32;
    }
    extern "C" fn last() {
        target::report();
    }
    // SAFETY: C's own function, and `last` unwinds nowhere: a panic in it ends the process.
    unsafe { atexit(last) }
}
