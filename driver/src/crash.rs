//! Says which model it was if the engine brings the whole process down. On Linux only.

use std::cell::Cell;
use std::ffi::c_int;

thread_local! {
    static AT: Cell<(u64, u64)> = const { Cell::new((0, 0)) };
}

/// The model that this thread is at.
pub fn at(number: u64, seed: u64) {
    AT.set((number, seed));
}

#[cfg(not(target_os = "linux"))]
pub fn watch() {}

/// What sigaction takes on Linux, where a C library is glibc or musl.
#[cfg(target_os = "linux")]
#[repr(C)]
struct Handling {
    handler: extern "C" fn(c_int),
    mask: [u64; 16],
    flags: c_int,
    restorer: usize,
}

#[cfg(target_os = "linux")]
extern "C" {
    fn sigaction(number: c_int, new: *const Handling, old: *mut Handling) -> c_int;
    fn _exit(status: c_int) -> !;
}

/// SIGILL, SIGABRT, SIGBUS, SIGFPE and SIGSEGV, handled on the stack that Rust keeps for a thread whose own one is full.
#[cfg(target_os = "linux")]
pub fn watch() {
    const SA_ONSTACK: c_int = 0x0800_0000;
    let handling = Handling { handler: crashed, mask: [0; 16], flags: SA_ONSTACK, restorer: 0 };
    for number in [4, 6, 7, 8, 11] {
        // SAFETY: the handler is a plain function that lives as long as the program; what was handled before isn't asked for.
        unsafe { sigaction(number, &handling, std::ptr::null_mut()) };
    }
}

#[cfg(target_os = "linux")]
extern "C" fn crashed(signal: c_int) {
    let (number, seed) = AT.get();
    println!("CRASH, signal {signal}, at model {}, seed {seed}; once more: driver 1 {seed}", number + 1);
    // SAFETY: nothing of this process is used afterwards.
    unsafe { _exit(3) }
}
