//! What a stand-in needs in place of the standard library. Without that it links into a C program, a shared library or
//! a Rust program alike.

use core::slice;

unsafe extern "C" {
    fn abort() -> !;
}

#[panic_handler]
fn panic(_: &core::panic::PanicInfo<'_>) -> ! {
    unsafe { abort() }
}

/// The core library names it, and nothing here unwinds.
#[unsafe(no_mangle)]
extern "C" fn rust_eh_personality() {}

/// NULL with length 0 is an empty slice.
///
/// # Safety
/// The pointer goes with its length.
pub unsafe fn lent<'a, T>(start: *const T, len: usize) -> &'a [T] {
    if len == 0 { &[] } else { unsafe { slice::from_raw_parts(start, len) } }
}

/// # Safety
/// The same, and nothing else refers to the values.
pub unsafe fn lent_mut<'a, T>(start: *mut T, len: usize) -> &'a mut [T] {
    if len == 0 { &mut [] } else { unsafe { slice::from_raw_parts_mut(start, len) } }
}
