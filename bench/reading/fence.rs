//! Memory that ends at a page which may not be touched: a read past the end of a lent file stops the run.

use std::sync::atomic::{AtomicU64, Ordering};

const PAGE: usize = 4096;
const NOTHING: i32 = 0;
const READ_WRITE: i32 = 1 | 2;
const PRIVATE_ANONYMOUS: i32 = 0x02 | 0x20;
/// SIGILL, SIGTRAP, SIGABRT, SIGBUS, SIGFPE, SIGSEGV.
const STOPPED: [i32; 6] = [4, 5, 6, 7, 8, 11];

unsafe extern "C" {
    fn mmap(address: *mut u8, len: usize, protection: i32, flags: i32, file: i32, offset: i64) -> *mut u8;
    fn mprotect(address: *mut u8, len: usize, protection: i32) -> i32;
    fn signal(number: i32, handler: extern "C" fn(i32)) -> usize;
    fn _exit(status: i32) -> !;
}

/// The call under way, for the message of a run that is stopped.
pub static CALL: AtomicU64 = AtomicU64::new(0);

extern "C" fn stopped(number: i32) {
    eprintln!("DIFFERENCE: signal {number} in call {}", CALL.load(Ordering::Relaxed));
    unsafe { _exit(1) }
}

pub struct Fence {
    start: *mut u8,
    len: usize,
}

impl Fence {
    pub fn new(pages: usize) -> Self {
        let len = pages * PAGE;
        let start = unsafe { mmap(std::ptr::null_mut(), len + PAGE, READ_WRITE, PRIVATE_ANONYMOUS, -1, 0) };
        assert!(start as isize != -1, "no memory for the fence");
        assert!(unsafe { mprotect(start.add(len), PAGE, NOTHING) } == 0, "no page that may not be touched");
        for number in STOPPED {
            unsafe { signal(number, stopped) };
        }
        Self { start, len }
    }

    /// The same bytes, up to the forbidden page.
    pub fn lend(&mut self, bytes: &[u8]) -> &[u8] {
        let all = unsafe { std::slice::from_raw_parts_mut(self.start, self.len) };
        let at = self.len.checked_sub(bytes.len()).expect("a file that fits before the fence");
        all[at..].copy_from_slice(bytes);
        &all[at..]
    }
}
