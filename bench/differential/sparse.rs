//! Anonymous memory that takes room only where it is written: planes of many GiB of zeros.

const READ_WRITE: i32 = 1 | 2;
const PRIVATE_ANONYMOUS_NORESERVE: i32 = 0x02 | 0x20 | 0x4000;

unsafe extern "C" {
    fn mmap(address: *mut u8, len: usize, protection: i32, flags: i32, file: i32, offset: i64) -> *mut u8;
    fn munmap(address: *mut u8, len: usize) -> i32;
}

pub struct Sparse {
    start: *mut u8,
    len: usize,
}

impl Sparse {
    pub fn new(len: usize) -> Self {
        let start = unsafe { mmap(std::ptr::null_mut(), len, READ_WRITE, PRIVATE_ANONYMOUS_NORESERVE, -1, 0) };
        assert!(start as isize != -1, "no {len} bytes of sparse memory");
        Self { start, len }
    }

    pub fn bytes(&self) -> &[u8] {
        unsafe { std::slice::from_raw_parts(self.start, self.len) }
    }

    pub fn bytes_mut(&mut self) -> &mut [u8] {
        unsafe { std::slice::from_raw_parts_mut(self.start, self.len) }
    }
}

impl Drop for Sparse {
    fn drop(&mut self) {
        unsafe { munmap(self.start, self.len) };
    }
}
