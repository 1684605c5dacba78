//! Bytes between two pages that nobody may touch: a read or a write outside the slice ends the test program.

use std::ffi::c_void;

const PAGE: usize = 4096;
const READ_WRITE: i32 = 3;
const PRIVATE_ANONYMOUS: i32 = 0x22;

extern "C" {
    fn mmap(at: *mut c_void, len: usize, prot: i32, flags: i32, fd: i32, offset: i64) -> *mut c_void;
    fn mprotect(at: *mut c_void, len: usize, prot: i32) -> i32;
    fn munmap(at: *mut c_void, len: usize) -> i32;
}

pub struct Guarded {
    map: *mut u8,
    len: usize,
}

impl Guarded {
    /// Room for so many bytes, rounded up to whole pages.
    pub fn new(room: usize) -> Guarded {
        let inner = room.div_ceil(PAGE).max(1) * PAGE;
        let len = inner + 2 * PAGE;
        unsafe {
            let map = mmap(std::ptr::null_mut(), len, 0, PRIVATE_ANONYMOUS, -1, 0);
            assert!(map as isize != -1, "mmap failed");
            let map = map as *mut u8;
            assert_eq!(mprotect(map.add(PAGE) as *mut c_void, inner, READ_WRITE), 0);
            Guarded { map, len }
        }
    }

    /// The bytes just before the page that follows.
    pub fn at_end(&mut self, bytes: &[u8]) -> &mut [u8] {
        assert!(bytes.len() <= self.len - 2 * PAGE);
        unsafe { self.put(self.map.add(self.len - PAGE - bytes.len()), bytes) }
    }

    /// The bytes just after the page before.
    pub fn at_start(&mut self, bytes: &[u8]) -> &mut [u8] {
        assert!(bytes.len() <= self.len - 2 * PAGE);
        unsafe { self.put(self.map.add(PAGE), bytes) }
    }

    unsafe fn put(&mut self, at: *mut u8, bytes: &[u8]) -> &mut [u8] {
        let slice = std::slice::from_raw_parts_mut(at, bytes.len());
        slice.copy_from_slice(bytes);
        slice
    }
}

impl Drop for Guarded {
    fn drop(&mut self) {
        unsafe {
            munmap(self.map as *mut c_void, self.len);
        }
    }
}
