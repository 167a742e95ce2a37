//! Memory between two pages that can't be touched. What is handed to the
//! library stands right against one of them, so that a byte touched outside
//! is a crash.

use std::ffi::c_void;

extern "C" {
    fn mmap(
        address: *mut c_void,
        length: usize,
        protection: i32,
        flags: i32,
        file: i32,
        offset: i64,
    ) -> *mut c_void;
    fn mprotect(address: *mut c_void, length: usize, protection: i32) -> i32;
}

const PAGE: usize = 4096;
const PROT_NONE: i32 = 0;
const PROT_READ_WRITE: i32 = 3;
const MAP_PRIVATE_ANONYMOUS: i32 = 0x22;

/// Which guard page the bytes stand against.
#[derive(Clone, Copy, Debug, PartialEq, Eq)]
pub enum Side {
    Start,
    End,
}

pub struct Guarded {
    start: *mut u8,
    bytes: usize,
}

impl Guarded {
    /// Room for `bytes`, rounded up to whole pages.
    pub fn new(bytes: usize) -> Guarded {
        let bytes = bytes.div_ceil(PAGE) * PAGE;
        // SAFETY: a fresh mapping, of which only the middle is opened.
        let start = unsafe {
            let all = bytes + 2 * PAGE;
            let map = mmap(
                std::ptr::null_mut(),
                all,
                PROT_NONE,
                MAP_PRIVATE_ANONYMOUS,
                -1,
                0,
            );
            assert!(map as isize != -1, "mmap");
            let start = map.cast::<u8>().add(PAGE);
            assert_eq!(mprotect(start.cast(), bytes, PROT_READ_WRITE), 0);
            start
        };
        Guarded { start, bytes }
    }

    /// The first or the last `length` bytes of the room.
    pub fn place(&mut self, length: usize, side: Side) -> &mut [u8] {
        assert!(length <= self.bytes);
        let from = match side {
            Side::Start => 0,
            Side::End => self.bytes - length,
        };
        // SAFETY: inside the mapping, which lives as long as the program; the
        // borrow of `self` keeps slices apart.
        unsafe { std::slice::from_raw_parts_mut(self.start.add(from), length) }
    }

    /// The room's first byte. It stays mapped as long as the program runs.
    pub fn start(&self) -> *mut u8 {
        self.start
    }

    /// A copy of the bytes against a side.
    pub fn put(&mut self, bytes: &[u8], side: Side) -> &mut [u8] {
        let place = self.place(bytes.len(), side);
        place.copy_from_slice(bytes);
        place
    }
}
