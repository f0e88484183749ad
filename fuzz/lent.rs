//! Memory to lend, that ends where memory ends: one byte read or written behind it stops the program.

use std::ffi::c_void;

/// The largest page of a machine: smaller ones end there too.
const PAGE: usize = 65_536;
const READ_WRITE: i32 = 3;
const NOTHING: i32 = 0;
const PRIVATE_ANONYMOUS: i32 = 0x22;

extern "C" {
    fn mmap(
        at: *mut c_void,
        length: usize,
        may: i32,
        how: i32,
        file: i32,
        offset: i64,
    ) -> *mut c_void;
    fn mprotect(at: *mut c_void, length: usize, may: i32) -> i32;
}

pub struct Lent {
    end: *mut u8,
    most: usize,
}

impl Lent {
    /// At most `most` bytes can be lent at once.
    pub fn new(most: usize) -> Lent {
        let most = most.next_multiple_of(PAGE);
        // SAFETY: fresh pages, wanted nowhere in particular; the last of them may not be touched.
        unsafe {
            let first = mmap(
                std::ptr::null_mut(),
                most + PAGE,
                READ_WRITE,
                PRIVATE_ANONYMOUS,
                -1,
                0,
            ) as *mut u8;
            assert!(first as isize != -1, "memory is short");
            let end = first.add(most);
            assert!(
                mprotect(end.cast(), PAGE, NOTHING) == 0,
                "the guard can't be set"
            );
            Lent { end, most }
        }
    }

    /// The last `length` bytes.
    pub fn last(&mut self, length: usize) -> &mut [u8] {
        assert!(length <= self.most);
        // SAFETY: these bytes are ours, written by nobody else, and lent for as long as `self` is.
        unsafe { std::slice::from_raw_parts_mut(self.end.sub(length), length) }
    }

    /// The last `many` words.
    pub fn last_words(&mut self, many: usize) -> &mut [u64] {
        // SAFETY: any bytes are numbers; they end where a page does, so all of them are whole words.
        let (_, words, _) = unsafe { self.last(8 * many).align_to_mut::<u64>() };
        words
    }
}
