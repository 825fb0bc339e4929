//! Memory to lend to a call: a slice stands against a page that nobody may touch, at its end or at its start, so that a read or a write over
//! that border ends the program; on the other side a margin of known bytes shows a write.

use std::ffi::c_void;
use std::ptr;

const PAGE: usize = 4096;
/// The known bytes beside a slice.
const MARGIN: usize = 256;
const KNOWN: u8 = 0xa5;

/// Of the C library, which Rust's own links: x86-64 Linux.
const NO_ACCESS: i32 = 0;
const READ_WRITE: i32 = 3;
const PRIVATE_ANONYMOUS: i32 = 0x22;
extern "C" {
    fn mmap(
        at: *mut c_void,
        size: usize,
        access: i32,
        how: i32,
        file: i32,
        from: i64,
    ) -> *mut c_void;
    fn mprotect(at: *mut c_void, size: usize, access: i32) -> i32;
}

/// Whole pages between two that may not be touched, and the slice in them that is lent.
pub struct Room {
    first: *mut u8,
    size: usize,
    at: usize,
    length: usize,
}

impl Room {
    /// A room for slices up to this length.
    pub fn new(most: usize) -> Room {
        let size = (most + MARGIN + PAGE - 1) / PAGE * PAGE;
        // SAFETY: fresh pages, of which nobody else knows; the inner ones are opened.
        let first = unsafe {
            let all = mmap(
                ptr::null_mut(),
                size + 2 * PAGE,
                NO_ACCESS,
                PRIVATE_ANONYMOUS,
                -1,
                0,
            );
            assert!(all as isize != -1, "no memory");
            let first = all.cast::<u8>().add(PAGE);
            assert_eq!(mprotect(first.cast(), size, READ_WRITE), 0, "no memory");
            first
        };
        Room {
            first,
            size,
            at: 0,
            length: 0,
        }
    }

    /// All bytes of the room.
    fn bytes(&mut self) -> &mut [u8] {
        // SAFETY: the inner pages are this room's alone, and no call that was lent a part of them is under way.
        unsafe { std::slice::from_raw_parts_mut(self.first, self.size) }
    }

    /// Puts the bytes against the end or the start of the room, with the margin on their other side.
    pub fn put(&mut self, bytes: &[u8], at_end: bool) {
        assert!(bytes.len() + MARGIN <= self.size, "the room is too small");
        self.length = bytes.len();
        self.at = if at_end { self.size - bytes.len() } else { 0 };
        let (at, length) = (self.at, self.length);
        let margin = self.margin();
        let room = self.bytes();
        room[at..at + length].copy_from_slice(bytes);
        room[margin..margin + MARGIN].fill(KNOWN);
    }

    /// Where the margin starts.
    fn margin(&self) -> usize {
        if self.at == 0 {
            self.length
        } else {
            self.at - MARGIN
        }
    }

    /// The pointer to lend; of no bytes also null, which the header permits.
    pub fn pointer(&mut self, null: bool) -> *mut u8 {
        if null && self.length == 0 {
            return ptr::null_mut();
        }
        let at = self.at;
        self.bytes()[at..].as_mut_ptr()
    }

    /// The bytes that were lent, as they are now.
    pub fn lent(&mut self) -> &[u8] {
        let (at, length) = (self.at, self.length);
        &self.bytes()[at..at + length]
    }

    /// The margin has its bytes.
    pub fn margin_kept(&mut self) -> bool {
        let margin = self.margin();
        self.bytes()[margin..margin + MARGIN]
            .iter()
            .all(|byte| *byte == KNOWN)
    }
}
