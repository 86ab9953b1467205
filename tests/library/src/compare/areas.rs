//! Memory to lend buffers from. Before and behind it there is a page that may not be touched, and a buffer lies against
//! one of the two: a call that reads or writes beyond that end of it, be it by one byte, ends the run.

use std::ops::Range;
use std::ptr;
use std::slice;

const PAGE: usize = 4096;

/// So many bytes on the other side of a buffer are looked at.
const NEAR: usize = 64;

/// As x86-64 Linux has them.
const MAY_NOTHING: i32 = 0;
const MAY_READ: i32 = 1;
const MAY_READ_AND_WRITE: i32 = 3;
const PRIVATE_WITHOUT_FILE: i32 = 0x22;
const NO_FILE: i32 = -1;

extern "C" {
    fn mmap(at: *mut u8, len: usize, may: i32, kind: i32, file: i32, offset: i64) -> *mut u8;
    fn mprotect(at: *mut u8, len: usize, may: i32) -> i32;
}

/// Which page a buffer lies against.
#[derive(Clone, Copy, PartialEq, Eq, PartialOrd, Ord, Debug)]
pub enum Side {
    Before,
    Behind,
}

/// The pages between the two. They stay until the run ends.
pub struct Area {
    start: *mut u8,
    len: usize,
}

impl Area {
    /// With room for so many bytes.
    pub fn of(len: usize) -> Area {
        let len = len.next_multiple_of(PAGE);
        let kind = PRIVATE_WITHOUT_FILE;
        let pages = unsafe {
            mmap(
                ptr::null_mut(),
                len + 2 * PAGE,
                MAY_NOTHING,
                kind,
                NO_FILE,
                0,
            )
        };
        assert!(pages as isize != -1, "there is no memory");
        let start = pages.wrapping_add(PAGE);
        let area = Area { start, len };
        area.allow(MAY_READ_AND_WRITE);
        area
    }

    fn allow(&self, may: i32) {
        let answer = unsafe { mprotect(self.start, self.len, may) };
        assert_eq!(answer, 0, "the pages are there");
    }

    /// The place of a buffer of so many bytes.
    pub fn place(&self, len: usize, side: Side) -> Place {
        let start = match side {
            Side::Before => 0,
            Side::Behind => self.len - len,
        };
        let buffer = start..start + len;
        let near = start.saturating_sub(NEAR)..(buffer.end + NEAR).min(self.len);
        Place { buffer, near }
    }

    /// The buffer at a place, as a caller lends it.
    pub fn lent(&mut self, place: &Place) -> &mut [u8] {
        &mut self.bytes()[place.buffer.clone()]
    }

    /// The buffer and the bytes near it.
    pub fn near(&mut self, place: &Place) -> &mut [u8] {
        &mut self.bytes()[place.near.clone()]
    }

    /// The bytes as a caller lends them. To write to them ends the run too.
    pub fn holding(&mut self, bytes: &[u8], side: Side) -> &[u8] {
        self.allow(MAY_READ_AND_WRITE);
        let place = self.place(bytes.len(), side);
        self.lent(&place).copy_from_slice(bytes);
        self.allow(MAY_READ);
        self.lent(&place)
    }

    fn bytes(&mut self) -> &mut [u8] {
        unsafe { slice::from_raw_parts_mut(self.start, self.len) }
    }
}

/// Where a buffer is in an area, and the bytes to both sides of it that are looked at.
pub struct Place {
    buffer: Range<usize>,
    near: Range<usize>,
}

impl Place {
    /// Where the buffer is among the bytes near it.
    pub fn within(&self) -> Range<usize> {
        let before = self.near.start;
        self.buffer.start - before..self.buffer.end - before
    }
}

#[cfg(test)]
mod tests {
    use super::*;
    use std::fs::File;
    use std::os::fd::AsRawFd;

    extern "C" {
        fn read(file: i32, to: *mut u8, len: usize) -> isize;
        fn write(file: i32, from: *const u8, len: usize) -> isize;
    }

    /// Whether a byte may be written there. Where it may not, the system tells so in place of ending the run.
    fn may_be_written(at: *mut u8) -> bool {
        let zeros = File::open("/dev/zero").unwrap();
        unsafe { read(zeros.as_raw_fd(), at, 1) == 1 }
    }

    fn may_be_read(at: *const u8) -> bool {
        let (_reader, writer) = std::io::pipe().unwrap();
        unsafe { write(writer.as_raw_fd(), at, 1) == 1 }
    }

    #[test]
    fn a_buffer_lies_against_a_page_that_may_not_be_touched() {
        let mut area = Area::of(PAGE + 1);
        for len in [0, 1, 100, 2 * PAGE] {
            for side in [Side::Before, Side::Behind] {
                let place = area.place(len, side);
                let buffer = area.lent(&place);
                assert_eq!(buffer.len(), len);
                let Range { start, end } = buffer.as_mut_ptr_range();
                let (last, beyond) = match side {
                    Side::Before => (start, start.wrapping_sub(1)),
                    Side::Behind => (end.wrapping_sub(1), end),
                };
                assert!(may_be_written(last) && may_be_read(last));
                assert!(!may_be_written(beyond) && !may_be_read(beyond));
            }
        }
    }

    #[test]
    fn what_an_area_holds_may_be_read_alone() {
        let mut area = Area::of(1);
        for side in [Side::Before, Side::Behind] {
            for bytes in [&b"n=5\n"[..], b"d"] {
                let held = area.holding(bytes, side);
                assert_eq!(held, bytes);
                let start = held.as_ptr();
                assert!(may_be_read(start) && !may_be_written(start.cast_mut()));
            }
        }
    }

    #[test]
    fn bytes_on_the_other_side_are_near() {
        let area = Area::of(PAGE);
        let before = area.place(10, Side::Before);
        assert_eq!((before.within(), before.near), (0..10, 0..10 + NEAR));
        let behind = area.place(10, Side::Behind);
        assert_eq!(behind.within(), NEAR..NEAR + 10);
        assert_eq!(behind.near, PAGE - 10 - NEAR..PAGE);
        assert_eq!(area.place(PAGE, Side::Behind).within(), 0..PAGE);
    }
}
