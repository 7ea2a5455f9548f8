//! A buffer that is lent to the port. It stands against a page that nobody may touch, the one behind it or the one before it:
//! a step over that edge ends the run. What stands around and in it is filled with a pattern first, so that each byte that a
//! call alters is seen.
use std::ffi::{c_int, c_long, c_void};
use std::mem::size_of;

extern "C" {
    fn mmap(
        at: *mut c_void,
        len: usize,
        may: c_int,
        flags: c_int,
        file: c_int,
        from: c_long,
    ) -> *mut c_void;
    fn mprotect(at: *mut c_void, len: usize, may: c_int) -> c_int;
}

const PAGE: usize = 4096;
const NOTHING: c_int = 0;
const READ_WRITE: c_int = 1 | 2;
const PRIVATE_ANONYMOUS: c_int = 2 | 0x20;

/// How many elements beside the buffer are filled and looked at.
const MARGIN: usize = 64;

/// An element of a buffer, and the pattern that it is filled with: another one at each place and each time.
pub trait Element: Copy + PartialEq {
    fn pattern(time: u64, place: usize) -> Self;
}

impl Element for u8 {
    fn pattern(time: u64, place: usize) -> u8 {
        (time.wrapping_mul(151) as u8).wrapping_add((place as u8).wrapping_mul(29))
    }
}

impl Element for u64 {
    fn pattern(time: u64, place: usize) -> u64 {
        (time + place as u64 + 1).wrapping_mul(0x9E37_79B9_7F4A_7C15)
    }
}

pub struct Lent<T: Element> {
    /// The pages between the two guards, and how many elements they have.
    pages: *mut T,
    size: usize,
    /// The buffer lent last: its first element, how many, and the pattern's time.
    from: usize,
    len: usize,
    time: u64,
}

impl<T: Element> Lent<T> {
    /// Room for buffers of up to so many elements.
    pub fn new(most: usize) -> Self {
        let bytes = (most * size_of::<T>()).div_ceil(PAGE).max(1) * PAGE;
        let all = bytes + 2 * PAGE;
        // Nobody may touch the first page and the last one.
        let base = unsafe { mmap(std::ptr::null_mut(), all, NOTHING, PRIVATE_ANONYMOUS, -1, 0) };
        assert!(base as isize != -1, "no memory");
        let pages = unsafe { base.byte_add(PAGE) };
        let opened = unsafe { mprotect(pages, bytes, READ_WRITE) };
        assert!(opened == 0, "no pages that can be written");
        Lent {
            pages: pages.cast(),
            size: bytes / size_of::<T>(),
            from: 0,
            len: 0,
            time: 0,
        }
    }

    /// A buffer of so many elements, filled with the pattern: three times of four it ends at the guard page behind it, else it
    /// starts at the one before it.
    pub fn lend(&mut self, len: usize) -> &mut [T] {
        assert!(len <= self.size);
        self.time += 1;
        self.len = len;
        let turn = self.time.wrapping_mul(0x9E37_79B9_7F4A_7C15) >> 62;
        self.from = if turn == 0 { 0 } else { self.size - len };
        let (first, behind) = self.looked_at();
        for place in first..behind {
            unsafe { *self.pages.add(place) = T::pattern(self.time, place) };
        }
        self.again()
    }

    /// The same, with these elements in it.
    pub fn lend_copy(&mut self, elements: &[T]) -> &mut [T] {
        self.lend(elements.len()).copy_from_slice(elements);
        self.again()
    }

    /// The buffer lent last, once more, with what it holds now.
    pub fn again(&mut self) -> &mut [T] {
        unsafe { std::slice::from_raw_parts_mut(self.pages.add(self.from), self.len) }
    }

    /// So many elements of the buffer from a place on, as they are now.
    pub fn part(&self, at: usize, count: usize) -> &[T] {
        assert!(at + count <= self.len);
        unsafe { std::slice::from_raw_parts(self.pages.add(self.from + at), count) }
    }

    fn looked_at(&self) -> (usize, usize) {
        let behind = (self.from + self.len + MARGIN).min(self.size);
        (self.from.saturating_sub(MARGIN), behind)
    }

    /// Whether the buffer has these elements from a place on, and all else, in it and beside it, is as it was filled.
    pub fn holds_only(&self, at: usize, written: &[T]) -> bool {
        let (first, behind) = self.looked_at();
        let start = self.from + at;
        self.part(at, written.len()) == written
            && self.as_filled(first, start)
            && self.as_filled(start + written.len(), behind)
    }

    /// Whether the elements between two places of the pages are as they were filled. Looks at all, which is fast.
    fn as_filled(&self, first: usize, behind: usize) -> bool {
        let altered =
            |place: usize| unsafe { *self.pages.add(place) } != T::pattern(self.time, place);
        !(first..behind).fold(false, |any, place| any | altered(place))
    }
}
