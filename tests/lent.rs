//! Memory to lend to the library: bytes that must not change stand around each column, and at both ends of a yard lies a page that may not
//! be touched at all, so that a read or write past a column is seen.

use crate::random::Random;
use std::ffi::c_void;

extern "C" {
    fn mmap(start: *mut c_void, length: usize, protection: i32, flags: i32, file: i32, offset: i64) -> *mut c_void;
    fn mprotect(start: *mut c_void, length: usize, protection: i32) -> i32;
}

const PAGE: usize = 4096;
const READ_WRITE: i32 = 3;
const NO_ACCESS: i32 = 0;
const PRIVATE_ANONYMOUS: i32 = 0x22;
const GUARD: usize = 64;

pub struct Yard {
    start: *mut u8,
    size: usize,
    offset: usize,
    length: usize,
    before: Vec<u8>,
    after: Vec<u8>,
}

impl Yard {
    /// A yard for at least `size` bytes.
    pub fn new(size: usize) -> Yard {
        let size = (size + 4 * GUARD).div_ceil(PAGE) * PAGE;
        unsafe {
            let whole = mmap(std::ptr::null_mut(), size + 2 * PAGE, READ_WRITE, PRIVATE_ANONYMOUS, -1, 0) as *mut u8;
            assert!(whole as isize != -1, "no memory");
            let start = whole.add(PAGE);
            assert!(mprotect(whole as *mut c_void, PAGE, NO_ACCESS) == 0);
            assert!(mprotect(start.add(size) as *mut c_void, PAGE, NO_ACCESS) == 0);
            Yard { start, size, offset: 0, length: 0, before: Vec::new(), after: Vec::new() }
        }
    }

    fn bytes(&mut self, from: usize, to: usize) -> &mut [u8] {
        assert!(from <= to && to <= self.size);
        unsafe { std::slice::from_raw_parts_mut(self.start.add(from), to - from) }
    }

    /// Puts the contents somewhere in the yard: at its end, at its start or between, with guards on both sides as far as there is room.
    pub fn lend<'a, T: Copy>(&mut self, contents: &[T], random: &mut Random) -> &'a mut [T] {
        let unit = std::mem::size_of::<T>();
        self.length = contents.len() * unit;
        assert!(self.length + 4 * GUARD <= self.size, "yard too small");
        self.offset = match random.below(3) {
            0 => self.size - self.length,
            1 => 0,
            _ => GUARD + random.below(GUARD / unit) * unit,
        };
        let (offset, end) = (self.offset, self.offset + self.length);
        // bytes that a reader might take for more of its text
        let byte = random.pick(b"\n\r\",07-\xFF");
        let (low, high) = (offset.saturating_sub(GUARD), (end + GUARD).min(self.size));
        self.bytes(low, offset).fill(byte);
        self.bytes(end, high).fill(byte);
        self.before = self.bytes(low, offset).to_vec();
        self.after = self.bytes(end, high).to_vec();
        unsafe {
            let place = self.start.add(offset) as *mut T;
            std::ptr::copy_nonoverlapping(contents.as_ptr(), place, contents.len());
            std::slice::from_raw_parts_mut(place, contents.len())
        }
    }

    /// Whether the lent part holds `contents` now and nothing around it has changed.
    pub fn holds<T: Copy + PartialEq>(&mut self, contents: &[T]) -> bool {
        let (offset, end) = (self.offset, self.offset + self.length);
        let (low, high) = (offset - self.before.len(), end + self.after.len());
        let now = unsafe { std::slice::from_raw_parts(self.start.add(offset) as *const T, contents.len()) };
        now == contents && self.bytes(low, offset).to_vec() == self.before && self.bytes(end, high).to_vec() == self.after
    }
}
