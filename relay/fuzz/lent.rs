//! Buffers to lend, each between two pages that nobody may touch, where the system has them.
//!
//! What is lent lies right beside one of its two pages, now the one before it and now the one after it, so that even a read of one
//! byte too many ends the program. Between it and the other page, and on both sides where there are no such pages, are guard bytes,
//! which a write would change.
use std::{cell::Cell, cell::RefCell, collections::BTreeMap};

/// The most guard bytes on a side.
const GUARD: usize = 64;

/// Memory with a page before it and a page after it that nobody may touch.
#[cfg(all(target_os = "linux", any(target_arch = "x86_64", target_arch = "aarch64")))]
mod pages {
    use std::ffi::c_void;

    extern "C" {
        fn mmap(at: *mut c_void, length: usize, protection: i32, flags: i32, file: i32, offset: i64) -> *mut c_void;
        fn mprotect(at: *mut c_void, length: usize, protection: i32) -> i32;
        fn sysconf(name: i32) -> i64;
    }

    const NOBODY: i32 = 0;
    const READ_AND_WRITE: i32 = 3;
    const PRIVATE_AND_ANONYMOUS: i32 = 0x22;
    const PAGE_SIZE: i32 = 30;

    pub const GUARDED: bool = true;

    pub fn page() -> usize {
        // SAFETY: a question.
        let bytes = unsafe { sysconf(PAGE_SIZE) };
        usize::try_from(bytes).expect("the system's page size")
    }

    /// `room` bytes, a multiple of a page, which are never given back.
    pub fn map(room: usize) -> *mut u8 {
        let page = page();
        // SAFETY: new memory of the process's own; all of it is closed, then the middle is opened.
        unsafe {
            let nowhere = std::ptr::null_mut();
            let at = mmap(nowhere, room + 2 * page, NOBODY, PRIVATE_AND_ANONYMOUS, -1, 0);
            assert_ne!(at as isize, -1, "mmap of {room} bytes");
            let middle = at.byte_add(page);
            assert_eq!(mprotect(middle, room, READ_AND_WRITE), 0, "mprotect of {room} bytes");
            middle.cast()
        }
    }
}

/// Memory without such pages.
#[cfg(not(all(target_os = "linux", any(target_arch = "x86_64", target_arch = "aarch64"))))]
mod pages {
    pub const GUARDED: bool = false;

    pub fn page() -> usize {
        4096
    }

    /// `room` bytes, a multiple of a page, which are never given back.
    pub fn map(room: usize) -> *mut u8 {
        Vec::leak(vec![0u64; room / 8]).as_mut_ptr().cast()
    }
}

pub use pages::GUARDED;

thread_local! {
    /// Memory that is not lent now, by its size.
    static FREE: RefCell<BTreeMap<usize, Vec<*mut u8>>> = const { RefCell::new(BTreeMap::new()) };
    /// Which side is next.
    static SIDES: Cell<u64> = const { Cell::new(1) };
    /// The size of a page.
    static PAGE: usize = pages::page();
}

/// Begins the sides anew, so that an input that is tried alone has the sides that it had among others.
pub fn begin(input: u64) {
    SIDES.set(input.wrapping_mul(0x9E37_79B9_7F4A_7C15) | 1);
}

/// The next side: true for the page after.
fn after() -> bool {
    let mut next = SIDES.get();
    next ^= next << 13;
    next ^= next >> 7;
    next ^= next << 17;
    SIDES.set(next);
    next >> 40 & 1 == 1
}

/// Numbers that a buffer can hold.
pub trait Word: Copy + PartialEq + std::fmt::Debug {}
impl Word for u8 {}
impl Word for u16 {}
impl Word for u32 {}
impl Word for u64 {}

/// A buffer that can be lent.
pub struct Lent<T> {
    region: *mut u8,
    room: usize,
    /// Where the content begins in the region.
    start: usize,
    content: *mut T,
    length: usize,
}

impl<T: Word> Lent<T> {
    pub fn new(content: &[T]) -> Self {
        Self::beside(content, after())
    }

    /// A buffer right beside the page after it, or the one before it.
    pub fn beside(content: &[T], after: bool) -> Self {
        let bytes = size_of_val(content);
        let room = (bytes + 2 * GUARD).next_power_of_two().max(PAGE.with(|page| *page));
        let region =
            FREE.with_borrow_mut(|free| free.entry(room).or_default().pop()).unwrap_or_else(|| pages::map(room));
        let start = match (GUARDED, after) {
            (false, _) => GUARD,
            (true, false) => 0,
            (true, true) => room - bytes,
        };
        // SAFETY: content and guard bytes lie in the region, which nobody else has; a region and each end of it are aligned for T.
        unsafe {
            let at = region.add(start).cast::<T>();
            std::ptr::copy_nonoverlapping(content.as_ptr(), at, content.len());
            let lent = Self { region, room, start, content: at, length: content.len() };
            for place in lent.guards() {
                *region.add(place) = guard(place);
            }
            lent
        }
    }

    pub fn at(&self) -> *const T {
        self.content
    }

    pub fn at_mut(&mut self) -> *mut T {
        self.content
    }

    /// The content, once the guard bytes are seen to be whole.
    pub fn content(&self, what: &str) -> &[T] {
        // SAFETY: guard bytes and content lie in the region, which nobody else has now.
        unsafe {
            let whole = self.guards().all(|place| *self.region.add(place) == guard(place));
            assert!(whole, "a guard byte beside {what} was changed");
            std::slice::from_raw_parts(self.content, self.length)
        }
    }

    pub fn unchanged(&self, what: &str, before: &[T]) {
        assert!(self.content(what) == before, "{what}, lent for reading, was changed");
    }

    /// The places of the guard bytes: those beside the content, as far as the region goes.
    fn guards(&self) -> impl Iterator<Item = usize> {
        let end = self.start + self.length * size_of::<T>();
        (self.start.saturating_sub(GUARD)..self.start).chain(end..(end + GUARD).min(self.room))
    }
}

/// The guard byte of a place.
fn guard(place: usize) -> u8 {
    (0x9E37_79B9_7F4A_7C15u64.wrapping_mul(place as u64 + 3) >> 7) as u8
}

impl<T> Drop for Lent<T> {
    fn drop(&mut self) {
        FREE.with_borrow_mut(|free| free.entry(self.room).or_default().push(self.region));
    }
}
