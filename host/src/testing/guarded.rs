//! Memory that ends flush against a page that cannot be touched, so that a read or write past its end traps.

use std::ffi::c_void;
use std::marker::PhantomData;
use std::ops::{Deref, DerefMut};

const PAGE: usize = 4096;
const PROT_NONE: i32 = 0;
const PROT_READ_WRITE: i32 = 3;
const MAP_PRIVATE_ANONYMOUS: i32 = 0x22;
/// Pages take memory only when they are touched.
const MAP_NORESERVE: i32 = 0x4000;

extern "C" {
    fn mmap(at: *mut c_void, length: usize, protection: i32, flags: i32, file: i32, offset: i64) -> *mut c_void;
    fn mprotect(at: *mut c_void, length: usize, protection: i32) -> i32;
    fn munmap(at: *mut c_void, length: usize) -> i32;
}

/// A list of plain numbers in such memory.
pub struct Guarded<T: Copy> {
    pages: *mut u8,
    length: usize,
    pages_length: usize,
    items: PhantomData<T>,
}

impl<T: Copy> Guarded<T> {
    pub fn new(from: &[T]) -> Guarded<T> {
        let mut made = Guarded::mapped(from.len()).expect("memory");
        made.copy_from_slice(from);
        made
    }

    /// A list whose bytes are all zero; nothing where there is no address space for it.
    fn mapped(length: usize) -> Option<Guarded<T>> {
        let used = (length * std::mem::size_of::<T>()).div_ceil(PAGE).max(1) * PAGE;
        let flags = MAP_PRIVATE_ANONYMOUS | MAP_NORESERVE;
        // SAFETY: a fresh mapping of our own, whose last page is then closed; nothing else knows its address.
        let pages = unsafe {
            let at = mmap(std::ptr::null_mut(), used + PAGE, PROT_READ_WRITE, flags, -1, 0);
            if at as isize == -1 {
                return None;
            }
            assert_eq!(mprotect(at.cast::<u8>().add(used).cast(), PAGE, PROT_NONE), 0);
            at.cast::<u8>()
        };
        Some(Guarded { pages, length, pages_length: used + PAGE, items: PhantomData })
    }

    fn start(&self) -> *mut T {
        let bytes = self.length * std::mem::size_of::<T>();
        // SAFETY: the list ends where the closed page begins, inside the mapping; T's size divides the page's.
        unsafe { self.pages.add(self.pages_length - PAGE - bytes).cast() }
    }
}

impl Guarded<u16> {
    /// So many zeros, of which only those that are touched take memory; nothing where there is no address space.
    pub fn zeros(length: usize) -> Option<Guarded<u16>> {
        Guarded::mapped(length)
    }
}

impl<T: Copy> Deref for Guarded<T> {
    type Target = [T];

    fn deref(&self) -> &[T] {
        // SAFETY: `length` items from `start` on are mapped, initialised (zero or copied) and owned by self.
        unsafe { std::slice::from_raw_parts(self.start(), self.length) }
    }
}

impl<T: Copy> DerefMut for Guarded<T> {
    fn deref_mut(&mut self) -> &mut [T] {
        // SAFETY: as for deref, and self is borrowed for writing.
        unsafe { std::slice::from_raw_parts_mut(self.start(), self.length) }
    }
}

impl<T: Copy> Drop for Guarded<T> {
    fn drop(&mut self) {
        // SAFETY: the mapping that `new` made, and no slice of it outlives self.
        unsafe { munmap(self.pages.cast(), self.pages_length) };
    }
}
