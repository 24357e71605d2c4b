//! Tables whose neighbours in memory cannot be touched.

use std::ffi::c_void;
use std::marker::PhantomData;

const READ: i32 = 1;
const READ_WRITE: i32 = 3;
const NONE: i32 = 0;
const PRIVATE_ANONYMOUS: i32 = 0x22;

/// A whole number of pages, whatever the size of a page.
const MARGIN: usize = 64 * 1024;
const ROOM: usize = 2 * 64 * 1024;

extern "C" {
    fn mmap(
        at: *mut c_void,
        size: usize,
        access: i32,
        flags: i32,
        file: i32,
        offset: i64,
    ) -> *mut c_void;
    fn mprotect(at: *mut c_void, size: usize, access: i32) -> i32;
    fn munmap(at: *mut c_void, size: usize) -> i32;
}

/// Where the table lies in its room.
#[derive(Clone, Copy, Debug)]
pub enum Edge {
    /// Its first entry is the first of the room.
    Begins,
    /// Its last entry is the last of the room.
    Ends,
}

/// Room for a table of 32-bit entries between two stretches that cannot be accessed.
pub struct Guarded<T> {
    base: *mut u8,
    entries: PhantomData<T>,
}

impl<T: Copy> Guarded<T> {
    pub fn new() -> Guarded<T> {
        let size = ROOM + 2 * MARGIN;
        // SAFETY: a fresh mapping, of which only the room in the middle is made accessible
        let base = unsafe { mmap(std::ptr::null_mut(), size, NONE, PRIVATE_ANONYMOUS, -1, 0) };
        assert_ne!(base as isize, -1, "no memory was mapped");
        let guarded = Guarded {
            base: base as *mut u8,
            entries: PhantomData,
        };
        guarded.allow(READ_WRITE);
        guarded
    }

    fn room(&self) -> *mut u8 {
        // SAFETY: the room lies within the mapping
        unsafe { self.base.add(MARGIN) }
    }

    fn allow(&self, access: i32) {
        // SAFETY: the room is a whole number of pages of the mapping
        let failed = unsafe { mprotect(self.room() as *mut c_void, ROOM, access) };
        assert_eq!(failed, 0, "the access could not be set");
    }

    /// Copies the entries to an edge of the room, to be read only.
    pub fn read_only(&mut self, entries: &[T], edge: Edge) -> &[T] {
        self.writable(entries, edge);
        self.allow(READ);
        // SAFETY: the entries were just written there
        unsafe { std::slice::from_raw_parts(self.start(entries.len(), edge), entries.len()) }
    }

    /// Copies the entries to an edge of the room, to be read and written.
    pub fn writable(&mut self, entries: &[T], edge: Edge) -> &mut [T] {
        self.allow(READ_WRITE);
        let start = self.start(entries.len(), edge);
        // SAFETY: the entries fit into the room, which is ours alone
        unsafe {
            std::ptr::copy_nonoverlapping(entries.as_ptr(), start, entries.len());
            std::slice::from_raw_parts_mut(start, entries.len())
        }
    }

    fn start(&self, count: usize, edge: Edge) -> *mut T {
        let size = count * std::mem::size_of::<T>();
        assert!(size <= ROOM, "the table does not fit");
        let offset = match edge {
            Edge::Begins => 0,
            Edge::Ends => ROOM - size,
        };
        // SAFETY: the offset lies within the room
        unsafe { self.room().add(offset) as *mut T }
    }
}

/// A table far longer than 32 bits can count, of which only the first entries are ever written.
pub struct Vast<T> {
    base: *mut u8,
    count: usize,
    entries: PhantomData<T>,
}

impl<T: Copy> Vast<T> {
    pub fn new(first: &[T], count: usize) -> Vast<T> {
        let size = count * std::mem::size_of::<T>();
        // SAFETY: a fresh mapping, read only but for its beginning
        let base = unsafe { mmap(std::ptr::null_mut(), size, READ, PRIVATE_ANONYMOUS, -1, 0) };
        assert_ne!(base as isize, -1, "no memory was mapped");
        // SAFETY: the beginning is a whole number of pages, and the first entries fit
        unsafe {
            assert_eq!(mprotect(base, MARGIN, READ_WRITE), 0);
            assert!(std::mem::size_of_val(first) <= MARGIN);
            std::ptr::copy_nonoverlapping(first.as_ptr(), base as *mut T, first.len());
        }
        Vast {
            base: base as *mut u8,
            count,
            entries: PhantomData,
        }
    }

    pub fn entries(&mut self) -> &mut [T] {
        // SAFETY: all of it is mapped; writing beyond the beginning would end the process
        unsafe { std::slice::from_raw_parts_mut(self.base as *mut T, self.count) }
    }
}

impl<T> Drop for Vast<T> {
    fn drop(&mut self) {
        let size = self.count * std::mem::size_of::<T>();
        // SAFETY: the mapping is not used any more
        unsafe { munmap(self.base as *mut c_void, size) };
    }
}

impl<T: Copy> Default for Guarded<T> {
    fn default() -> Guarded<T> {
        Guarded::new()
    }
}

impl<T> Drop for Guarded<T> {
    fn drop(&mut self) {
        // SAFETY: the mapping is not used any more
        unsafe { munmap(self.base as *mut c_void, ROOM + 2 * MARGIN) };
    }
}
