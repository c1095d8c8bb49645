//! Buffers between two pages that nothing may touch.

use crate::sys::{self, PAGE, PROT_NONE, PROT_READ, PROT_WRITE};
use std::marker::PhantomData;
use std::slice;

/// Which of the two pages a lent buffer lies against.
#[derive(Clone, Copy, Debug, PartialEq)]
pub enum Press {
    Front,
    Back,
}

pub const PRESSES: [Press; 2] = [Press::Front, Press::Back];

/// Room for the same contents twice: right behind the page before, and right before the page behind.
pub struct Guarded<T> {
    at: *mut u8,
    room: usize, // bytes between the two pages
    len: usize,
    kind: PhantomData<T>,
}

impl<T: Copy> Default for Guarded<T> {
    fn default() -> Self {
        let mut empty = Guarded {
            at: std::ptr::null_mut(),
            room: 0,
            len: 0,
            kind: PhantomData,
        };
        empty.make_room(1);
        empty
    }
}

impl<T> Drop for Guarded<T> {
    fn drop(&mut self) {
        // SAFETY: made by `make_room`.
        unsafe { sys::give_back(self.at, self.room + 2 * PAGE) };
    }
}

impl<T: Copy> Guarded<T> {
    fn make_room(&mut self, len: usize) {
        let room = (2 * len * size_of::<T>()).div_ceil(PAGE) * PAGE;
        if room <= self.room {
            return;
        }
        let at = sys::pages(room + 2 * PAGE, PROT_NONE, false);
        // SAFETY: the old pages, if any, are lent to nobody, since `self` is ours.
        unsafe {
            sys::protect(at.add(PAGE), room, PROT_READ | PROT_WRITE);
            if !self.at.is_null() {
                sys::give_back(self.at, self.room + 2 * PAGE);
            }
        }
        (self.at, self.room) = (at, room);
    }

    fn start(&self, press: Press, len: usize) -> *mut T {
        let skip = match press {
            Press::Front => 0,
            Press::Back => self.room - len * size_of::<T>(),
        };
        // SAFETY: both places lie between the pages, or at the end of what lies there.
        unsafe { self.at.add(PAGE + skip).cast() }
    }

    /// Of the pages that hold `len` of the contents from `first` on, at both places.
    fn allow(&mut self, first: usize, len: usize, prot: i32) {
        for press in PRESSES {
            let start = self.start(press, self.len).wrapping_add(first) as usize;
            let end = start + len * size_of::<T>();
            let (start, end) = (start / PAGE * PAGE, end.next_multiple_of(PAGE));
            // SAFETY: nothing refers to the contents, since `self` is ours.
            unsafe { sys::protect(start as *mut u8, end - start, prot) };
        }
    }

    /// Takes these contents, at both places; until the next time a write to them ends the process.
    pub fn hold(&mut self, contents: &[T]) {
        self.allow(0, self.len, PROT_READ | PROT_WRITE);
        self.make_room(contents.len());
        self.len = contents.len();
        for press in PRESSES {
            self.write(press, contents);
        }
        self.allow(0, self.len, PROT_READ);
    }

    /// The contents, or, if `len` is less, as many of them at that end.
    pub fn lend(&self, press: Press, len: usize) -> &[T] {
        let len = len.min(self.len);
        // SAFETY: inside of what `hold` filled.
        unsafe { slice::from_raw_parts(self.start(press, len), len) }
    }

    pub fn len(&self) -> usize {
        self.len
    }

    /// Changes one of the contents, at both places, and says what it was.
    pub fn put(&mut self, index: usize, value: T) -> T {
        let old = self.lend(Press::Front, self.len)[index];
        self.allow(index, 1, PROT_READ | PROT_WRITE);
        for press in PRESSES {
            // SAFETY: inside of what `hold` filled.
            unsafe { *self.start(press, self.len).add(index) = value };
        }
        self.allow(index, 1, PROT_READ);
        old
    }

    fn write(&mut self, press: Press, contents: &[T]) -> &mut [T] {
        // SAFETY: there is room, and `self` is ours.
        let place =
            unsafe { slice::from_raw_parts_mut(self.start(press, contents.len()), contents.len()) };
        place.copy_from_slice(contents);
        place
    }

    /// These contents to be changed, at one place. Not for a buffer that holds others.
    pub fn lend_mut(&mut self, press: Press, contents: &[T]) -> &mut [T] {
        self.make_room(contents.len());
        self.write(press, contents)
    }
}
