//! How a value crosses a ring for one producer and one consumer, which carries words. A value of up to 8 bytes that needs
//! no drop is its word. Another lies in a cell of a circle, which the two ends share, and its word means nothing: value
//! number n, counted from 0, lies in cell n mod (N + 2), if N is the capacity. So both ends know where it is.
//!
//! The producer writes value n before it pushes it, because the consumer may read it as soon as it was pushed. So it
//! writes it before it knows of a free slot, and takes it back if the push is refused. The consumer pops value n, and
//! reads it out before its next pop.
//!
//! Why no cell is read and written at the same time:
//!
//! - Value n is read after it was written, because the push of n comes after the write, and the pop of n after that push.
//! - Cell n mod (N + 2) had value n - N - 2 before. When value n is written, push n - 1 was made, for which the producer
//!   had seen a free slot. So pop n - N - 1 was made before it looked, and before that pop the consumer had read value
//!   n - N - 2 out. (N + 1 cells are too few, because value n - N - 1 may have been popped and not yet read out.)
//! - The values of a slice are written only if their slots are known to be free, and read out before they are popped.
//!
//! A push, and the pop that finds its value, are a store and a load of one word of the ring; so are a pop, and the push
//! that finds its slot. In the library these are sequentially consistent, so each store releases what its thread did
//! before it, and each load acquires it. A drop of a value that panics changes nothing of this, because a value is dropped
//! after it was read out, or once both ends have left.
//!
//! What needs a drop lies in a cell also if it is small, because a producer that leaves second drops what was pushed after
//! the consumer had left, and cannot pop it.
use crate::cells::{value_of_bytes, word_of_bytes, Cells};
use crate::raw::Word;
use crate::shared::drop_each;
use crate::MakeError;
use std::alloc::{alloc, dealloc, Layout};
use std::cell::UnsafeCell;
use std::mem::{self, MaybeUninit};
use std::panic::{RefUnwindSafe, UnwindSafe};
use std::ptr::{self, NonNull};
use std::sync::atomic::{AtomicUsize, Ordering};

/// So many words a slice is copied to or from at a time, if its values do not lie as words.
pub(crate) const PART_OF_SLICE: usize = 64;

/// What stands before the cells.
#[repr(C)]
struct Head<T> {
    /// 0 until an end has left, then one more than the cell that this end would have used next.
    left: AtomicUsize,
    /// Of the head with the cells.
    layout: Layout,
    /// The cells begin here, as many as the layout has. (An end of values that borrow must not become one of values that
    /// borrow for shorter, so the type of a cell has an `UnsafeCell`.)
    cells: [UnsafeCell<MaybeUninit<T>>; 0],
}

/// One end's way around the circle.
pub(crate) struct Walk<T> {
    /// Dangles if values are words.
    head: NonNull<Head<T>>,
    /// How many cells there are.
    count: usize,
    /// The cell of the value that this end pushes or pops next.
    next: usize,
    pushes: bool,
}

// SAFETY: of the cells a walk reaches only those that the other one does not reach at the same time, as said above. What
// lies in them, or is left there, crosses to this thread, so it is `Send`.
unsafe impl<T: Send> Send for Walk<T> {}

// No call of an end runs a user's code while a value is between the ends, so a panic leaves none in the middle of something.
impl<T> UnwindSafe for Walk<T> {}
impl<T> RefUnwindSafe for Walk<T> {}

impl<T> Walk<T> {
    /// Whether a value is its word, and needs no cell.
    pub(crate) const ARE_WORDS: bool = Cells::<T>::ARE_WORDS && !mem::needs_drop::<T>();

    /// Whether a slice of values is one of words.
    pub(crate) const LIE_AS_WORDS: bool = Self::ARE_WORDS
        && mem::size_of::<T>() == mem::size_of::<Word>()
        && mem::align_of::<T>() == mem::align_of::<Word>();

    /// The producer's walk and the consumer's, around a circle for this capacity.
    pub(crate) fn pair(capacity: u32) -> Result<(Walk<T>, Walk<T>), MakeError> {
        let count = capacity as usize + 2;
        let head = if Self::ARE_WORDS { NonNull::dangling() } else { Self::make(count).ok_or(MakeError::NoMemory)? };
        Ok((Walk { head, count, next: 0, pushes: true }, Walk { head, count, next: 0, pushes: false }))
    }

    /// Allocates a circle of so many cells.
    fn make(count: usize) -> Option<NonNull<Head<T>>> {
        let cells = Layout::array::<T>(count).ok()?;
        let (layout, first) = Layout::new::<Head<T>>().extend(cells).ok()?;
        debug_assert_eq!(first, mem::size_of::<Head<T>>());
        // SAFETY: the layout has the bytes of a head.
        let head: NonNull<Head<T>> = NonNull::new(unsafe { alloc(layout) })?.cast();
        // SAFETY: the memory is new, and has room for a head.
        unsafe { head.write(Head { left: AtomicUsize::new(0), layout, cells: [] }) };
        Some(head)
    }

    /// Makes a value the word of the next push, after which `go_on` follows, or `value` if it was refused.
    ///
    /// # Safety
    ///
    /// This is the producer's walk.
    #[inline]
    pub(crate) unsafe fn word(&mut self, value: T) -> Word {
        if Self::ARE_WORDS {
            return word_of_bytes(value);
        }
        // SAFETY: the consumer has done with this cell, as said above.
        unsafe { self.cell(self.next).write(value) };
        Word::new(0)
    }

    /// Makes a word a value again: the one that was popped, after which `go_on` follows, or one whose push was refused.
    ///
    /// # Safety
    ///
    /// The word is that of this end's last pop or refused push, and is made a value once. (Of a value in a cell it is enough
    /// that it was pushed and is not popped.)
    #[inline]
    pub(crate) unsafe fn value(&mut self, word: Word) -> T {
        if Self::ARE_WORDS {
            // SAFETY: `word` made it, here or at the other end.
            return unsafe { value_of_bytes(word) };
        }
        // SAFETY: the cell has the value: the producer wrote it before its push.
        unsafe { self.cell(self.next).read() }
    }

    /// The value that is popped next.
    ///
    /// # Safety
    ///
    /// This is the consumer's walk, values lie in cells, and one was seen that was not popped.
    pub(crate) unsafe fn front(&self) -> &T {
        // SAFETY: the value was pushed, and the producer writes to its cell only after it was popped.
        unsafe { &*self.cell(self.next) }
    }

    /// Writes the values of the next pushes.
    ///
    /// # Safety
    ///
    /// This is the producer's walk, values lie in cells, and the producer knows of so many free slots.
    pub(crate) unsafe fn write(&mut self, values: &[T])
    where
        T: Copy,
    {
        let (front, back) = values.split_at(values.len().min(self.count - self.next));
        // SAFETY: the consumer has done with these cells: those of free slots and of the value that it popped last are
        // `capacity + 1` at most. A slice of values is no part of the circle.
        unsafe {
            ptr::copy_nonoverlapping(front.as_ptr(), self.cell(self.next), front.len());
            ptr::copy_nonoverlapping(back.as_ptr(), self.cell(0), back.len());
        }
    }

    /// Reads the values of the next pops.
    ///
    /// # Safety
    ///
    /// This is the consumer's walk, values lie in cells, and the consumer knows of so many that it has not popped.
    pub(crate) unsafe fn read(&self, values: &mut [T])
    where
        T: Copy,
    {
        let at = values.len().min(self.count - self.next);
        let (front, back) = values.split_at_mut(at);
        // SAFETY: these values were pushed, and the producer writes to their cells only after they were popped. A slice
        // of values is no part of the circle.
        unsafe {
            ptr::copy_nonoverlapping(self.cell(self.next), front.as_mut_ptr(), front.len());
            ptr::copy_nonoverlapping(self.cell(0), back.as_mut_ptr(), back.len());
        }
    }

    /// After so many pushes or pops, no more than the capacity.
    #[inline]
    pub(crate) fn go_on(&mut self, by: usize) {
        self.next = self.after(self.next, by);
    }

    #[inline]
    fn after(&self, cell: usize, by: usize) -> usize {
        let next = cell + by;
        if next < self.count {
            next
        } else {
            next - self.count
        }
    }

    #[inline]
    fn cell(&self, number: usize) -> *mut T {
        // SAFETY: the cells stand behind the head, whose size is a multiple of their alignment, and there are more of them
        // than this number.
        unsafe { self.head.as_ptr().add(1).cast::<T>().add(number) }
    }
}

/// Memory that is given back, also if a value panics as it is dropped.
struct Freed {
    at: NonNull<u8>,
    layout: Layout,
}

impl Drop for Freed {
    fn drop(&mut self) {
        // SAFETY: the memory was allocated with this layout, and both ends have left.
        unsafe { dealloc(self.at.as_ptr(), self.layout) };
    }
}

impl<T> Drop for Walk<T> {
    /// The end that leaves second drops what was pushed and not read out.
    fn drop(&mut self) {
        if Self::ARE_WORDS {
            return;
        }
        // SAFETY: the circle is there until the second end has left.
        let left = unsafe { &(*self.head.as_ptr()).left };
        // (it releases what this end did with the cells, and acquires what the other one did)
        let Some(other) = left.swap(self.next + 1, Ordering::AcqRel).checked_sub(1) else { return };
        // SAFETY: this end is the second one, so the circle is its own.
        let layout = unsafe { (*self.head.as_ptr()).layout };
        let _freed = Freed { at: self.head.cast(), layout };
        let (mut first, end) = if self.pushes { (other, self.next) } else { (self.next, other) };
        drop_each(|| {
            if first == end {
                return None;
            }
            let at = self.cell(first);
            first = self.after(first, 1);
            // SAFETY: the value was pushed and not read out, and nobody else reaches it any more.
            Some(unsafe { at.read() })
        });
    }
}
