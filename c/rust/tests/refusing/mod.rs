//! An allocator that refuses on demand, and counts. The crate and the library both ask for memory by `malloc`, which is
//! defined here.
use std::alloc::{GlobalAlloc, Layout, System};
use std::cell::Cell;
use std::ffi::c_void;
use std::ptr::null_mut;

thread_local! {
    /// How many more times this thread gets memory before it is refused once; none while it always does.
    static LEFT: Cell<Option<u32>> = const { Cell::new(None) };
    /// Whether it was refused.
    static REFUSED: Cell<bool> = const { Cell::new(false) };
    /// How many blocks this thread has got, less those that it has given back.
    static OUT: Cell<isize> = const { Cell::new(0) };
}

fn refuses() -> bool {
    match LEFT.get() {
        Some(0) => {
            LEFT.set(None);
            REFUSED.set(true);
            true
        }
        left => {
            LEFT.set(left.map(|left| left - 1));
            false
        }
    }
}

fn counted(at: *mut c_void) -> *mut c_void {
    OUT.set(OUT.get() + isize::from(!at.is_null()));
    at
}

extern "C" {
    fn __libc_malloc(size: usize) -> *mut c_void;
    fn __libc_realloc(at: *mut c_void, size: usize) -> *mut c_void;
    fn __libc_free(at: *mut c_void);
}

/// The library's calls come here, and those of the C library.
#[no_mangle]
unsafe extern "C" fn malloc(size: usize) -> *mut c_void {
    if refuses() {
        return null_mut();
    }
    counted(unsafe { __libc_malloc(size) })
}

#[no_mangle]
unsafe extern "C" fn realloc(at: *mut c_void, size: usize) -> *mut c_void {
    if refuses() {
        return null_mut();
    }
    let is_new = at.is_null();
    let at = unsafe { __libc_realloc(at, size) };
    if is_new {
        counted(at)
    } else {
        at
    }
}

#[no_mangle]
unsafe extern "C" fn free(at: *mut c_void) {
    OUT.set(OUT.get() - isize::from(!at.is_null()));
    unsafe { __libc_free(at) }
}

/// The crate's calls, also those for memory of a large alignment, which do not come by `malloc`.
struct Refusing;

// SAFETY: all is done by the system's allocator, or nothing.
unsafe impl GlobalAlloc for Refusing {
    unsafe fn alloc(&self, layout: Layout) -> *mut u8 {
        let comes_by_malloc = layout.align() <= 16;
        if !comes_by_malloc && refuses() {
            return null_mut();
        }
        let at = unsafe { System.alloc(layout) };
        if comes_by_malloc {
            at
        } else {
            counted(at.cast()).cast()
        }
    }

    unsafe fn dealloc(&self, at: *mut u8, layout: Layout) {
        unsafe { System.dealloc(at, layout) }
    }
}

#[global_allocator]
static ALLOCATOR: Refusing = Refusing;

/// Makes a call whose memory is refused after that many times. Whether it was.
pub fn refused<R>(after: u32, call: impl FnOnce() -> R) -> (R, bool) {
    REFUSED.set(false);
    LEFT.set(Some(after));
    let answer = call();
    LEFT.set(None);
    (answer, REFUSED.get())
}

/// How many blocks of memory this thread has got, less those that it has given back.
#[allow(dead_code)] // (not each of these tests asks)
pub fn blocks_out() -> isize {
    OUT.get()
}
