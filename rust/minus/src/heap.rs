//! The three functions that the proved library takes its memory by, over those of the C library.
//!
//! `rattle_dealloc` is told no size, so Rust's own allocator, which asks for one, cannot stand behind it.

use std::ffi::c_void;

/// The greatest alignment that the library asks for; `malloc` gives it on each x86-64 system.
const ALIGN: usize = 16;

unsafe extern "C" {
    fn malloc(size: usize) -> *mut c_void;
    fn realloc(at: *mut c_void, size: usize) -> *mut c_void;
    fn free(at: *mut c_void);
}

/// Whether there is memory, and where.
#[repr(C)]
pub struct Tried {
    ok: bool,
    at: *mut c_void,
}

/// What a pointer says that `malloc` or `realloc` answered. Where there is no memory it points to what is no block, since
/// the library asks for a pointer that is not null.
fn tried(at: *mut c_void) -> Tried {
    if at.is_null() {
        return Tried { ok: false, at: std::ptr::without_provenance_mut(ALIGN) };
    }
    Tried { ok: true, at }
}

/// Whether a request for memory is refused without asking, as tests want it.
#[cfg(not(all(test, feature = "dynamic_output")))]
const fn is_refused() -> bool {
    false
}

#[cfg(all(test, feature = "dynamic_output"))]
use refusals::is_refused;

/// A new block of this many bytes.
// SAFETY: no other function of the program has this name, which is the library's.
#[unsafe(no_mangle)]
extern "C" fn rattle_alloc(size: usize, align: usize) -> Tried {
    debug_assert!(align <= ALIGN);
    if is_refused() {
        return tried(std::ptr::null_mut());
    }
    // SAFETY: `malloc` takes each size; a block of no bytes has one, so that its pointer is its own.
    tried(unsafe { malloc(size.max(1)) })
}

/// A block of this many bytes in the place of one, with its contents.
// SAFETY: the library hands in a block that `rattle_alloc` or `rattle_realloc` gave, and not again; the name as above.
#[unsafe(no_mangle)]
unsafe extern "C" fn rattle_realloc(at: *mut c_void, _kept: usize, size: usize, align: usize) -> Tried {
    debug_assert!(align <= ALIGN);
    if is_refused() {
        return tried(std::ptr::null_mut());
    }
    // SAFETY: the block is one of `malloc`, as said above.
    tried(unsafe { realloc(at, size.max(1)) })
}

/// Gives a block back.
// SAFETY: the library hands in a block that one of the functions above gave, and not again; the name as above.
#[unsafe(no_mangle)]
unsafe extern "C" fn rattle_dealloc(at: *mut c_void) {
    // SAFETY: the block is one of `malloc`, as said above.
    unsafe { free(at) }
}

/// Refusals of memory, for tests of one thread.
#[cfg(all(test, feature = "dynamic_output"))]
pub mod refusals {
    use std::cell::Cell;

    thread_local! {
        static LEFT: Cell<Option<usize>> = const { Cell::new(None) };
    }

    /// Grants this many requests of this thread more, and refuses each one after them; `None` refuses none.
    pub fn begin_after(count: Option<usize>) {
        LEFT.set(count);
    }

    pub fn is_refused() -> bool {
        let left = LEFT.get();
        LEFT.set(left.map(|left| left.saturating_sub(1)));
        left == Some(0)
    }
}
