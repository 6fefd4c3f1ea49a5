//! Memory by the program's `malloc`, and the end of a program that panics.

use core::alloc::{GlobalAlloc, Layout};
use core::ffi::c_void;
use core::panic::PanicInfo;
use core::ptr;

unsafe extern "C" {
    fn malloc(size: usize) -> *mut c_void;
    fn realloc(block: *mut c_void, size: usize) -> *mut c_void;
    fn free(block: *mut c_void);
    fn abort() -> !;
}

/// The allocator of C.
struct Malloc;

// `malloc` aligns a block whose size this divides to it, and others to the power of two that does.
const ALIGN: usize =
    if cfg!(any(target_pointer_width = "64", target_arch = "x86")) { 16 } else { 8 };

fn is_aligned(size: usize, align: usize) -> bool {
    align <= ALIGN && size.is_multiple_of(align)
}

// SAFETY: a block comes from `malloc`, whose promises are those of `GlobalAlloc` for such layouts.
unsafe impl GlobalAlloc for Malloc {
    unsafe fn alloc(&self, layout: Layout) -> *mut u8 {
        if !is_aligned(layout.size(), layout.align()) {
            return ptr::null_mut();
        }
        // SAFETY: `malloc` takes any size.
        unsafe { malloc(layout.size()).cast() }
    }

    unsafe fn dealloc(&self, block: *mut u8, _layout: Layout) {
        // SAFETY: the block is one of `alloc` or `realloc`.
        unsafe { free(block.cast()) }
    }

    unsafe fn realloc(&self, block: *mut u8, layout: Layout, size: usize) -> *mut u8 {
        if !is_aligned(size, layout.align()) {
            return ptr::null_mut();
        }
        // SAFETY: the block is one of `alloc` or `realloc`.
        unsafe { realloc(block.cast(), size).cast() }
    }
}

#[global_allocator]
static MALLOC: Malloc = Malloc;

#[panic_handler]
fn end(_info: &PanicInfo<'_>) -> ! {
    // SAFETY: `abort` may be called at any time.
    unsafe { abort() }
}
