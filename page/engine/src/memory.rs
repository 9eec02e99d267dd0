//! What the Worker can ask after the module stopped in the middle of a call: whether memory had ended, and what a panic said.

use std::alloc::{GlobalAlloc, Layout, System};
use std::sync::atomic::{AtomicU32, Ordering};

/// The system's memory; where there is none left, that is remembered.
struct Watched;

static ENDED: AtomicU32 = AtomicU32::new(0);

fn remembered(pointer: *mut u8) -> *mut u8 {
    if pointer.is_null() {
        ENDED.store(1, Ordering::Relaxed);
    }
    pointer
}

unsafe impl GlobalAlloc for Watched {
    unsafe fn alloc(&self, layout: Layout) -> *mut u8 {
        remembered(System.alloc(layout))
    }

    unsafe fn alloc_zeroed(&self, layout: Layout) -> *mut u8 {
        remembered(System.alloc_zeroed(layout))
    }

    unsafe fn realloc(&self, pointer: *mut u8, layout: Layout, size: usize) -> *mut u8 {
        remembered(System.realloc(pointer, layout, size))
    }

    unsafe fn dealloc(&self, pointer: *mut u8, layout: Layout) {
        System.dealloc(pointer, layout)
    }
}

#[global_allocator]
static MEMORY: Watched = Watched;

static mut PANIC: String = String::new();

/// Remembers what a panic says.
pub fn watch() {
    static WATCHING: AtomicU32 = AtomicU32::new(0);
    if WATCHING.swap(1, Ordering::Relaxed) == 0 {
        std::panic::set_hook(Box::new(|panic| unsafe { PANIC = panic.to_string() }));
    }
}

/// 1 where a request for memory was not met.
#[no_mangle]
pub extern "C" fn memory_ended() -> u32 {
    ENDED.load(Ordering::Relaxed)
}

#[no_mangle]
pub extern "C" fn panic_pointer() -> *const u8 {
    unsafe { PANIC.as_ptr() }
}

#[no_mangle]
pub extern "C" fn panic_length() -> u32 {
    unsafe { PANIC.len() as u32 }
}
