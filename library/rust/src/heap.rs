//! The heap of the library, by that of C.

extern "C" {
    fn malloc(size: usize) -> *mut u8;
    fn free(at: *mut u8);
}

/// A block of memory, or that there is none.
#[repr(C)]
struct Tried {
    ok: bool,
    at: *mut u8,
}

#[no_mangle]
extern "C" fn rattle_alloc(size: usize, align: usize) -> Tried {
    // SAFETY: malloc may be called with any size.
    let at = unsafe { malloc(size.max(align)) };
    let ok = !at.is_null();
    let at = if ok { at } else { core::ptr::NonNull::dangling().as_ptr() };
    Tried { ok, at }
}

#[no_mangle]
extern "C" fn rattle_dealloc(at: *mut u8) {
    // SAFETY: the library gives back what rattle_alloc gave, and once.
    unsafe { free(at) }
}
