//! What C passes as a pointer and a length, as a slice, and what a panic does. Written by hand, not proved.

/// The `len` values from `first` on, none if it is null.
///
/// # Safety
///
/// `first` is null, or all of them are there and nobody changes them as long as the slice is used.
pub unsafe fn shared<'a, T>(first: *const T, len: usize) -> &'a [T] {
    if first.is_null() {
        return &[];
    }
    unsafe { core::slice::from_raw_parts(first, len) }
}

/// The `len` values from `first` on, none if it is null.
///
/// # Safety
///
/// `first` is null, or all of them are there and nobody else reads or changes them as long as the slice is used.
pub unsafe fn mutable<'a, T>(first: *mut T, len: usize) -> &'a mut [T] {
    if first.is_null() {
        return &mut [];
    }
    unsafe { core::slice::from_raw_parts_mut(first, len) }
}

/// Ends the process. By the proofs no call comes here.
#[panic_handler]
fn panicked(_: &core::panic::PanicInfo<'_>) -> ! {
    unsafe extern "C" {
        safe fn abort() -> !;
    }
    abort()
}
