//! What the library and Rust ask of a C library: copies of octets. A target without one has them from Rust itself.

use core::arch::asm;

/// # Safety
///
/// As in C.
#[no_mangle]
pub unsafe extern "C" fn memcpy(to: *mut u8, from: *const u8, size: usize) -> *mut u8 {
    // SAFETY: the caller says that both may be used, and lie apart.
    unsafe {
        asm!("rep movsb", inout("rcx") size => _, inout("rdi") to => _, inout("rsi") from => _, options(nostack, preserves_flags))
    };
    to
}

/// # Safety
///
/// As in C.
#[no_mangle]
pub unsafe extern "C" fn memmove(to: *mut u8, from: *const u8, size: usize) -> *mut u8 {
    if (to as usize).wrapping_sub(from as usize) >= size {
        // SAFETY: no octet is written before it is read.
        return unsafe { memcpy(to, from, size) };
    }
    // SAFETY: the caller says that both may be used; they are copied from the end.
    unsafe {
        let (last_to, last_from) = (to.add(size).sub(1), from.add(size).sub(1));
        asm!("std", "rep movsb", "cld", inout("rcx") size => _, inout("rdi") last_to => _, inout("rsi") last_from => _, options(nostack));
    }
    to
}

/// # Safety
///
/// As in C.
#[no_mangle]
pub unsafe extern "C" fn memset(to: *mut u8, octet: i32, size: usize) -> *mut u8 {
    // SAFETY: the caller says that the octets may be written.
    unsafe {
        asm!("rep stosb", inout("rcx") size => _, inout("rdi") to => _, in("al") octet as u8, options(nostack, preserves_flags))
    };
    to
}

/// # Safety
///
/// As in C.
#[no_mangle]
pub unsafe extern "C" fn memcmp(one: *const u8, other: *const u8, size: usize) -> i32 {
    for place in 0..size {
        // SAFETY: the caller says that the octets may be read.
        let (first, second) = unsafe { (*one.add(place), *other.add(place)) };
        if first != second {
            return i32::from(first) - i32::from(second);
        }
    }
    0
}
