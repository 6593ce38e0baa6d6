//! The memory of the library: `malloc`, `realloc` and `free` of the program, or with the feature `memory` a block.

/// Makes a call that allocates or frees memory. The block has no lock of its own, so only one such call is made at a
/// time.
#[cfg(feature = "memory")]
pub(crate) fn alone<R>(call: impl FnOnce() -> R) -> R {
    use core::sync::atomic::{AtomicBool, Ordering};
    static IS_TAKEN: AtomicBool = AtomicBool::new(false);
    while IS_TAKEN.compare_exchange_weak(false, true, Ordering::Acquire, Ordering::Relaxed).is_err() {
        core::hint::spin_loop();
    }
    let answer = call(); // the library does not unwind
    IS_TAKEN.store(false, Ordering::Release);
    answer
}

/// Makes a call that allocates or frees memory, by a `malloc` with a lock of its own.
#[cfg(not(feature = "memory"))]
#[inline(always)]
pub(crate) fn alone<R>(call: impl FnOnce() -> R) -> R {
    call()
}

#[cfg(feature = "memory")]
mod block {
    use super::alone;
    use core::ffi::c_void;
    use core::mem::MaybeUninit;

    extern "C" {
        fn ptpm_memory_give(block: *mut c_void, size: usize) -> bool;
        fn ptpm_memory_taken() -> usize;
        fn ptpm_memory_most_taken() -> usize;
    }

    /// What a clock with this many managers, 0 to 16, takes, whatever its ports.
    pub const fn clock_memory(managers: usize) -> usize {
        720 + if managers > 0 { (managers * 2136 + 31) / 16 * 16 } else { 0 }
    }

    /// The most that a session takes.
    pub const SESSION_MEMORY: usize = 7408;

    /// Enough for an asker.
    pub const ASKER_MEMORY: usize = 13424;

    /// Gives the library its memory, before the first clock, session, survey or asker starts. Later it is refused while one of
    /// these exists. The memory counts from the first multiple of 16. Says whether the library has it.
    pub fn give_memory(block: &'static mut [MaybeUninit<u8>]) -> bool {
        // SAFETY: the block is lent for ever, and no other call that takes memory is made meanwhile.
        alone(|| unsafe { ptpm_memory_give(block.as_mut_ptr().cast(), block.len()) })
    }

    /// How many octets of the block are taken, those that the library keeps for itself among them.
    pub fn memory_taken() -> usize {
        // SAFETY: no other call that takes memory is made meanwhile.
        alone(|| unsafe { ptpm_memory_taken() })
    }

    /// How many octets of the block were taken at once, at most, since it was given.
    pub fn most_memory_taken() -> usize {
        // SAFETY: as above.
        alone(|| unsafe { ptpm_memory_most_taken() })
    }
}

#[cfg(feature = "memory")]
pub use block::{clock_memory, give_memory, memory_taken, most_memory_taken, ASKER_MEMORY, SESSION_MEMORY};
