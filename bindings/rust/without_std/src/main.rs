//! An agent on Linux for x86-64 without std, without an allocator, and without a C library. Its clock lives in a static block. It takes a
//! GET of PRIORITY1, and writes the clock's answer to standard output. A device has its own `_start`, and its own copies of octets.
#![no_std]
#![no_main]

mod copies;

use core::arch::{asm, global_asm};
use core::mem::MaybeUninit;
use core::panic::PanicInfo;
use ptpm::{clock_memory, give_memory, Clock, ClockSettings, Handled, Identity, Outbox, PortSettings, StartError};

const BLOCK: usize = clock_memory(0) + 16;
static mut MEMORY: [MaybeUninit<u8>; BLOCK] = [MaybeUninit::uninit(); BLOCK];
static mut OUTBOX: Outbox<1> = Outbox::with_places();

/// From 0011223344556677/1 to every port of the clock, number 7 (13.3, 15.4, 15.5).
const GET: &[u8; 54] = b"\x0d\x12\0\x36\0\0\0\0\0\0\0\0\0\0\0\0\0\0\0\0\x00\x11\x22\x33\x44\x55\x66\x77\0\x01\0\x07\x04\x7f\
    \xaa\xbb\xcc\xff\xfe\xdd\xee\x01\xff\xff\x01\x01\0\0\0\x01\0\x02\x20\x05";

global_asm!(".globl _start", "_start:", "xor %ebp, %ebp", "and $-16, %rsp", "call {}", "ud2", sym run, options(att_syntax));

/// A call of Linux with three words.
fn system_call(number: usize, first: usize, second: usize, third: usize) {
    // SAFETY: only `write` of octets that may be read, and `exit`.
    unsafe {
        asm!("syscall", inout("rax") number => _, in("rdi") first, in("rsi") second, in("rdx") third, out("rcx") _, out("r11") _);
    }
}

fn write(octets: &[u8]) {
    system_call(1, 1, octets.as_ptr() as usize, octets.len());
}

fn end(status: usize) -> ! {
    system_call(60, status, 0, 0);
    loop {}
}

fn start() -> Result<Clock, StartError> {
    let settings = ClockSettings::new(Identity([0xaa, 0xbb, 0xcc, 0xff, 0xfe, 0xdd, 0xee, 0x01]));
    Ok(Clock::start(&settings, &[PortSettings::new()], &[])?)
}

extern "C" fn run() -> ! {
    // SAFETY: there is one thread, and this is run once.
    let (memory, outbox) = unsafe { (&mut *(&raw mut MEMORY), &mut *(&raw mut OUTBOX)) };
    if start().err() != Some(StartError::NoMemory) || !give_memory(memory) {
        end(1);
    }
    let Ok(mut clock) = start() else { end(2) };
    match clock.handle(1, GET, outbox) {
        Ok(turn) if turn.handled() == Handled::AnsweredUnnumbered => turn.messages.for_each(|(_, octets)| write(octets)),
        _ => end(3),
    }
    end(0)
}

#[panic_handler]
fn panic(_: &PanicInfo<'_>) -> ! {
    end(101)
}

/// What the compiled `core` names for unwinding. Nothing unwinds here, so it is never called.
#[no_mangle]
extern "C" fn rust_eh_personality() {}
