//! The C entry over the safe machine.

#![no_std]

mod machine;

unsafe extern "C" {
    fn abort() -> !;
}

/// Never reached: the machine has an answer for every input.
#[panic_handler]
fn panicked(_: &core::panic::PanicInfo) -> ! {
    unsafe { abort() }
}

/// The core library was built to unwind and names this; nothing here unwinds.
#[unsafe(no_mangle)]
extern "C" fn rust_eh_personality() {}

include!("../border.rs");

c_entry!(rust_judge, machine::judge);
