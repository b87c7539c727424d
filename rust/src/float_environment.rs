//! The float environment, in which the proof of the planner holds: each operation rounds to nearest, ties to even, and
//! subnormals are kept. It stands in MXCSR, a register that each thread has for itself; a new thread starts with the value of
//! the thread that made it.

use std::arch::asm;

/// The bits of MXCSR that tell what happened; all others tell what is to happen.
const STATUS: u32 = 0x3f;
/// Round to nearest (bits 13 and 14), no flushing to zero (bit 15), no subnormal read as zero (bit 6), no exception that
/// traps (bits 7 to 12): what a program starts with.
const DEFAULT: u32 = 0x1f80;

/// Whether this thread rounds to nearest, flushes no subnormals and traps no float exception, as a program does from its start
/// unless code changed it. The proof of a plan holds only then; [`crate::plan`] asks this in debug builds.
pub fn float_environment_is_default() -> bool {
    let mut mxcsr = 0u32;
    // SAFETY: `stmxcsr` writes four bytes, here to a u32 of this function, and changes nothing else. Every x86-64 has it.
    unsafe { asm!("stmxcsr [{}]", in(reg) &raw mut mxcsr, options(nostack, preserves_flags)) };
    mxcsr & !STATUS == DEFAULT
}
