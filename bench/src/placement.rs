//! Unused bytes before the library's code, as many as `BENCH_SHIFT` says, so that
//! programs can be built in which it lies elsewhere.

use std::arch::global_asm;

global_asm!(
    ".section .text.bench_shift, \"ax\", @progbits",
    ".globl bench_shift",
    "bench_shift:",
    concat!(".skip 1 + ", env!("BENCH_SHIFT")),
    ".text"
);

extern "C" {
    fn bench_shift();
}

/// Keeps the bytes in the program.
#[used]
static SHIFT: unsafe extern "C" fn() = bench_shift;
