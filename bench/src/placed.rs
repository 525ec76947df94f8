// So many bytes, A5_BYTES, before the library's functions. Each of these stands in a section of its own, which begins at a multiple of 16, so
// that all of them move by as many. Where in a line of memory a loop lies is worth a tenth of a call's time, and is the linker's choice
// (bench/placements).

std::arch::global_asm!(
    ".section .text.a5_placed, \"ax\", @progbits",
    ".globl a5_placed",
    "a5_placed:",
    concat!(".skip ", env!("A5_BYTES"), ", 0x90"),
    "ret",
    ".text",
);

extern "C" {
    fn a5_placed();
}

// Nothing calls it: this keeps the linker from leaving it out.
#[used]
static PLACED: unsafe extern "C" fn() = a5_placed;
