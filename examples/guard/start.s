// The start of a module that gcc and guard have made. The linker script tells where the words lie that stand for the data, data_words, and
// where the data go, data_start, as offsets in the slot; and of how many halves of a word they are, data_halves.
    .text
    .global _start, rt_putc
_start:
    sub sp, sp, #64                     // the stack is empty at first, so it is moved before anything is pushed
    ldr xzr, [sp]
    movz w0, #:abs_g0_nc:data_words
    movk w0, #:abs_g1:data_words
    movz w1, #:abs_g0_nc:data_start
    movk w1, #:abs_g1:data_start
    movz w2, #:abs_g0_nc:data_halves
    movk w2, #:abs_g1:data_halves
1:  cbz w2, 2f
    ldr w3, [x21, w0, uxtw]             // MOVZ of 16 bits, as data: code may be read
    ubfx w3, w3, #5, #16
    strh w3, [x21, w1, uxtw]
    add w0, w0, #4
    add w1, w1, #2
    sub w2, w2, #1
    b 1b
2:  bl main
    ldr x30, [x21]                      // entry 0 ends the run with w0
    blr x30
    brk #1
rt_putc:                                // entry 1 writes the low byte of w0
    str x30, [sp, #-16]!
    ldr x30, [x21, #8]
    blr x30
    ldr x30, [sp], #16
    add x30, x21, w30, uxtw
    ret
