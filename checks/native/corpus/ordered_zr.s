// profile 2, prints 00, halt 4 at 0x000000010001003c
// LDAR and STLR of register 31, which is the zero register there and not sp, at an address that is no multiple of 8: the load leaves sp,
// the store writes zeros.
    movz w9, #0x0001
    movk w9, #2, lsl #16
    movz x1, #0x4140
    movk x1, #0x4141, lsl #16
    movk x1, #0x4141, lsl #32
    str x1, [x21, w9, uxtw]
    add x18, x21, w9, uxtw
    sub sp, sp, #64
    ldr xzr, [sp]
    ldar xzr, [x18]
    stlr xzr, [x18]
    ldr x0, [x18]
    ldr x30, [x21, #8]
    blr x30
    str x1, [sp]
    brk #1
