// profile 2, prints 5533bbaa, halt 2 at 0x0000000200000000
// LDAR and STLR at addresses that are no multiples of their sizes; the last one crosses the end of the slot.
    mov w9, #0x20000
    movz x1, #0x7788
    movk x1, #0x5566, lsl #16
    movk x1, #0x3344, lsl #32
    movk x1, #0x1122, lsl #48
    add x18, x21, w9, uxtw
    stlr x1, [x18]
    add w10, w9, #3
    add x18, x21, w10, uxtw
    ldar w0, [x18]
    ldr x30, [x21, #8]
    blr x30
    add w10, w9, #5
    add x23, x21, w10, uxtw
    ldarh w0, [x23]
    ldr x30, [x21, #8]
    blr x30
    mov w2, #0xaabb
    add w10, w9, #7
    add x24, x21, w10, uxtw
    stlrh w2, [x24]
    ldrb w0, [x24]
    ldr x30, [x21, #8]
    blr x30
    ldarb w0, [x24]
    ldrb w0, [x24, #1]
    ldr x30, [x21, #8]
    blr x30
    mov w10, #0xfffffffc
    add x18, x21, w10, uxtw
    stlr x1, [x18]
    brk #1
