// profile 2, prints 0102, halt 2 at 0x0000000100010002
// LDAR at an address that is no multiple of its size may read the code, and its place in the table; STLR may write neither.
    mov w9, #0x10000
    add w10, w9, #1
    add x23, x21, w10, uxtw
    ldar w1, [x23]
    mov w0, #1
    ldr x30, [x21, #8]
    blr x30
    mov w10, #4
    add x23, x21, w10, uxtw
    ldar x1, [x23]
    mov w0, #2
    ldr x30, [x21, #8]
    blr x30
    add w10, w9, #2
    add x23, x21, w10, uxtw
    stlr w1, [x23]
    brk #1
