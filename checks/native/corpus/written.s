// profile 1, prints 01, halt 3 at 0x0000000100020000
// Code writes two words to its data, `mov w0, #2` and `ret`, and calls them: data are never executed, also not where they hold code.
    mov w0, #1
    ldr x30, [x21, #8]
    blr x30
    mov w9, #0x20000
    movz w1, #0x0040
    movk w1, #0x5280, lsl #16
    str w1, [x21, w9, uxtw]
    add w22, w9, #4
    movz w1, #0x03c0
    movk w1, #0xd65f, lsl #16
    str w1, [x21, w22, uxtw]
    add x18, x21, w9, uxtw
    blr x18
    ldr x30, [x21, #8]
    blr x30
    brk #1
