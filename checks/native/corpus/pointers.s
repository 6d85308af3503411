// profile 1, prints 0a14ff, halt 5 status 7
// Functions are called by their addresses, which come from memory, with other upper halves than the slot's.
    mov w9, #0x20000
    adr x0, ten
    str x0, [x21, w9, uxtw]
    adr x0, twice
    orr x0, x0, #0xff00000000000000
    add w9, w9, #8
    str x0, [x21, w9, uxtw]
    sub w9, w9, #8
    ldr x1, [x21, w9, uxtw]
    add x18, x21, w1, uxtw
    blr x18
    bl tell
    add w9, w9, #8
    ldr x1, [x21, w9, uxtw]
    add x24, x21, w1, uxtw
    blr x24
    bl tell
    ldr x30, [x21, #72]
    blr x30
    adr x1, last
    add x23, x21, w1, uxtw
    br x23
    brk #1
last:
    ldr x30, [x21, #8]
    blr x30
    mov w0, #7
    ldr x30, [x21]
    blr x30
ten:
    mov w0, #10
    ret
twice:
    add w0, w0, w0
    ret
tell:
    mov x10, x30
    ldr x30, [x21, #8]
    blr x30
    add x30, x21, w10, uxtw
    ret
