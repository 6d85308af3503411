// profile 1, prints 2a2b, halt 2 at 0x0000000200000000
// The stack is empty at first: a word is pushed and popped, a frame of 4,080 bytes made by an immediate and one by x22, and both given back
// by post-indexing; then a word is popped that isn't there.
    mov w0, #0x2a
    str x0, [sp, #-16]!
    mov w0, #0
    ldr x0, [sp], #16
    ldr x30, [x21, #8]
    blr x30
    sub sp, sp, #4080
    strb w0, [sp]
    sub w22, wsp, #16
    add sp, x21, x22
    str w0, [sp]
    ldr w0, [sp, #16]
    ldrb w0, [sp, #16]
    add w0, w0, #1
    ldr x30, [x21, #8]
    blr x30
    mov w2, #32
1:  ldr x3, [sp], #128
    sub w2, w2, #1
    cbnz w2, 1b
    ldr x0, [sp], #16
    brk #1
