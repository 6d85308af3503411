// profile 2, prints 6d1a0000, halt 5 status 109
// Fibonacci's number 20, 6765, by calls: frames that are probed late, return addresses that are guarded as they come back.
    mov w0, #20
    sub sp, sp, #64
    ldr xzr, [sp]
    bl fibonacci
    mov w19, w0
    mov w20, #4
print:
    mov w0, w19
    ldr x30, [x21, #8]
    blr x30
    lsr w19, w19, #8
    sub w20, w20, #1
    cbnz w20, print
    mov w0, #6765
    ldr x30, [x21]
    blr x30
    brk #1
fibonacci:
    cmp w0, #2
    b.lo small
    sub sp, sp, #32
    mov w9, w0
    sub w0, w0, #1
    add x10, x30, #0
    stp x9, x10, [sp]
    bl fibonacci
    str w0, [sp, #16]
    ldr w0, [sp]
    sub w0, w0, #2
    bl fibonacci
    ldr w1, [sp, #16]
    add w0, w0, w1
    ldr x30, [sp, #8]
    add x30, x21, w30, uxtw
    add sp, sp, #32
    nop
    nop
    nop
    ldr xzr, [sp]
small:
    ret
