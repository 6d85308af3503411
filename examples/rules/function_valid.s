// lawful, 15 words
    stp x29, x30, [sp, #-32]!
    mov x29, sp
    str x19, [sp, #16]
    mov w19, w0
1:  cbz w19, 2f
    ldrb w0, [x21, w19, uxtw]
    ldr x30, [x21, #8]
    blr x30
    add w22, w19, #8
    ldr w19, [x21, w22, uxtw]
    b 1b
2:  ldr x19, [sp, #16]
    ldp x29, x30, [sp], #32
    add x30, x21, w30, uxtw
    ret
