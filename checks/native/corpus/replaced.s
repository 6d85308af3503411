// profile 1, prints e0cd0589e0de438720, halt 5 status 64
// What docs/PROFILE.md puts in place of instructions that the profile leaves out, on 0x0123456789abcde0 and 0xfedcba9876543210: the highest
// and lowest byte of a rotation, trailing zeros, REV, EXTR, UMULL of 0x87651fe0 by all ones, and trailing zeros of 0.
    movz x1, #0xcde0
    movk x1, #0x89ab, lsl #16
    movk x1, #0x4567, lsl #32
    movk x1, #0x0123, lsl #48
    movz x2, #0x3210
    movk x2, #0x7654, lsl #16
    movk x2, #0xba98, lsl #32
    movk x2, #0xfedc, lsl #48
    orr x19, xzr, x1, ror #8
    lsr x0, x19, #56
    ldr x30, [x21, #8]
    blr x30
    mov x0, x19
    ldr x30, [x21, #8]
    blr x30
    sub x16, x1, #1
    bic x16, x16, x1
    clz x16, x16
    mov x17, #64
    sub x0, x17, x16
    ldr x30, [x21, #8]
    blr x30
    orr w16, wzr, w1, ror #8
    and w16, w16, #0xff00ff00
    orr w17, wzr, w1, ror #24
    and w17, w17, #0x00ff00ff
    orr w0, w16, w17
    mov w19, w0
    ldr x30, [x21, #8]
    blr x30
    lsr w0, w19, #24
    ldr x30, [x21, #8]
    blr x30
    lsr x16, x2, #12
    orr x19, x16, x1, lsl #52
    lsr x0, x19, #56
    ldr x30, [x21, #8]
    blr x30
    mov x0, x19
    ldr x30, [x21, #8]
    blr x30
    mov w3, #0x1fe0
    movk w3, #0x8765, lsl #16
    mov w4, #-1
    mov w16, w3
    mov w17, w4
    mul x19, x16, x17
    lsr x0, x19, #56
    ldr x30, [x21, #8]
    blr x30
    mov x0, x19
    ldr x30, [x21, #8]
    blr x30
    mov x1, #0
    sub x16, x1, #1
    bic x16, x16, x1
    clz x16, x16
    mov x17, #64
    sub x0, x17, x16
    ldr x30, [x21]
    blr x30
