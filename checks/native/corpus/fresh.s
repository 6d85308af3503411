// profile 1, prints 0000f01f00000001000001a95a, halt 5 status 0
// Data are zero at first, at their beginning and at the slot's end; the table's last number, and the code's own first word, can be read.
    movz w9, #0x1000
    movk w9, #1, lsl #16
    ldrb w0, [x21, w9, uxtw]
    ldr x30, [x21, #8]
    blr x30
    mov w10, #0xfffffff8
    ldr x0, [x21, w10, uxtw]
    ldr x30, [x21, #8]
    blr x30
    ldr x19, [x21, #4088]
    mov w20, #8
print:
    mov x0, x19
    ldr x30, [x21, #8]
    blr x30
    lsr x19, x19, #8
    sub w20, w20, #1
    cbnz w20, print
    mov w11, #0x10000
    ldrb w0, [x21, w11, uxtw]
    lsr w0, w0, #3
    ldr x30, [x21, #8]
    blr x30
    mov w0, #0xa9
    strb w0, [x21, w9, uxtw]
    ldrb w0, [x21, w9, uxtw]
    ldr x30, [x21, #8]
    blr x30
    mov x0, #0x5a
    str x0, [x21, w10, uxtw]
    ldr x0, [x21, w10, uxtw]
    ldr x30, [x21, #8]
    blr x30
    mov w0, #0
    ldr x30, [x21]
    blr x30
