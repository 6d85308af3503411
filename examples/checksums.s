// checksums.c with guards, for slot 0. gcc 12 made most of it, kept off the profile's registers:
//   aarch64-linux-gnu-gcc -O2 -mgeneral-regs-only -fomit-frame-pointer -fno-asynchronous-unwind-tables -ffixed-x18
//     -ffixed-x21 -ffixed-x22 -ffixed-x23 -ffixed-x24 -S checksums.c
// Where it was changed for a rule of docs/PROFILE.md, the rule's number stands beside it. examples/make assembles it: the
// code lies 65,536 bytes above the slot's base, and `data` 512 MiB above it, where the slot may be written.

start:
    sub sp, sp, #64             // 7: the stack is moved by an immediate ..
    ldr xzr, [sp]               // 10: .. and touched at once
    bl main
    ldr x30, [x21]              // entry 0 of the runtime: ends the run with w0
    blr x30                     // 10: a call through the table, in two words
    brk #1

rt_call_1:
    str x30, [sp, #-16]!
    ldr x30, [x21, #8]          // entry 1: writes the low byte of w0
    blr x30
    ldr x30, [sp], #16
    add x30, x21, w30, uxtw     // 10: guarded at once, once it was loaded
    ret

rt_call_5:
    str x30, [sp, #-16]!
    ldr x30, [x21, #40]
    blr x30
    ldr x30, [sp], #16
    add x30, x21, w30, uxtw
    ret
    nop
    nop

hex:
    stp x19, x20, [sp, #-32]!
    mov x20, x0
    mov w19, #28
    str x30, [sp, #16]
hex_digit:
    lsr x1, x20, x19
    and w1, w1, #15
    cmp w1, #9
    add w0, w1, #'0'
    add w1, w1, #'a' - 10
    sub w19, w19, #4
    csel w0, w1, w0, gt
    bl rt_call_1
    cmn w19, #4
    b.ne hex_digit
    ldr x30, [sp, #16]
    add x30, x21, w30, uxtw     // 10
    ldp x19, x20, [sp], #32
    ret
    nop
    nop

main:
    stp x19, x20, [sp, #-48]!
    adrp x4, t
    mov w2, #0x8320
    add x4, x4, :lo12:t
    mov x3, #0
    movk w2, #0xedb8, lsl #16
    stp x25, x26, [sp, #16]
    str x30, [sp, #32]
table:
    mov w0, w3
    mov w19, #8
bit:
    ands w1, w0, #1
    lsr w0, w0, #1
    eor w1, w0, w2
    csel w0, w1, w0, ne
    subs w19, w19, #1
    b.ne bit
    add w22, w4, w3, lsl #2     // 2: str w0, [x4, x3, lsl #2], as an offset below 2^32 ..
    str w0, [x21, w22, uxtw]    // .. from the slot's base
    add x3, x3, #1
    cmp x3, #256
    b.ne table
    adrp x25, b
    add x25, x25, :lo12:b
    add x26, x25, #2, lsl #12
    mov x1, x25
    mov w0, #1
fill:
    eor w0, w0, w0, lsl #13
    eor w0, w0, w0, lsr #17
    eor w0, w0, w0, lsl #5
    add x18, x21, w1, uxtw      // 2: strb w0, [x1], #1, by an address that was guarded
    strb w0, [x18]
    add x1, x1, #1
    cmp x26, x1
    b.ne fill
    mov x2, x25
    mov w0, #-1
crc:
    add x18, x21, w2, uxtw      // 2
    ldrb w1, [x18]
    add x2, x2, #1
    eor w1, w1, w0
    and x1, x1, #255
    add w22, w4, w1, lsl #2     // 2
    ldr w1, [x21, w22, uxtw]
    eor w0, w1, w0, lsr #8
    cmp x26, x2
    b.ne crc
    mvn w20, w0
    mvn w0, w0
    bl hex
    mov w0, #'\n'
    bl rt_call_1
    mov w3, #0x8071
    mov w0, #1
    movk w3, #0x8007, lsl #16
    mov w2, #65521
    nop
adler:
    add x18, x21, w25, uxtw     // 2
    ldrb w1, [x18]
    add x25, x25, #1
    add w1, w1, w0
    mov w16, w1                 // 1: umull x0, w1, w3, which the profile hasn't
    mov w17, w3
    mul x0, x16, x17
    lsr x0, x0, #47
    msub w0, w0, w2, w1
    add w1, w0, w19
    mov w16, w1                 // 1
    mov w17, w3
    mul x19, x16, x17
    lsr x19, x19, #47
    msub w19, w19, w2, w1
    cmp x26, x25
    b.ne adler
    ubfiz x19, x19, #16, #32
    orr x0, x19, x0
    bl hex
    mov w0, #'\n'
    bl rt_call_1
    ldp x25, x26, [sp, #16]
    and w0, w20, #63
    ldr x30, [sp, #32]
    add x30, x21, w30, uxtw     // 10
    ldp x19, x20, [sp], #48
    ret

    .set t, data
    .set b, data + 1024
