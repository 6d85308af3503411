// profile 1, prints 01, halt 2 at 0x00000000fffffff8
// The table's first number can be read; the eight bytes below it, which are the guard's, can't.
    add x18, x21, wzr, uxtw
    ldr x0, [x18]
    lsr x0, x0, #40
    ldr x30, [x21, #8]
    blr x30
    ldur x0, [x18, #-8]
    ldr x30, [x21, #8]
    blr x30
    brk #1
