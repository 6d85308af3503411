// profile 1, prints 4e5a43, halt 5 status 86
// The flags N, Z, C and V are the same after calls of the runtime.
    mov w19, #'N'
    mov w20, #0
    cmp w20, #1
    bl call
    b.pl wrong
    mov w0, w19
    ldr x30, [x21, #8]
    blr x30
    mov w19, #'Z'
    cmp w20, #0
    bl call
    b.ne wrong
    mov w0, w19
    ldr x30, [x21, #8]
    blr x30
    mov w19, #'C'
    mov w1, #-1
    adds w1, w1, #2
    bl call
    b.cc wrong
    mov w0, w19
    ldr x30, [x21, #8]
    blr x30
    mov w1, #0x7fffffff
    adds w1, w1, #1
    bl call
    b.vc wrong
    mov w0, #'V'
    ldr x30, [x21]
    blr x30
wrong:
    brk #1
call:
    mov x10, x30
    ldr x30, [x21, #2048]
    blr x30
    add x30, x21, w10, uxtw
    ret
