// profile 2, prints , halt 2 at 0x00000000fffffff9
    mov w9, #1
    add sp, x21, w9, uxtw
    ldr x0, [sp], #-8
    ldar x0, [sp]
    brk #1
