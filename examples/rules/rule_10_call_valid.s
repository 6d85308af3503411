// lawful, 3 words
    mov x0, x19
    ldr x30, [x21, #8]
    blr x30
