// lawful, 3 words
    mov x0, #0
    sub sp, sp, #16
    str xzr, [sp]
