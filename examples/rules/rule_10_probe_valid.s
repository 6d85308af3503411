// lawful, 3 words
    sub sp, sp, #64
    ldr xzr, [sp]
    str x0, [sp, #8]
