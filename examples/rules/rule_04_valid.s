// lawful, 2 words
    ldr x9, [sp, #16]
    add x23, x21, w9, uxtw
