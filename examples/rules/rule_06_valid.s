// lawful, 2 words
    add w22, w4, #24
    ldr x0, [x21, w22, uxtw]
