// lawful, 2 words
    add x18, x21, w1, uxtw
    ldr xzr, [x18, #64]
