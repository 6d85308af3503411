// lawful, 4 words
    add x18, x21, w1, uxtw
    ldr x0, [x18]
    ldr x2, [x18, #8]
    stp x2, x0, [x18]
