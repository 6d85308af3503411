// lawful, 3 words
    add x18, x21, w1, uxtw
    ldrb w0, [x18]
    add x1, x1, #1
