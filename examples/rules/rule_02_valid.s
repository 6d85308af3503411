// lawful, 2 words
    add w22, w4, w3, lsl #2
    str w0, [x21, w22, uxtw]
