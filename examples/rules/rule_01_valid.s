// lawful, 3 words
    mov w16, w1
    mov w17, w3
    mul x0, x16, x17
