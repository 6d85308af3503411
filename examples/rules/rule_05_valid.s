// lawful, 2 words
    add x30, x21, w9, uxtw
    ret
