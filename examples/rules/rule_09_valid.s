// lawful, 2 words
    add x18, x21, w8, uxtw
    blr x18
