// lawful, 1 words
    add sp, x21, w29, uxtw
