// lawful, 1 words
    ldp x19, x20, [sp, #16]
