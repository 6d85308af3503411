// lawful, 3 words
    ldp x29, x30, [sp], #16
    add x30, x21, w30, uxtw
    ret
