// word 0 rule 3
    ldp x20, x21, [sp, #16]
