// word 1 rule 10
    ldp x29, x30, [sp], #16
    ret
