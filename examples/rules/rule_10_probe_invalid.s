// word 1 rule 10
    sub sp, sp, #64
    str x0, [sp, #8]
