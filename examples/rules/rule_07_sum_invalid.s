// word 0 rule 7
    sub sp, sp, x0
