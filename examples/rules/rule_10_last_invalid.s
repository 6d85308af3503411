// word 1 rule 10
    mov x0, #0
    sub sp, sp, #16
