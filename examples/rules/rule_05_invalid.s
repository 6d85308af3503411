// word 0 rule 5
    mov x30, x9
    ret
