// word 1 rule 8
    mov x0, x19
    bl .+4096
