// word 0 rule 7
    mov sp, x29
