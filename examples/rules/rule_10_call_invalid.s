// word 1 rule 10
    ldr x30, [x21, #8]
    mov x0, x19
    blr x30
