// word 0 rule 6
    add x22, x4, #24
    ldr x0, [x21, w22, uxtw]
