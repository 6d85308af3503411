// word 0 rule 4
    ldr x23, [sp, #16]
