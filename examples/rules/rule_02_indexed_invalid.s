// word 0 rule 2
    ldrb w0, [x1], #1
