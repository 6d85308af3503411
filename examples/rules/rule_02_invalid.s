// word 0 rule 2
    str w0, [x4, x3, lsl #2]
