// word 0 rule 1
    ror x0, x1, #8
