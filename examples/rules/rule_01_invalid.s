// word 0 rule 1
    umull x0, w1, w3
