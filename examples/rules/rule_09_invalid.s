// word 0 rule 9
    blr x8
