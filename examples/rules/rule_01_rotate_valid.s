// lawful, 1 words
    orr x0, xzr, x1, ror #8
