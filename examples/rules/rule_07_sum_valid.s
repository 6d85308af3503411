// lawful, 2 words
    sub w22, wsp, w0
    add sp, x21, x22, uxtx
