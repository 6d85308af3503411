/* The ways into a slot and out of it. A frame (native_host.h) has x0 to x30 from 0 on, sp at 248, the host's sp at 256, flags at 264. */
    .text
    .global lfi_enter, lfi_leave, lfi_entries, lfi_entries_end

    .macro for_all_but_x16_x17 op   // op is ldr or str, and the frame is at x17
    .irp n, 0, 1, 2, 3, 4, 5, 6, 7, 8, 9, 10, 11, 12, 13, 14, 15, 18, 19, 20, 21, 22, 23, 24, 25, 26, 27, 28, 29, 30
    \op x\n, [x17, #8 * \n]
    .endr
    .endm
    .macro for_all_that_c_keeps op
    .irp n, 19, 20, 21, 22, 23, 24, 25, 26, 27, 28, 29, 30
    \op x\n, [sp, #8 * (\n - 19)]
    .endr
    .irp n, 8, 9, 10, 11, 12, 13, 14, 15
    \op d\n, [sp, #96 + 8 * (\n - 8)]
    .endr
    .endm
    .macro take_registers           // of the frame at x17, but for x16 and x17
    ldr x9, [x17, #264]
    msr nzcv, x9
    ldr x9, [x17, #248]
    mov sp, x9                      // the code's from here on
    for_all_but_x16_x17 ldr
    .endm

/* void lfi_enter(frame *registers, uint64_t start): goes to `start`, which sets x16 to 0 and goes on to the module. */
lfi_enter:
    sub sp, sp, #160
    for_all_that_c_keeps str
    mov x9, sp
    str x9, [x0, #256]
    mov x17, x0
    mov x16, x1
    take_registers
    ldr x17, [x17, #8 * 17]
    br x16

/* void lfi_leave(frame *registers): returns from lfi_enter, whatever else the registers hold. */
lfi_leave:
    ldr x9, [x0, #256]
    mov sp, x9
    for_all_that_c_keeps ldr
    add sp, sp, #160
    ret

/* What make_entries copies to 2^40. HOST: four instructions an entry lose no register */
    .balign 16
lfi_entries:
    .set number, 0
    .rept 512
    bti c                           /* HOST: an entry begins with `bti c` */
    fmov d31, x16                   /* HOST: Floating-point and SIMD registers are touched by no instruction of the profile */
    movz w16, #number
    b 1f
    .set number, number + 1
    .endr
1:  fmov d30, x17
    ldr x17, 2f                     // the host is farther away than a direct branch reaches
    br x17
    .balign 8
2:  .quad entered
lfi_entries_end:

/* Where all entries go on: x16 is in d31, x17 in d30, the entry's number in w16.
 * HOST: which it finds by what the code can't write (a system register such as TPIDR_EL0 */
entered:
    mrs x17, tpidr_el0
    add x17, x17, #:tprel_hi12:lfi_frame, lsl #12
    add x17, x17, #:tprel_lo12_nc:lfi_frame
    for_all_but_x16_x17 str
    stp d31, d30, [x17, #8 * 16]
    mov x0, sp
    mrs x1, nzcv
    ldr x2, [x17, #256]
    str x0, [x17, #248]
    str x1, [x17, #264]
    .if PLANT >= 18; mov x9, #-1; str x9, [x17, #8 * PLANT]; .endif    // a fault that checks/native plants, and has to find
    mov sp, x2                      /* HOST: uses no byte at sp: it takes a stack of the host's */
    mov x19, x17
    mov x0, x17
    mov w1, w16
    bl lfi_runtime
    mov x17, x19
    cbz w0, 3f
    take_registers                  /* HOST: gives them back as they were */
    .if PLANT == 2; mov x24, #0; .endif                                // another one
    ldp x16, x17, [x17, #8 * 16]
    ret                             /* HOST: returns through x30 of the call, or doesn't return. */
3:  mov x0, x17
    b lfi_leave

    .section .note.GNU-stack, "", %progbits
