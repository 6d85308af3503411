/* What lfi_enter keeps of its caller's: sp, and the registers that a function keeps by the procedure call standard for AArch64 (AAPCS64,
 * "General-purpose Registers" and "SIMD and Floating-Point Registers"), x19 to x29 and d8 to d15. Code that changes all that it may of them
 * is run in a slot, and ends by a call of its runtime, and by a signal. Prints each register that isn't kept. Made of the files of
 * examples/native_host but command.c, with --wrap=lfi_enter. */
#include "native_host.h"

enum { FIRST = 19, REGISTERS = 11, DOUBLES = 8, ALL = REGISTERS + DOUBLES + 1 };
/* keep calls lfi_enter with these numbers in x19 to x29 and then in d8 to d15; `found` is what these hold afterwards, and how far sp is away. */
void keep(frame *registers, uint64_t start, const uint64_t *numbers, uint64_t *found);
void __wrap_lfi_enter(frame *registers, uint64_t start);
extern const uint8_t by_a_call[], by_a_signal[], end_of_code[];
__asm__(".global keep, by_a_call, by_a_signal, end_of_code\n"
        ".macro for_pairs op, from\n"
        "    \\op x19, x20, [\\from]\n    \\op x21, x22, [\\from, #16]\n    \\op x23, x24, [\\from, #32]\n    \\op x25, x26, [\\from, #48]\n"
        "    \\op x27, x28, [\\from, #64]\n    \\op d8, d9, [\\from, #88]\n    \\op d10, d11, [\\from, #104]\n"
        "    \\op d12, d13, [\\from, #120]\n    \\op d14, d15, [\\from, #136]\n"
        ".endm\n"
        ".text\n"
        "keep: stp x29, x30, [sp, #-192]!\n"
        "    str x3, [sp, #16]\n    add x9, sp, #24\n    for_pairs stp, x9\n"
        "    mov x9, sp\n    str x9, [x3, #152]\n    for_pairs ldp, x2\n    ldr x29, [x2, #80]\n"
        "    bl __real_lfi_enter\n"
        "    ldr x3, [sp, #16]\n"
        "    for_pairs stp, x3\n    str x29, [x3, #80]\n    ldr x10, [x3, #152]\n    mov x9, sp\n    sub x10, x10, x9\n    str x10, [x3, #152]\n"
        "    add x9, sp, #24\n    for_pairs ldp, x9\n    ldp x29, x30, [sp], #192\n    ret\n"
        ".macro change\n"
        "    mov x19, #19\n    mov x20, #20\n    mov w22, #22\n    add x23, x21, w22, uxtw\n    add x24, x21, w22, uxtw\n    mov x25, #25\n"
        "    mov x26, #26\n    mov x27, #27\n    mov x28, #28\n    mov x29, #29\n"
        ".endm\n"
        ".section .rodata\n.balign 4\n"
        "by_a_call: change\n    ldr x30, [x21, #8]\n    blr x30\n    ldr x30, [x21]\n    blr x30\n"
        "by_a_signal: change\n    brk #1\n"
        "end_of_code:\n"
        ".text\n");

static uint64_t numbers[ALL], found[ALL];
static int put(uint8_t byte) { return (void)byte, 1; }
void __wrap_lfi_enter(frame *registers, uint64_t start) { keep(registers, start, numbers, found); }

/* Prints what isn't kept; answers how many registers that are. */
static int print_lost(void) {
    int lost = 0;
    for (int k = 0; k < ALL; k++) {
        if (found[k] == numbers[k]) continue;
        lost++;
        if (k == ALL - 1) printf("sp isn't kept\n");
        else if (k >= REGISTERS) printf("d%d isn't kept\n", k - REGISTERS + 8);
        else printf("x%d isn't kept\n", k + FIRST);
    }
    return lost;
}

/* Answers whether code that ends so was lawful, ended so, and changed nothing that is its caller's. */
// HOST: Floating-point and SIMD registers are touched by no instruction of the profile, so an entry owes them to the host alone.
static int is_kept(const uint8_t *code, const uint8_t *end, enum halt wanted) {
    size_t size = (size_t)(end - code);
    lfi_fault fault;
    uint8_t *at = open_slot(0, (uint32_t)(size / 4), 0, LFI_PROFILE_1);
    memcpy(at, code, size);
    if (lfi_verify(at, size, LFI_PROFILE_1, &fault)) return 0;
    seal_slot(&slots[0]);
    for (uint64_t k = 0; k < ALL - 1; k++) numbers[k] = (k + 1) * UINT64_C(0x0123456789abcdef);
    return run_slot(&slots[0], 0, put).halt == wanted && print_lost() == 0;
}

int main(void) {
    prepare_process();
    int first = is_kept(by_a_call, by_a_signal, HALT_ENDED), second = is_kept(by_a_signal, end_of_code, HALT_BREAK);
    printf("kept: by a call %d, by a signal %d\n", first, second);
    return 0;
}
