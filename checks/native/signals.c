/* What the host makes of a signal that comes while code runs: at the edges of slot and guards, by docs/HOST.md, "When the code stops"; how its
 * handler gets back, and how code goes on whose access it carried out. Prints each on which it errs, and the first entry whose words aren't
 * those of docs/HOST.md (by the Arm manual). Made of the files of examples/native_host but run.c, which stands here, and command.c. */
#include "run.c"

enum { BTI_C = 0xd503245f, FMOV_D31_X16 = 0x9e67021f, MOVZ_W16 = 0x52800010, ENTRIES = 512, ENTRY_BYTES = 16 };
enum { FMOV_D30_X17 = 0x9e67023e, LITERAL_X17 = 0x58000011, BR_X17 = 0xd61f0220 };
static const uint64_t branch_type = UINT64_C(3) << 10; /* in pstate */

static void look_at_reasons(slot *it) {
    const uint64_t low = it->map.base - 65536, high = it->map.base + (UINT64_C(1) << 32) + 65536;
    const struct { int number; uint64_t address; enum halt wanted; } rows[] = {
        {SIGSEGV, low, HALT_ACCESS},   {SIGSEGV, low - 1, HALT_ESCAPE}, {SIGSEGV, high - 1, HALT_ACCESS}, {SIGSEGV, high, HALT_ESCAPE},
        {SIGSEGV, 0, HALT_ESCAPE},     {SIGBUS, high - 1, HALT_BUS},    {SIGBUS, high, HALT_ESCAPE},      {SIGILL, low, HALT_ESCAPE},
    };
    for (size_t k = 0; k < sizeof rows / sizeof *rows; k++) {
        mcontext_t registers = {.pc = code_of(it)};
        ending how = why(it, rows[k].number, rows[k].address, &registers);
        if (how.halt != rows[k].wanted) printf("signal %d at 0x%llx: %d\n", rows[k].number, (unsigned long long)rows[k].address, (int)how.halt);
    }
    printf("%zu signals\n", sizeof rows / sizeof *rows);
}

// HOST: **Handlers that end the code.** The handler gets back by setting pc to code of the host's, sp to the host's stack, and BTYPE to 0
//   (bits 10 and 11 of `pstate`, which may be set where the signal came at the target of a BR or BLR). What it hands over it puts into a
//   register; all others are the code's there. It finds its thread's frame by TPIDR_EL0, as an entry does.
static void look_at_the_way_back(slot *it) {
    ucontext_t context = {.uc_mcontext = {.pc = code_of(it) + 4, .sp = 16, .pstate = branch_type}};
    siginfo_t info = {0};
    lfi_frame.host_sp = 4096, now.slot = it;
    handle(SIGTRAP, &info, &context);
    const mcontext_t *back = &context.uc_mcontext;
    int is_back = back->pc == (uint64_t)lfi_leave && back->sp == 4096 && back->regs[0] == (uint64_t)&lfi_frame;
    if (!is_back || back->pstate & branch_type) printf("the way back: pstate 0x%llx\n", (unsigned long long)back->pstate);
}

static uint32_t word_at(size_t place) {
    uint32_t word;
    return memcpy(&word, lfi_entries + place, sizeof word), word;
}

// HOST: At each of these addresses the host has code, of at most 16 bytes (four instructions) before the next one begins; for a j that has
//   no service too, since the code may call any.
// HOST: **Which entry was called** pc alone tells; all registers may be the same for each. So the host's code at an entry has to differ
//   from entry to entry, and where no register may be lost it has none to put the number in. Still four instructions an entry lose no
//   register: `bti c`, `fmov d31, x16`, `mov w16, #j`, and a `b` to a common tail behind the 8,192 bytes.
static void look_at_entries(void) {
    const size_t tail = ENTRIES * ENTRY_BYTES;
    for (size_t j = 0, at = 0; j < ENTRIES; j++, at += ENTRY_BYTES) {
        uint32_t to_tail = 0x14000000 | (uint32_t)(tail - at - 12) >> 2;
        // HOST: Where the host's own code has branch protection, an entry begins with `bti c`; the slot's pages are mapped without it.
        if (word_at(at) == BTI_C && word_at(at + 4) == FMOV_D31_X16 && word_at(at + 8) == (MOVZ_W16 | j << 5) && word_at(at + 12) == to_tail) continue;
        printf("entry %zu has other words: 0x%x ..\n", j, word_at(at)), j = ENTRIES;
    }
    // HOST: The tail keeps x17 in d30 in the same way, and goes on by a literal and `br x17`, since most of the host lies farther away than
    //   the 128 MiB that `b` reaches.
    if (word_at(tail) != FMOV_D30_X17 || (word_at(tail + 4) & 0xff00001f) != LITERAL_X17 || word_at(tail + 8) != BR_X17) printf("another tail\n");
}

/* LDAR X0, [X18] and STLR X0, [X18] at an address that is no multiple of their size: in the data they change x0 or 8 bytes, and pc; a byte
 * that may not be accessed ends the code there, and nothing is changed. */
static void look_at_ordered(void) {
    static const uint32_t code[] = {0xc8dffe40, 0xc89ffe40};
    slot *it = &slots[4];
    uint8_t *at = open_slot(4, 2, 0, LFI_PROFILE_2), *data = (uint8_t *)it->end, bytes[32];
    memcpy(at, code, sizeof code);
    seal_slot(it);
    now.slot = it, carries_out_ordered = 1;
    const uint64_t base = it->map.base, end = base + it->map.size, denied[][3] = {
        {0, base + 4089, base + 4096}, {0, base + 65531, base + 65531}, {0, end - 7, end}, {1, base + 4089, base + 4089}, {1, it->end - 1, it->end - 1},
        {1, end - 7, end}};
    for (size_t k = 0; k < 2 + sizeof denied / sizeof *denied; k++) {
        size_t stores = k < 2 ? k : denied[k - 2][0];
        ucontext_t found = {.uc_mcontext = {.pc = code_of(it) + 4 * stores, .sp = base, .pstate = branch_type}};
        siginfo_t info = {0};
        for (int r = 0; r < 31; r++) found.uc_mcontext.regs[r] = (uint64_t)r * UINT64_C(0x0123456789abcdef);
        for (size_t b = 0; b < sizeof bytes; b++) data[b] = bytes[b] = (uint8_t)(b + 1);
        found.uc_mcontext.regs[0] = ~UINT64_C(0x0123456789abcdef);
        found.uc_mcontext.regs[18] = k < 2 ? it->end + 3 : denied[k - 2][1];
        ucontext_t wanted = found;
        if (k >= 2) {
            ending how = why(it, SIGBUS, 0, &found.uc_mcontext);
            // HOST: It looks at the word at pc, and tests each byte by the map above.
            if (how.halt != HALT_ACCESS || how.at != denied[k - 2][2]) printf("denied %zu: %d at 0x%llx\n", k, (int)how.halt, (unsigned long long)how.at);
        } else {
            handle(SIGBUS, &info, &found);
            wanted.uc_mcontext.pc += 4;
            memcpy(stores ? (void *)(bytes + 3) : (void *)wanted.uc_mcontext.regs, stores ? (void *)wanted.uc_mcontext.regs : (void *)(bytes + 3), 8);
        }
        // HOST: So code that was interrupted is gone on with exactly as it stood, or not at all;
        // HOST: It changes what the instruction changes, and nothing else: the data register or the bytes, and pc. Then it goes on.
        if (memcmp(&found, &wanted, sizeof found) || memcmp(data, bytes, sizeof bytes)) printf("ordered %zu: something else is changed\n", k);
    }
}

int main(void) {
    slot it = {.words = 2};
    if (lfi_profile_map(LFI_PROFILE_1, 3, &it.map)) return 1;
    prepare_process();
    look_at_reasons(&it);
    look_at_the_way_back(&it);
    look_at_entries();
    look_at_ordered();
    return 0;
}
