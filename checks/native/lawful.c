/* Which registers at a call the host takes for lawful: tries each number at the edges of the table of docs/HOST.md, "Registers", by itself
 * beside lawful ones, and prints each on which it errs. Made of the files of examples/native_host but run.c, which stands here, and command.c. */
#include "run.c"

int main(void) {
    lfi_map map;
    if (lfi_profile_map(LFI_PROFILE_1, 7, &map)) return 1;
    const uint64_t base = map.base, end = base + (UINT64_C(1) << 32), all = ~UINT64_C(0);
    /* A register, 31 for sp; and numbers in pairs, of which the first is lawful and the second, its neighbor, isn't. */
    const struct { int number; uint64_t pairs[4]; } rows[] = {
        {18, {base, base - 1, end - 1, end}}, {21, {base, base - 1, base, base + 1}}, {22, {0, all, end - base - 1, end - base}},
        {23, {base, base - 1, end - 1, end}}, {24, {base, base - 1, end - 1, end}},   {30, {base, base - 1, end - 1, end}},
        {31, {base - 512, base - 513, end + 511, end + 512}},
    };
    for (size_t k = 0; k < sizeof rows / sizeof *rows; k++)
        for (int j = 0; j < 4; j++) {
            frame it = {.sp = end, .flags = UINT64_C(15) << 28};
            // HOST: `lfi_profile_registers` tells them, and these are all: whatever else a register holds, the law is the same.
            // HOST: | all others, and the flags | anything |
            for (uint64_t r = 0; r < 31; r++) it.x[r] = r == 22 ? 0 : ~r;
            it.x[18] = it.x[21] = it.x[23] = it.x[24] = it.x[30] = base;
            *(rows[k].number == 31 ? &it.sp : &it.x[rows[k].number]) = rows[k].pairs[j];
            if (are_lawful(&it, &map) != (j % 2 == 0)) printf("register %d: 0x%llx\n", rows[k].number, (unsigned long long)rows[k].pairs[j]);
        }
    printf("%zu registers\n", sizeof rows / sizeof *rows);
    return 0;
}
