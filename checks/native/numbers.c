/* Prints what the library tells of the maps of all slots, in each profile, and then of the registers: a line each, its numbers in the order
 * in which lfi_verifier.h has them. */
#include "native_host.h"

int main(void) {
    for (uint32_t profile = LFI_PROFILE_1; profile <= LFI_PROFILE_2; profile++) {
        for (uint32_t m = 0; m < LFI_MODULES; m++) {
            lfi_map it;
            if (lfi_profile_map(profile, m, &it)) return 1;
            const uint64_t numbers[] = {it.base, it.size, it.guard, it.table, it.code, it.entry, it.entry_step, it.entries};
            for (size_t k = 0; k < sizeof numbers / sizeof *numbers; k++) printf("%llu ", (unsigned long long)numbers[k]);
            printf("\n");
        }
        lfi_registers it;
        if (lfi_profile_registers(profile, &it)) return 1;
        printf("%u %u %u %u %u %u %u\n", it.base, it.offset, it.first_address, it.second_address, it.third_address, it.link, it.stack_reach);
    }
    return 0;
}
