// Preloaded into a host: when it ends, tells how its slots are mapped, a sum of each one's code, and what stands in the table of slot 0, in
// the file that MAPPED names.
#include <inttypes.h>
#include <stdint.h>
#include <stdio.h>
#include <stdlib.h>
#include <string.h>

static int is_readable(const char *rights) { return rights[0] == 'r'; }

/* A sum of bytes (FNV-1a). */
static uint64_t sum_of(const uint8_t *at, const uint8_t *end) {
    uint64_t sum = 0xcbf29ce484222325;
    for (; at < end; at++) sum = (sum ^ *at) * 0x100000001b3;
    return sum;
}

__attribute__((destructor)) static void tell(void) {
    const char *name = getenv("MAPPED");
    FILE *maps = fopen("/proc/self/maps", "r"), *told = name ? fopen(name, "w") : NULL;
    char line[1024], rights[8];
    uint64_t from, to, number;
    if (!maps || !told) return;
    while (fgets(line, sizeof line, maps)) {
        if (sscanf(line, "%" SCNx64 "-%" SCNx64 " %4s", &from, &to, rights) != 3 || to <= 0xffff0000 || from >= 1ull << 38) continue;
        fprintf(told, "%" PRIx64 " %" PRIx64 " %s\n", from, to, rights);
        if (from % (1ull << 32) == 65536 && !strcmp(rights, "r--p")) fprintf(told, "code %" PRIx64 "\n", sum_of((const uint8_t *)(uintptr_t)from, (const uint8_t *)(uintptr_t)to));
        for (uint64_t at = from; from == 1ull << 32 && is_readable(rights) && at < from + 4096; at += 8) {
            memcpy(&number, (const void *)(uintptr_t)at, 8);
            fprintf(told, "entry %" PRIx64 "\n", number);
        }
    }
    fclose(told);
}
