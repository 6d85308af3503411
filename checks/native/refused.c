/* Tells at the host's end which pages of slots may still be accessed, by proc(5), /proc/pid/maps. Made of all files of examples/native_host. */
#include "native_host.h"

static const unsigned long first = 0xffff0000, end = 1ul << 38;

__attribute__((destructor)) static void tell(void) {
    FILE *maps = fopen("/proc/self/maps", "r");
    char line[1024], rights[8];
    unsigned long from, to;
    while (maps && fgets(line, sizeof line, maps))
        if (sscanf(line, "%lx-%lx %4s", &from, &to, rights) == 3 && from >= first && from < end && memcmp(rights, "---", 3))
            printf("%lx %lx %s\n", from, to, rights);
}
