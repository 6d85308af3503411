/* The map of a slot, and the way of a module's code into it. */
#include "native_host.h"

slot slots[LFI_MODULES];

_Noreturn void die(const char *what) {
    fprintf(stderr, "native_host: %s: %s\n", what, strerror(errno));
    exit(3);
}

static void protect(uint64_t from, uint64_t to, int rights) {
    if (from < to && mprotect((void *)from, to - from, rights)) die("mprotect");
}

/* HOST: they are reserved at the start, with a call that fails where something lies there */
static void claim(uint64_t from, uint64_t size) {
    void *got = mmap((void *)from, size, PROT_NONE, MAP_PRIVATE | MAP_ANONYMOUS | MAP_NORESERVE | MAP_FIXED_NOREPLACE, -1, 0);
    if (got == MAP_FAILED) die("mmap");
    /* HOST: compares the address that it is answered with the one that it asked for */
    if (got != (void *)from) errno = EEXIST, die("mmap");
}

static void write_host_code(uint64_t at, const void *words, size_t size) {
    protect(at, at + size, PROT_READ | PROT_WRITE);
    memcpy((void *)at, words, size);
    __builtin___clear_cache((char *)at, (char *)at + size);
    protect(at, at + size, PROT_READ | PROT_EXEC);
}

/* HOST: At each of these addresses the host has code, of at most 16 bytes (four instructions) before the next one begins */
void make_entries(void) {
    lfi_map map;
    size_t size = (size_t)(lfi_entries_end - lfi_entries);
    if (lfi_profile_map(LFI_PROFILE_1, 0, &map) || size <= map.entries * map.entry_step) die("entries");
    claim(map.entry, (size + PAGE - 1) / PAGE * PAGE);
    write_host_code(map.entry, lfi_entries, size);
}

/* A page of the host's below the lower guard, from which B reaches all words of the module. */
uint64_t start_of(const slot *it) { return it->map.base - it->map.guard - PAGE; }
uint64_t code_of(const slot *it) { return it->map.base + it->map.code; }

/* Whether an address lies in the slot or in a guard. */
int is_near(const slot *it, uint64_t address) { return address - (it->map.base - it->map.guard) < it->map.size + 2 * it->map.guard; }

static void reserve(slot *it, uint32_t number, uint32_t profile) {
    if (lfi_profile_map(profile, number, &it->map)) die("map");
    const lfi_map *map = &it->map;
    uint64_t below = map->base - map->guard, above = map->base + map->size;
    /* HOST: Reserve slot and guards without access; no other mapping, thread or process has a way to these pages. */
    claim(start_of(it), above + map->guard - start_of(it));
    if (PLANT == PLANT_GUARDS) protect(below, map->base, PROT_READ), protect(above, above + map->guard, PROT_READ);
    /* HOST: Write the table; from then on it is read alone. */
    protect(map->base, map->base + map->table, PROT_READ | PROT_WRITE);
    for (uint64_t j = 0; j < map->entries; j++) ((uint64_t *)map->base)[j] = map->entry + j * map->entry_step;
    protect(map->base, map->base + map->table, PROT_READ);
}

/* Takes the module out of its slot: its code and data have no access any more, and are zero when they have it again. */
void close_slot(slot *it) {
    uint64_t from = code_of(it), to = it->map.base + it->map.size;
    if (mmap((void *)from, to - from, PROT_NONE, MAP_PRIVATE | MAP_ANONYMOUS | MAP_NORESERVE | MAP_FIXED, -1, 0) == MAP_FAILED) die("mmap");
    it->words = 0;
}

/* Makes room for a module's code, which is all zero and not executable. Answers where the code goes. */
uint8_t *open_slot(uint32_t number, uint32_t words, uint32_t entry, uint32_t profile) {
    slot *it = &slots[number];
    if (it->map.size == 0) reserve(it, number, profile);
    /* HOST: For another module in the same slot no thread may be in it any more, also in no call of the runtime; then all begins with 1. */
    if (it->words) close_slot(it);
    it->words = words, it->entry = entry, it->profile = profile;
    it->end = code_of(it) + (4 * (uint64_t)words + PAGE - 1) / PAGE * PAGE;
    /* HOST: Map 65,536 to R for reading and writing, not for execution, and bring the code there. The rest is zero. */
    protect(code_of(it), it->end, PROT_READ | PROT_WRITE);
    return (uint8_t *)code_of(it);
}

/* Makes the code executable, once it is judged lawful where it lies. */
void seal_slot(slot *it) {
    uint64_t code = code_of(it), start = start_of(it), entry = code + 4 * (uint64_t)it->entry;
    /* HOST: Take the right to write away. Then bring the instruction caches in step */
    protect(code, it->end, PROT_READ);
    __builtin___clear_cache((char *)code, (char *)it->end);
    /* HOST: have each core that will execute the code synchronize its context */
    if (syscall(SYS_membarrier, MEMBARRIER_CMD_PRIVATE_EXPEDITED_SYNC_CORE, 0, 0)) die("membarrier");
    /* HOST: They are never writable and executable at once (W^X), and never writable again. */
    protect(code, it->end, PROT_READ | PROT_EXEC);
    /* HOST: Map R to the slot's end for reading and writing, never for execution */
    protect(it->end, it->map.base + it->map.size, PROT_READ | PROT_WRITE);
    /* HOST: page of its own in reach of a branch, below the lower guard, with `mov x16, #0` and a `b` to the word */
    uint32_t words[2] = {0xd2800010, 0x14000000 | (uint32_t)((entry - start - 4) >> 2)};
    write_host_code(start, words, sizeof words);
}
