/* A host that runs foreign code in its own process: takes the code of a module from standard input straight into its slot,
 * judges it as it comes, and only then lets it stay. docs/C.md says what each call promises and what it asks for.
 *
 *   cc -I include examples/host.c out/TARGET/liblfi_verifier.a -o host
 *   ./host 1 124 < examples/checksums.code
 *
 * The first word is the module, 0 to 15, the second one how many words it has; a third one is its profile, which is 1 without. */
#ifndef _GNU_SOURCE
#define _GNU_SOURCE
#endif
#include "lfi_verifier.h"
#include <stdio.h>
#include <stdlib.h>
#include <sys/mman.h>
#include <unistd.h>

/* Reserves the slot and its guards, without access. */
static uint8_t *reserve(const lfi_map *map) {
    void *from = (void *)(uintptr_t)(map->base - map->guard);
    int how = MAP_PRIVATE | MAP_ANONYMOUS | MAP_NORESERVE | MAP_FIXED_NOREPLACE;
    return mmap(from, map->guard + map->size + map->guard, PROT_NONE, how, -1, 0) == from ? (uint8_t *)from + map->guard : NULL;
}

/* Writes the table of the runtime's entries, which may then be read alone. */
static int write_table(const lfi_map *map, uint8_t *slot) {
    if (mprotect(slot, map->table, PROT_READ | PROT_WRITE)) return 0;
    for (uint64_t i = 0; i < map->entries; i++)
        for (int k = 0; k < 8; k++) slot[8 * i + (uint64_t)k] = (uint8_t)((map->entry + i * map->entry_step) >> (8 * k));
    return !mprotect(slot, map->table, PROT_READ);
}

/* Reads the code to its place, and judges each piece there. The state tells how much came. */
static lfi_status take_code(uint8_t *code, uint32_t words, uint32_t profile, lfi_state *state, lfi_fault *fault) {
    size_t come = 0, size = 4 * (size_t)words;
    lfi_status status = lfi_verify_init(state, words, profile);
    while (status == LFI_LAWFUL && come < size) {
        ssize_t got = read(0, code + come, size - come < 4096 ? size - come : 4096);
        if (got < 0) perror("host"), exit(3);
        if (got == 0) break;
        come += (size_t)got;
        size_t judged = 4 * (size_t)state->judged;
        status = lfi_verify_update(state, code + judged, (come - judged) / 4 * 4);
    }
    return status > LFI_REFUSED ? status : lfi_verify_final(state, fault);
}

/* Tells why the code is refused, of which so much came. */
static void tell(const uint8_t *code, uint32_t module, const lfi_state *state, const lfi_fault *fault) {
    uint8_t text[1024];
    size_t size = 4 * (size_t)state->judged, count = 0;
    lfi_explain(state->profile, module, state->words, code, size, fault, text, sizeof text, &count);
    printf("%.*s\n", (int)(count < sizeof text ? count : sizeof text), (const char *)text);
}

/* A number of the command line; of other words, one above all that are asked for. */
static uint32_t number(const char *text) {
    char *end;
    unsigned long it = strtoul(text, &end, 10);
    return end != text && *end == 0 && it < UINT32_MAX ? (uint32_t)it : UINT32_MAX;
}

int main(int count, char **given) {
    lfi_map map;
    lfi_state state;
    lfi_fault fault;
    uint32_t module = count > 2 ? number(given[1]) : LFI_MODULES, words = count > 2 ? number(given[2]) : 0;
    uint32_t profile = count > 3 ? number(given[3]) : LFI_PROFILE_1;
    if (words == 0 || words > LFI_MAX_WORDS || lfi_profile_map(profile, module, &map)) return 2;
    size_t end = (map.code + 4 * (size_t)words + 4095) / 4096 * 4096;
    uint8_t *slot = reserve(&map);
    if (!slot || !write_table(&map, slot) || mprotect(slot + map.code, end - map.code, PROT_READ | PROT_WRITE)) return 3;
    lfi_status status = take_code(slot + map.code, words, profile, &state, &fault);
    /* Nobody writes the code from here on: on AArch64 it would be PROT_READ | PROT_EXEC. Behind it lies what it may write. */
    if (mprotect(slot + map.code, end - map.code, PROT_READ) || mprotect(slot + end, map.size - end, PROT_READ | PROT_WRITE)) return 3;
    if (status == LFI_LAWFUL)
        printf("lawful, %u words\n", words);
    else if (status == LFI_REFUSED)
        tell(slot + map.code, module, &state, &fault);
    else
        printf("words are missing\n");
    return status == LFI_LAWFUL ? 0 : 1;
}
