/* LDAR and STLR of profile 2 at an address that is no multiple of their size: the definitions carry them out, a processor refuses
 * them (SIGBUS). A host that wants what the definitions say carries them out itself; one that doesn't ends the code there. */
#include "native_host.h"

/* Whether the definitions let a byte of the slot be loaded, or stored. */
static int may_access(const slot *it, uint64_t address, int loads) {
    uint64_t place = address - it->map.base;
    return place < it->map.size && (address >= it->end || (loads && (place < it->map.table || place >= it->map.code)));
}

/* Carries out the word at pc, and goes on behind it; or *at is the first byte that it may not access; or it is no such word.
 * HOST: changes what the instruction changes, and nothing else */
enum ordered carry_out_ordered(const slot *it, mcontext_t *registers, uint64_t *at) {
    uint32_t word = *(const uint32_t *)registers->pc, base = word >> 5 & 31, data = word & 31;
    uint32_t loads = word >> 22 & 1, size = 1u << (word >> 30);
    uint64_t value = 0, from = base == 31 ? registers->sp : registers->regs[base];
    if ((word & 0x3fbffc00) != 0x089ffc00) return ORDERED_NOT;
    for (*at = from; *at < from + size; ++*at)
        if (!may_access(it, *at, (int)loads)) return ORDERED_DENIED;
    if (!loads && data != 31) value = registers->regs[data];
    memcpy(loads ? (void *)&value : (void *)from, loads ? (void *)from : (void *)&value, size);
    if (loads && data != 31) registers->regs[data] = value;
    registers->pc += 4;
    return ORDERED_DONE;
}
