/* The C library that the drivers and their libraries need in a slot, as small as it goes: memory that is never given back. */
#include <stddef.h>
#include <stdint.h>

extern char rt_heap[];
static size_t used;

void *memcpy(void *restrict to, const void *restrict from, size_t size) {
    char *a = to;
    const char *b = from;
    for (; size >= 8; a += 8, b += 8, size -= 8) *(uint64_t *)a = *(const uint64_t *)b;
    while (size--) *a++ = *b++;
    return to;
}

void *memmove(void *to, const void *from, size_t size) {
    char *a = to;
    const char *b = from;
    if (a <= b || a >= b + size)
        while (size--) *a++ = *b++;
    else
        while (size--) a[size] = b[size];
    return to;
}

void *memset(void *to, int byte, size_t size) {
    char *a = to;
    for (; size >= 8; a += 8, size -= 8) *(uint64_t *)a = (uint8_t)byte * 0x0101010101010101u;
    while (size--) *a++ = (char)byte;
    return to;
}

int memcmp(const void *left, const void *right, size_t size) {
    const unsigned char *a = left, *b = right;
    for (; size; a++, b++, size--)
        if (*a != *b) return *a - *b;
    return 0;
}

size_t strlen(const char *text) {
    const char *end = text;
    while (*end) end++;
    return (size_t)(end - text);
}

void *malloc(size_t size) {
    char *found = rt_heap + used;
    used += (size + 15) & ~(size_t)15;
    return found;
}

void *calloc(size_t count, size_t size) { return malloc(count * size); } /* nothing is given out twice, so it is zero */
void free(void *memory) { (void)memory; }
void abort(void) { __builtin_trap(); }
