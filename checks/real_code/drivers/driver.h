/* What the drivers stand on: the same in a slot, under Linux for AArch64 and on the machine that compiles them. */
#include <stddef.h>
#include <stdint.h>
#include <stdlib.h>
#include <string.h>

void rt_putc(int c);

static void say(const char *text) {
    while (*text) rt_putc(*text++);
}

static void tell(const char *what, uint64_t number) {
    char digits[24];
    int k = 24;
    do digits[--k] = (char)('0' + number % 10), number /= 10;
    while (number);
    say(what), say(" ");
    while (k < 24) rt_putc(digits[k++]);
    say("\n");
}

/* FNV-1a of so many bytes. */
static uint64_t fold(const void *bytes, size_t size) {
    const uint8_t *at = bytes;
    uint64_t hash = 0xcbf29ce484222325u;
    for (size_t i = 0; i < size; i++) hash = (hash ^ at[i]) * 0x100000001b3u;
    return hash;
}

static uint32_t seed = 12345;

static uint32_t random_number(void) {
    seed ^= seed << 13, seed ^= seed >> 17, seed ^= seed << 5;
    return seed;
}

/* Text of words, with repetition, as compressors like it. */
static uint8_t *some_text(size_t size) {
    static const char *const words[16] = {"slot", "guard", "module", "the", "entry", "word", "and", "of", "page", "stream", "verifier", "is", "a", "register", "lawful", "host"};
    uint8_t *text = malloc(size);
    for (size_t k = 0; k < size;) {
        if (k > 400 && random_number() % 8 == 0) {
            size_t from = random_number() % (k - 300), more = random_number() % 200;
            while (more-- && k < size) text[k++] = text[from++];
            continue;
        }
        const char *word = words[random_number() % 16];
        while (*word && k < size) text[k++] = (uint8_t)*word++;
        if (k < size) text[k++] = random_number() % 12 ? ' ' : '\n';
        if (random_number() % 30 == 0 && k < size) text[k++] = (uint8_t)random_number();
    }
    return text;
}
