/* What mends are tried on where no sources of libraries are: one of each kind of what a compiler writes. It prints the same in a slot and here. */
#include <stddef.h>
#include <stdint.h>

/* Declared here, since clang has no headers of a C library for AArch64. */
void rt_putc(int c);
void *malloc(size_t size);
void *calloc(size_t count, size_t size);
void *memcpy(void *restrict to, const void *restrict from, size_t size);
void *memmove(void *to, const void *from, size_t size);
int memcmp(const void *left, const void *right, size_t size);

static void say(const char *text) {
    while (*text) rt_putc(*text++);
}

static void tell(const char *what, uint64_t number) {
    char digits[24];
    int k = 24;
    do digits[--k] = (char)('0' + number % 10), number /= 10;
    while (number);
    say(what), say(" ");
    while (k < 24) rt_putc(digits[k++]);
    say("\n");
}

static uint32_t seed = 2463534242u;

static uint32_t random_number(void) {
    seed ^= seed << 13, seed ^= seed >> 17, seed ^= seed << 5;
    return seed;
}

/* SHA-256: rotations, REV, tables, many live values. */
static const uint32_t rounds[64] = {
    0x428a2f98, 0x71374491, 0xb5c0fbcf, 0xe9b5dba5, 0x3956c25b, 0x59f111f1, 0x923f82a4, 0xab1c5ed5, 0xd807aa98, 0x12835b01, 0x243185be, 0x550c7dc3, 0x72be5d74,
    0x80deb1fe, 0x9bdc06a7, 0xc19bf174, 0xe49b69c1, 0xefbe4786, 0x0fc19dc6, 0x240ca1cc, 0x2de92c6f, 0x4a7484aa, 0x5cb0a9dc, 0x76f988da, 0x983e5152, 0xa831c66d,
    0xb00327c8, 0xbf597fc7, 0xc6e00bf3, 0xd5a79147, 0x06ca6351, 0x14292967, 0x27b70a85, 0x2e1b2138, 0x4d2c6dfc, 0x53380d13, 0x650a7354, 0x766a0abb, 0x81c2c92e,
    0x92722c85, 0xa2bfe8a1, 0xa81a664b, 0xc24b8b70, 0xc76c51a3, 0xd192e819, 0xd6990624, 0xf40e3585, 0x106aa070, 0x19a4c116, 0x1e376c08, 0x2748774c, 0x34b0bcb5,
    0x391c0cb3, 0x4ed8aa4a, 0x5b9cca4f, 0x682e6ff3, 0x748f82ee, 0x78a5636f, 0x84c87814, 0x8cc70208, 0x90befffa, 0xa4506ceb, 0xbef9a3f7, 0xc67178f2};

static uint32_t turned(uint32_t word, int by) { return word >> by | word << (32 - by); }

static void sha256_block(uint32_t *hash, const uint8_t *block) {
    uint32_t w[64], h[8];
    for (int k = 0; k < 16; k++) {
        uint32_t word;
        memcpy(&word, block + 4 * k, 4);
        w[k] = __builtin_bswap32(word);
    }
    for (int k = 16; k < 64; k++)
        w[k] = w[k - 16] + (turned(w[k - 15], 7) ^ turned(w[k - 15], 18) ^ w[k - 15] >> 3) + w[k - 7] + (turned(w[k - 2], 17) ^ turned(w[k - 2], 19) ^ w[k - 2] >> 10);
    memcpy(h, hash, sizeof h);
    for (int k = 0; k < 64; k++) {
        uint32_t one = h[7] + (turned(h[4], 6) ^ turned(h[4], 11) ^ turned(h[4], 25)) + ((h[4] & h[5]) ^ (~h[4] & h[6])) + rounds[k] + w[k];
        uint32_t two = (turned(h[0], 2) ^ turned(h[0], 13) ^ turned(h[0], 22)) + ((h[0] & h[1]) ^ (h[0] & h[2]) ^ (h[1] & h[2]));
        memmove(h + 1, h, 7 * sizeof *h);
        h[4] += one, h[0] = one + two;
    }
    for (int k = 0; k < 8; k++) hash[k] += h[k];
}

static uint64_t sha256(const uint8_t *bytes, size_t size) {
    uint32_t hash[8] = {0x6a09e667, 0xbb67ae85, 0x3c6ef372, 0xa54ff53a, 0x510e527f, 0x9b05688c, 0x1f83d9ab, 0x5be0cd19};
    for (size_t at = 0; at + 64 <= size; at += 64) sha256_block(hash, bytes + at);
    return (uint64_t)hash[0] << 32 | hash[7];
}

/* A list that is sorted by a function through a pointer; structs and pointers to them. */
struct item {
    struct item *next;
    int16_t key;
    int8_t sign;
    uint64_t value;
};

static int by_key(const struct item *a, const struct item *b) { return a->key - b->key; }
static int by_value(const struct item *a, const struct item *b) { return (a->value > b->value) - (a->value < b->value); }

static int (*volatile orders[2])(const struct item *, const struct item *) = {by_key, by_value};

static struct item *merged(struct item *a, struct item *b, int (*order)(const struct item *, const struct item *)) {
    struct item *first = 0, **end = &first;
    while (a && b) {
        struct item **least = order(a, b) <= 0 ? &a : &b;
        *end = *least, end = &(*least)->next, *least = (*least)->next;
    }
    *end = a ? a : b;
    return first;
}

static struct item *sorted(struct item *list, int (*order)(const struct item *, const struct item *)) {
    struct item *halves[2] = {0, 0};
    if (!list || !list->next) return list;
    for (int k = 0; list; k ^= 1) {
        struct item *next = list->next;
        list->next = halves[k], halves[k] = list, list = next;
    }
    return merged(sorted(halves[0], order), sorted(halves[1], order), order);
}

/* A packer of repetitions: bytes that are read and written with their pointers, memory that overlaps. */
static size_t packed(const uint8_t *from, size_t size, uint8_t *to) {
    uint16_t *table = calloc(4096, sizeof *table);
    uint8_t *start = to;
    for (size_t at = 0; at < size;) {
        uint32_t four = 0;
        if (at + 4 <= size) memcpy(&four, from + at, 4);
        uint16_t *slot = table + (four * 2654435761u >> 20);
        size_t back = at - *slot, same = 0;
        while (back && back <= at && at + same < size && same < 127 && from[at + same] == from[at + same - back]) same++;
        *slot = (uint16_t)at;
        if (same >= 4) *to++ = (uint8_t)(128 + same), *to++ = (uint8_t)back, *to++ = (uint8_t)(back >> 8), at += same;
        else *to++ = from[at] & 127, at++;
    }
    return (size_t)(to - start);
}

static size_t unpacked(const uint8_t *from, size_t size, uint8_t *to) {
    uint8_t *start = to;
    for (const uint8_t *end = from + size; from < end;) {
        int byte = *from++;
        if (byte < 128) *to++ = (uint8_t)byte;
        else {
            size_t back = from[0] | from[1] << 8;
            from += 2;
            for (int k = byte - 128; k; k--, to++) *to = to[-(ptrdiff_t)back];
        }
    }
    return (size_t)(to - start);
}

/* Products, quotients, counts of zeros, sums of two words, products of 32 bits. */
static uint64_t numbers(void) {
    uint64_t sum = 0;
    for (int k = 1; k < 2000; k++) {
        uint64_t a = random_number(), b = random_number() | 1;
        a = a << 32 | random_number();
        unsigned __int128 wide = (unsigned __int128)a * b;
        sum += (uint64_t)(wide >> 64) ^ (uint64_t)wide;
        sum += a / b + (uint64_t)((int64_t)a / (int32_t)(b >> 3 | 1)) + a % 1000003;
        sum += (uint64_t)__builtin_clzll(a | 1) + (uint64_t)__builtin_ctzll(a | 1ull << 63) + (uint64_t)__builtin_ctz((uint32_t)b);
        sum ^= __builtin_bswap64(a) + __builtin_bswap16((uint16_t)b);
        sum += (uint64_t)(uint32_t)a * (uint32_t)b + (uint64_t)((int64_t)(int32_t)a * (int32_t)b);
        sum = sum << (k % 63 + 1) | sum >> (63 - k % 63);
    }
    return sum;
}

/* An array on the stack whose size isn't known before, and recursion. */
static __attribute__((noinline)) uint64_t on_stack(int depth, uint32_t size) {
    volatile uint32_t many[size];
    uint64_t sum = 0;
    for (uint32_t k = 0; k < size; k++) many[k] = random_number();
    for (uint32_t k = 0; k < size; k += 3) sum += many[k];
    return depth ? sum + on_stack(depth - 1, size / 2 + 3) : sum;
}

static uint8_t text[20000], small[30000], large[20000];

int main(void) {
    struct item *list = 0;
    for (int k = 0; k < 500; k++) {
        struct item *item = malloc(sizeof *item);
        item->key = (int16_t)random_number(), item->sign = (int8_t)k, item->value = (uint64_t)random_number() * random_number();
        item->next = list, list = item;
    }
    for (int order = 0; order < 2; order++) {
        uint64_t sum = 0, place = 0;
        list = sorted(list, orders[order]);
        for (struct item *at = list; at; at = at->next) sum += ++place * (at->value ^ (uint64_t)(int64_t)at->key) - (uint64_t)(int64_t)at->sign;
        tell(order ? "by value" : "by key", sum);
    }
    for (size_t k = 0; k < sizeof text; k++) text[k] = k > 300 && random_number() % 9 ? text[k - 1 - random_number() % 7] : 'a' + random_number() % 20;
    size_t size = packed(text, sizeof text, small);
    tell("packed", size);
    tell("the same", unpacked(small, size, large) == sizeof text && !memcmp(text, large, sizeof text));
    tell("hash", sha256(small, size));
    tell("numbers", numbers());
    tell("on the stack", on_stack(6, 900));
    return 0;
}
