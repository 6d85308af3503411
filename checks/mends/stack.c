/* What the rewriter of examples/guard is tried on besides guarded.c: each way to write sp and to go through it, accesses that change their
 * base, accesses by an index, PRFM, calls through pointers, TBZ and TBNZ that reach too far once guards stand between, and numbers in x30. It
 * prints the same in a slot and here. */
void rt_putc(int c);

typedef unsigned long number; /* of 64 bits */

static unsigned words[64], seed = 2463534242u;
static short halves[64];
static long longs[64];

__attribute__((noinline)) static void put(number it) {
    for (int k = 60; k >= 0; k -= 4) rt_putc("0123456789abcdef"[it >> k & 15]);
    rt_putc('\n');
}

__attribute__((noinline)) static unsigned some(void) {
    seed ^= seed << 13, seed ^= seed >> 17, seed ^= seed << 5;
    return seed;
}

/* BLR of a table's functions. */
__attribute__((noinline)) static number times_three(number it) { return it * 3 + 1; }
__attribute__((noinline)) static number shifted(number it) { return it ^ it >> 7; }
__attribute__((noinline)) static number less(number it) { return it - 0x12345; }

static number (*volatile functions[3])(number) = {times_three, shifted, less};

__attribute__((noinline)) static number through_pointers(number it) {
    for (int k = 0; k < 9; k++) it = functions[k % 3](it);
    return functions[1](it);
}

/* Room on the stack whose size isn't known before: sp is written from a register, and back. */
__attribute__((noinline)) static number array_of(unsigned size) {
    volatile number numbers[size];
    number it = 0;
    for (unsigned k = 0; k < size; k++) numbers[k] = some();
    for (unsigned k = 0; k < size; k++) it = it * 31 + numbers[size - 1 - k];
    return it;
}
__attribute__((noinline)) static number allocated(unsigned size) {
    unsigned char *bytes = __builtin_alloca(size);
    number it = 0;
    for (unsigned k = 0; k < size; k++) bytes[k] = (unsigned char)some();
    for (unsigned k = 0; k < size; k++) it = it * 17 + bytes[k];
    return it;
}

/* Frames of less than 4,096 bytes, of more, of more than ADD's numbers reach without a shift, and one that is aligned. */
__attribute__((noinline)) static number middle_frame(unsigned it) {
    volatile unsigned numbers[3000];
    for (unsigned k = 0; k < 3000; k++) numbers[k] = k * it;
    return numbers[it % 3000] + numbers[2999 - it % 3000];
}
__attribute__((noinline)) static number large_frame(unsigned it) {
    volatile unsigned numbers[20000];
    for (unsigned k = 0; k < 20000; k++) numbers[k] = k ^ it;
    return numbers[it % 20000] + (number)numbers[19999 - it % 20000];
}
__attribute__((noinline)) static number small_frame(unsigned it) {
    volatile char bytes[4080];
    for (unsigned k = 0; k < 4080; k++) bytes[k] = (char)(k + it);
    return (unsigned char)bytes[it % 4080] + middle_frame(it);
}
__attribute__((noinline)) static number aligned_frame(unsigned it) {
    _Alignas(64) volatile unsigned numbers[32];
    for (unsigned k = 0; k < 32; k++) numbers[k] = k * it;
    return numbers[it % 32] + ((number)&numbers[0] & 63);
}

/* Accesses by an index: through sp, of one, two, four and eight bytes, so with each shift; and through another register. */
#define BY_INDEX(name, kind) \
    __attribute__((noinline)) static number name(unsigned it) { \
        volatile kind numbers[16]; \
        for (unsigned k = 0; k < 16; k++) numbers[k] = (kind)(k * 0x9e3779b97f4a7c15); \
        return (number)numbers[it & 15] + 3 * (number)numbers[(it + 1) & 15]; \
    }
BY_INDEX(by_index_of_1, unsigned char)
BY_INDEX(by_index_of_2, short)
BY_INDEX(by_index_of_4, int)
BY_INDEX(by_index_of_8, long)
__attribute__((noinline)) static number by_index(const volatile unsigned *at, const volatile short *other, int index) {
    return at[index] + (number)other[-index];
}

/* Accesses that change their base, before and after. */
__attribute__((noinline)) static number before(const unsigned *at, int count) {
    number it = 0;
    while (count--) it = it * 5 + *++at, it ^= *at;
    return it;
}
__attribute__((noinline)) static number after(const short *at, int count) {
    long it = 0;
    while (count--) it = it * 5 + *at++;
    return (number)it;
}
__attribute__((noinline)) static number stored_before(long *at, int count) {
    while (count--) *++at = count;
    return (number)(at[-1] * 3 + at[0]);
}
__attribute__((noinline)) static number downwards(const long *at, int count) {
    long it = 0;
    while (count--) it = it * 7 + *--at;
    return (number)it;
}

/* PRFM changes nothing. */
__attribute__((noinline)) static number with_prefetches(const unsigned *at, int count) {
    number it = 0;
    for (int k = 0; k < count; k++) __builtin_prefetch(at + k + 16), __builtin_prefetch(at - 1, 1), it = it * 3 + at[k];
    return it;
}

/* Bits that are tested far away from where the test leads: 4,096 stores between, so that gcc itself still takes TBZ and TBNZ. */
#define FOUR(does) does does does does
#define MANY(does) FOUR(FOUR(FOUR(FOUR(FOUR(does)))))
__attribute__((noinline)) static long far_away(number bits, volatile long *at) {
    if (bits & 1) { MANY(at[0] = 1; at[1] = 2; at[2] = 3; at[3] = 4;) at[4] += 1; }
    if (!(bits & 2)) { MANY(at[5] = 5; at[6] = 6; at[7] = 7; at[8] = 8;) at[9] += 1; }
    return at[0] + at[1] * 2 + at[4] * 10 + at[5] * 100 + at[9] * 1000;
}

/* More numbers than there are registers, so that some of them come into x30, from the stack too, with no return behind. */
#define TEN(does, n) does(n##0) does(n##1) does(n##2) does(n##3) does(n##4) does(n##5) does(n##6) does(n##7) does(n##8) does(n##9)
#define EACH(does) TEN(does, 1) TEN(does, 2) TEN(does, 3) TEN(does, 4)
#define TAKE(n) number it##n = at[n];
#define MIX(n) it##n = (it##n ^ last) * 3 + (last >> 5), last = it##n;
#define GIVE(n) at[n] = it##n;
__attribute__((noinline)) static number many_numbers(volatile number *at, int times) {
    number last = at[0];
    EACH(TAKE)
    while (times--) { EACH(MIX) }
    EACH(GIVE)
    return last;
}

/* Arguments on the stack, a struct that is handed over and given back there, and recursion. */
struct item { number first, second, third; unsigned fourth; short fifth; char sixth; };
__attribute__((noinline)) static struct item exchanged(struct item it) {
    return (struct item){it.second, it.first, it.third + 1, it.fourth * 2, (short)-it.fifth, (char)~it.sixth};
}
__attribute__((noinline)) static number of_ten(number a, number b, number c, number d, number e, number f, number g, number h, number i, number j) {
    return a + 2 * b + 3 * c + 4 * d + 5 * e + 6 * f + 7 * g + 8 * h + 9 * i + 10 * j;
}
__attribute__((noinline)) static number sums(unsigned it) { return it < 2 ? it : sums(it - 1) + sums(it - 2); }

static void put_calls(number one, number other) {
    struct item it = exchanged((struct item){one, other, 3, 4, 5, 6});
    put(through_pointers(one)), put(it.first), put(it.second), put(it.third), put(it.fourth), put((number)it.fifth), put((unsigned char)it.sixth);
    put(of_ten(one, other, 3, 4, 5, 6, 7, 8, 9, 10)), put(sums(15));
}

int main(void) {
    for (int k = 0; k < 64; k++) words[k] = some(), halves[k] = (short)some();
    put_calls(seed * 0x9e3779b97f4a7c15, seed * 0xbf58476d1ce4e5b9);
    put(array_of(77)), put(array_of(1)), put(allocated(333));
    put(middle_frame(1234)), put(large_frame(77777)), put(small_frame(4000)), put(aligned_frame(9));
    for (unsigned k = 0; k < 5; k++) put(by_index_of_1(k * 7)), put(by_index_of_2(k * 7)), put(by_index_of_4(k * 7)), put(by_index_of_8(k * 7));
    put(by_index(words + 32, halves + 32, 9)), put(by_index(words + 32, halves + 32, -9));
    put(before(words, 60)), put(after(halves, 60)), put(stored_before(longs, 60)), put(downwards(longs + 64, 60));
    put(with_prefetches(words, 64));
    for (number bits = 0; bits < 4; bits++) put((number)far_away(bits, longs));
    put(many_numbers((volatile number *)longs, 9)), put((number)longs[49]);
    return 0;
}
