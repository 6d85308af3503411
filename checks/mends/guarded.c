/* What the rewriter of examples/guard is tried on: what it writes with what the profile has (EXTR, rotations by a number, sums, differences,
 * compares and products of 128 bits, ADCS and SBCS, products of two halves, REV, REV16, RBIT, LDPSW), and accesses through one address before and
 * after a call, of which --reuse must know nothing then. It prints the same in a slot and here. */
void rt_putc(int c);

typedef unsigned __int128 wide;
typedef __int128 signed_wide;
typedef unsigned long number; /* of 64 bits */

static volatile number some = 0x0123456789abcdef, other = 0xfedcba9876543210;
static long cells[64];
static volatile int ints[8] = {-5, 7, 100000, -300000, 0x7fffffff, -0x7fffffff, 1, -1};

__attribute__((noinline)) static void put(number it) {
    for (int k = 60; k >= 0; k -= 4) rt_putc("0123456789abcdef"[it >> k & 15]);
    rt_putc('\n');
}

static void put_wide(wide it) { put((number)(it >> 64)), put((number)it); }

/* EXTR of two registers, whose numbers aren't half of a register's bits. */
__attribute__((noinline)) static number from_two(number high, number low) { return high << 13 | low >> 51; }
__attribute__((noinline)) static unsigned from_two_of_32(unsigned high, unsigned low) { return high << 7 | low >> 25; }
__attribute__((noinline)) static wide shifted(wide it, int low) { return it << 9 | low; }

/* ROR by a number, and by a register. */
__attribute__((noinline)) static number turned(number it) { return it << 13 | it >> 51; }
__attribute__((noinline)) static unsigned turned_of_32(unsigned it) { return it << 5 | it >> 27; }
__attribute__((noinline)) static unsigned turned_by(unsigned it, unsigned by) { return it >> (by & 31) | it << (-by & 31); }

/* ADDS and ADC, SUBS and SBC, NGC; and ADCS and SBCS, where the carry of the upper half counts. */
__attribute__((noinline)) static wide sum(wide left, wide right) { return left + right; }
__attribute__((noinline)) static wide difference(wide left, wide right) { return left - right; }
__attribute__((noinline)) static wide negative(wide it) { return -it; }
__attribute__((noinline)) static int is_less(wide left, wide right) { return left < right; }
__attribute__((noinline)) static int is_less_signed(signed_wide left, signed_wide right) { return left < right; }
__attribute__((noinline)) static number upper_of_sum(wide left, wide right) {
    wide it;
    return __builtin_add_overflow(left, right, &it) ? 9 : (number)(it >> 64);
}
__attribute__((noinline)) static number upper_of_difference(wide left, wide right) {
    wide it;
    return __builtin_sub_overflow(left, right, &it) ? 5 : (number)(it >> 64);
}

/* SMADDL, SMSUBL and SMNEGL, and the same without signs: products of two halves, with a sum, a difference, and turned round. */
#define PRODUCTS(name, half, whole) \
    __attribute__((noinline)) static whole name##_and_sum(half left, half right, whole third) { return (whole)left * right + third; } \
    __attribute__((noinline)) static whole name##_from(half left, half right, whole third) { return third - (whole)left * right; } \
    __attribute__((noinline)) static whole name##_negative(half left, half right) { return -((whole)left * right); }
PRODUCTS(product, int, long)
PRODUCTS(product_unsigned, unsigned, number)

/* REV16, by its patterns. */
__attribute__((noinline)) static unsigned bytes_exchanged(unsigned it) { return (it & 0xff00ff00u) >> 8 | (it & 0x00ff00ffu) << 8; }
__attribute__((noinline)) static number bytes_exchanged_of_64(number it) { return (it & 0xff00ff00ff00ff00u) >> 8 | (it & 0x00ff00ff00ff00ffu) << 8; }

/* LDPSW, whose two numbers differ in what comes of their order and of their signs. */
__attribute__((noinline)) static long of_pair(const int *pair) { return (long)pair[0] * 3 - (long)pair[1]; }
__attribute__((noinline)) static long of_pair_behind(const int *pair) { return (long)pair[2] * 7 - (long)pair[3]; }

__attribute__((noinline)) static void write_one(long *to) { to[7] = 5, rt_putc('.'); }

/* `first` is written before and after a call that goes through other addresses. */
__attribute__((noinline)) static long around_calls(long *first, long *second) {
    first[0] = 1, write_one(second);
    first[0] += 2, second[0] = first[0], write_one(second);
    return first[0] + second[0] + first[1];
}

static void put_wide_ones(wide left, wide right) {
    put_wide(sum(left, right)), put_wide(difference(left, right)), put_wide(negative(left)), put_wide(shifted(left, 3));
    put((number)is_less(left, right) << 1 | (number)is_less_signed((signed_wide)left, (signed_wide)right));
    put(upper_of_sum(left, right)), put(upper_of_difference(left, right));
}

static void put_products(int left, int right) {
    unsigned first = (unsigned)left, second = (unsigned)right;
    put((number)((long)left * right)), put((number)first * second);
    put((number)product_and_sum(left, right, 77)), put((number)product_from(left, right, 0x7777777777)), put((number)product_negative(left, right));
    put(product_unsigned_and_sum(first, second, some)), put(product_unsigned_from(first, second, other));
    put(product_unsigned_negative(first, second));
    put((number)(((wide)some * other) >> 64));
}

int main(void) {
    wide left = (wide)some << 64 | other, right = (wide)other << 64 | ~some;
    put(from_two(some, other)), put(from_two_of_32((unsigned)some, (unsigned)other));
    put(turned(some)), put(turned_of_32((unsigned)some)), put(turned_by((unsigned)some, (unsigned)other));
    put_wide_ones(left, right), put_wide_ones(right, left), put_wide_ones(left, left), put_wide_ones(~(wide)0, 1), put_wide_ones(0, ~(wide)0);
    put(__builtin_bswap64(some)), put(__builtin_bswap32((unsigned)some)), put(__builtin_bswap16((unsigned short)some));
    put(bytes_exchanged((unsigned)some)), put(bytes_exchanged_of_64(some));
    put((number)around_calls(cells, cells + 32));
    for (int k = 0; k < 4; k += 2) put((number)of_pair((const int *)ints + k)), put((number)of_pair_behind((const int *)ints + k));
    put((number)__builtin_ctzl(some)), put((number)__builtin_clzl(some));
    put_products((int)some, (int)other), put_products((int)other, (int)other);
    return 0;
}
