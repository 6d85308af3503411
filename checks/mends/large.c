/* More data than 65,535 halves of words, so that examples/guard/start.s has to take their number in two parts. It prints the same in a slot
 * and here. */
void rt_putc(int c);

#define OF_4(n) n, (n) * 5u, (n) * 7u ^ 3u, (n) * 11u
#define OF_16(n) OF_4(n), OF_4((n) + 4u), OF_4((n) + 8u), OF_4((n) + 12u)
#define OF_64(n) OF_16(n), OF_16((n) + 16u), OF_16((n) + 32u), OF_16((n) + 48u)
#define OF_256(n) OF_64(n), OF_64((n) + 64u), OF_64((n) + 128u), OF_64((n) + 192u)
#define OF_1024(n) OF_256(n), OF_256((n) + 256u), OF_256((n) + 512u), OF_256((n) + 768u)
#define OF_4096(n) OF_1024(n), OF_1024((n) + 1024u), OF_1024((n) + 2048u), OF_1024((n) + 3072u)

static const volatile unsigned numbers[] = {OF_4096(1u), OF_4096(70001u), OF_4096(1000003u), OF_4096(77777777u), OF_4096(3u),
                                            OF_4096(90001u), OF_4096(2000003u), OF_4096(99999999u), OF_1024(5u)};
_Static_assert(sizeof numbers > 2 * 65535, "they fill less");

int main(void) {
    unsigned sum = 0;
    for (unsigned k = 0; k < sizeof numbers / sizeof *numbers; k++) sum = sum * 31 + numbers[k];
    for (int k = 28; k >= 0; k -= 4) rt_putc("0123456789abcdef"[sum >> k & 15]);
    rt_putc('\n');
    return 0;
}
