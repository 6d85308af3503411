/*
 * Two checksums of 8,192 pseudo-random bytes: their CRC-32 and their Adler-32.
 *
 * The runtime that it is linked with has two calls: one prints a byte, the other ends the run with a status. It is entered at
 * word 0, which calls main and ends the run with what main gives.
 */
typedef unsigned char u8;
typedef unsigned int u32;
typedef unsigned long u64;

void rt_putc(int c);

static void hex(u64 v, int digits) {
    for (int i = digits - 1; i >= 0; i--) {
        int d = v >> (4 * i) & 15;
        rt_putc(d < 10 ? '0' + d : 'a' + d - 10);
    }
}

static u32 t[256];
static u8 b[8192];

int main(void) {
    for (u32 i = 0; i < 256; i++) {
        u32 c = i;
        for (int k = 0; k < 8; k++)
            c = c & 1 ? 0xEDB88320u ^ c >> 1 : c >> 1;
        t[i] = c;
    }
    u32 s = 1;
    for (int i = 0; i < 8192; i++) {
        s ^= s << 13;
        s ^= s >> 17;
        s ^= s << 5;
        b[i] = (u8)s;
    }
    u32 c = ~0u;
    for (int i = 0; i < 8192; i++)
        c = t[(c ^ b[i]) & 255] ^ c >> 8;
    hex(~c, 8);
    rt_putc('\n');
    u32 a1 = 1, a2 = 0;
    for (int i = 0; i < 8192; i++) {
        a1 = (a1 + b[i]) % 65521;
        a2 = (a2 + a1) % 65521;
    }
    hex((u64)a2 << 16 | a1, 8);
    rt_putc('\n');
    return (int)(~c & 63);
}
