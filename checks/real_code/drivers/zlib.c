#include "driver.h"
#include "zlib.h"
int main(void) {
    uLong n = 200000, status = 0;
    uint8_t *text = some_text(n), *back = malloc(n);
    for (int level = 1; level <= 9; level += 4) {
        uLong room = compressBound(n), got = n;
        uint8_t *packed = malloc(room);
        int a = compress2(packed, &room, text, n, level), b = uncompress(back, &got, packed, room);
        status |= (uLong)(a | b | (got != n) | memcmp(text, back, n));
        tell("zlib", room), tell("fold", fold(packed, room)), tell("crc", crc32(0, back, (uInt)got)), tell("adler", adler32(1, back, (uInt)got));
    }
    return status ? 1 : 0;
}
