#include "driver.h"
#include "bzlib.h"
void bz_internal_error(int errcode) { tell("internal", (uint64_t)errcode); }
int main(void) {
    unsigned n = 200000, room = n + n / 100 + 600, got = n;
    uint8_t *text = some_text(n), *packed = malloc(room), *back = malloc(n);
    int a = BZ2_bzBuffToBuffCompress((char *)packed, &room, (char *)text, n, 9, 0, 0), b = BZ2_bzBuffToBuffDecompress((char *)back, &got, (char *)packed, room, 0, 0);
    tell("bzip2", room), tell("fold", fold(packed, room)), tell("back", got);
    return (a | b) || got != n || memcmp(text, back, n) ? 1 : 0;
}
