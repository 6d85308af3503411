#include "driver.h"
#include "lz4.h"
#include "lz4hc.h"
int main(void) {
    int n = 400000, room = LZ4_compressBound(n), bad = 0;
    uint8_t *text = some_text((size_t)n), *packed = malloc((size_t)room), *back = malloc((size_t)n);
    for (int hc = 0; hc < 2; hc++) {
        int size = hc ? LZ4_compress_HC((char *)text, (char *)packed, n, room, 9) : LZ4_compress_default((char *)text, (char *)packed, n, room);
        int got = LZ4_decompress_safe((char *)packed, (char *)back, size, n);
        bad |= got != n || memcmp(text, back, (size_t)n);
        tell("lz4", (uint64_t)size), tell("fold", fold(packed, (size_t)size)), tell("back", (uint64_t)got);
    }
    return bad;
}
