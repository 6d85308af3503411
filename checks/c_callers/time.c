/* time FILE [ROUNDS [PIECE]]: the best time of lfi_verify on code in memory, of the same in pieces of so many bytes (4,096), and
 * of its first 4 KiB as a module of their own. Not part of the gate. */
#define _POSIX_C_SOURCE 199309L
#include "lfi_verifier.h"
#include <stdio.h>
#include <stdlib.h>
#include <time.h>

static double now(void) {
    struct timespec t;
    clock_gettime(CLOCK_MONOTONIC, &t);
    return (double)t.tv_sec + (double)t.tv_nsec * 1e-9;
}

static lfi_status in_pieces(const uint8_t *bytes, size_t size, size_t piece, lfi_fault *fault) {
    lfi_state state;
    lfi_verify_init(&state, (uint32_t)(size / 4), LFI_PROFILE_1);
    for (size_t at = 0; at < size; at += piece) lfi_verify_update(&state, bytes + at, size - at < piece ? size - at : piece);
    return lfi_verify_final(&state, fault);
}

int main(int count, char **given) {
    if (count < 2) return 2;
    static uint8_t bytes[LFI_MAX_BYTES];
    FILE *file = fopen(given[1], "rb");
    if (!file) return 3;
    size_t size = fread(bytes, 1, sizeof bytes, file), piece = count > 3 ? (size_t)atol(given[3]) : 4096;
    int rounds = count > 2 ? atoi(given[2]) : 25;
    double whole = 9, pieces = 9, page = 9;
    lfi_status status = 0, other = 0;
    lfi_fault fault;
    for (int i = 0; i < rounds; i++) {
        double t = now();
        status = lfi_verify(bytes, size, LFI_PROFILE_1, &fault);
        whole = now() - t < whole ? now() - t : whole;
        t = now();
        other = in_pieces(bytes, size, piece, &fault);
        pieces = now() - t < pieces ? now() - t : pieces;
        t = now();
        for (int k = 0; k < 200; k++) lfi_verify(bytes, 4096, LFI_PROFILE_1, &fault);
        page = (now() - t) / 200 < page ? (now() - t) / 200 : page;
    }
    printf("status %u and %u; whole %.2f ms, %.0f MB/s; in pieces of %zu %.2f ms; 4 KiB %.2f microseconds\n", status, other, whole * 1e3,
           (double)size / whole / 1e6, piece, pieces * 1e3, page * 1e6);
    return 0;
}
