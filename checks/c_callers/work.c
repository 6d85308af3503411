/* work WAY FILE: judges what the file has by one call (whole), in pieces of 4,096 bytes (pieces) or of 256 (small), or as a stream in pieces of
 * 4,096 (stream), 4,095 (odd), 1,001 (packets) or 333 (parts); or tells a fault of rule 2 at each of the last 64 words, as text (explain) or as words (mend). How many
 * instructions that takes is counted from outside. The status is 0 where all of it is lawful, or told, 1 where it is refused, else 3. */
#include "lfi_verifier.h"
#include <stdio.h>
#include <string.h>

static uint8_t bytes[1 << 20];

static size_t piece_at(size_t at, size_t size, size_t most) { return size - at < most ? size - at : most; }

static lfi_status whole(size_t size) {
    lfi_fault fault;
    return lfi_verify(bytes, size, LFI_PROFILE_1, &fault);
}

static lfi_status pieces(size_t size, size_t most) {
    lfi_state state;
    lfi_fault fault;
    lfi_verify_init(&state, (uint32_t)(size / 4), LFI_PROFILE_1);
    for (size_t at = 0; at < size; at += piece_at(at, size, most)) lfi_verify_update(&state, bytes + at, piece_at(at, size, most));
    return lfi_verify_final(&state, &fault);
}

static lfi_status stream(size_t size, size_t most) {
    lfi_stream stream;
    lfi_event event;
    lfi_status verdict = LFI_BAD_STATE;
    lfi_stream_init(&stream, LFI_PROFILE_1);
    for (size_t at = 0; at < size;) {
        at += lfi_stream_next(&stream, bytes + at, piece_at(at, size, most), &event);
        if (event.kind == LFI_END) verdict = event.verdict;
    }
    return verdict;
}

static lfi_status explain(size_t size) {
    uint8_t text[2048];
    size_t count;
    lfi_status status = LFI_LAWFUL;
    for (uint32_t k = 0; k < 64 && status == LFI_LAWFUL; k++) {
        lfi_fault fault = {(uint32_t)(size / 4) - 64 + k, 2};
        status = lfi_explain(LFI_PROFILE_1, 0, (uint32_t)(size / 4), bytes, size, &fault, text, sizeof text, &count);
    }
    return status;
}

static lfi_status mend(size_t size) {
    uint32_t words[LFI_MOST_MENDED];
    size_t count;
    lfi_status status = LFI_LAWFUL;
    for (uint32_t k = 0; k < 64 && status == LFI_LAWFUL; k++) {
        lfi_fault fault = {(uint32_t)(size / 4) - 64 + k, 2};
        status = lfi_mend(LFI_PROFILE_1, bytes, size, &fault, words, LFI_MOST_MENDED, &count);
    }
    return status;
}

static lfi_status verdict_of(const char *way, size_t size) {
    if (!strcmp(way, "explain")) return explain(size);
    if (!strcmp(way, "mend")) return mend(size);
    if (!strcmp(way, "whole")) return whole(size);
    if (!strcmp(way, "pieces")) return pieces(size, 4096);
    if (!strcmp(way, "small")) return pieces(size, 256);
    return stream(size, !strcmp(way, "odd") ? 4095 : !strcmp(way, "packets") ? 1001 : !strcmp(way, "parts") ? 333 : 4096);
}

int main(int count, char **given) {
    FILE *file = count == 3 ? fopen(given[2], "rb") : NULL;
    if (!file) return 3;
    size_t size = fread(bytes, 1, sizeof bytes, file);
    lfi_status verdict = verdict_of(given[1], size);
    return verdict == LFI_LAWFUL ? 0 : verdict == LFI_REFUSED ? 1 : 3;
}
