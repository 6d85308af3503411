// Carries out a piece of C of docs/C.md, which stand in piece_0.inc and so on, and tells what comes of it: document KIND MOST SPOILS WORDS < bytes.
// KIND is "whole" code, code in "pieces" of at most MOST bytes, of a module of so many WORDS, or a "stream" in such pieces. SPOILS says what
// somebody else writes into the stream's numbers before each call: 0, nothing; 1, verdicts of no module; 2, all of it.
#include "document.h"
#include <stdlib.h>

uint8_t *slot, *bytes;
size_t code_offset, size;
uint32_t words, module;
lfi_status status;
lfi_fault fault;
static uint8_t input[1 << 16], piece[1 << 16], codes[LFI_MODULES][1 << 16];
static size_t at, left, most;
static uint32_t words_of[LFI_MODULES];
static int is_stream, spoils;

// Hands over where the next bytes lie, or these themselves.
size_t next_piece(void *to) {
    const uint8_t *from = input + at;
    size_t some = left < most ? left : most;
    memcpy(to, is_stream ? (const void *)&from : from, is_stream ? sizeof from : some);
    at += some, left -= some;
    return some;
}

uint8_t *code_of(uint32_t number) { return codes[number]; }

void reserve(uint32_t number, uint32_t count, uint32_t profile) {
    printf("open %u, %u words, profile %u\n", number, count, profile);
    words_of[number] = count;
}

void finish(uint32_t number, lfi_status verdict, const lfi_fault *found) {
    printf("end %u, verdict %u, word %u rule %u: ", number, verdict, found->word, found->rule);
    for (size_t k = 0; k < 4 * (size_t)words_of[number]; k++) printf("%02x", codes[number][k]);
    printf("\n");
}

int tell_end(const lfi_event *event) {
    if (event->kind == LFI_END) printf("lost %u, verdict %u\n", event->module, event->verdict);
    if (event->kind == LFI_FAULT) printf("fault %u\n", event->number);
    return event->kind != LFI_NOTHING;
}

void give_up(void) { printf("given up\n"), exit(0); }

static size_t next_of(lfi_stream *stream, const uint8_t *from, size_t count, lfi_event *event) {
    for (uint32_t i = 0; spoils == 1 && i < LFI_MODULES; i++) stream->verdicts.modules[i].profile = 9;
    if (spoils == 2) memset(stream, 255, sizeof *stream);
    return lfi_stream_next(stream, from, count, event);
}

#define lfi_stream_next next_of

static void judge_whole(void) {
    slot = input, size = left;
#include "piece_0.inc"
}

static void judge_pieces(void) {
    bytes = piece;
#include "piece_1.inc"
    printf("status %u, word %u rule %u\n", status, fault.word, fault.rule);
}

static void take_stream(void) {
#include "piece_2.inc"
}

int main(int count, char **given) {
    if (count != 5) return 2;
    left = fread(input, 1, sizeof input, stdin);
    most = (size_t)atol(given[2]), spoils = atoi(given[3]), words = (uint32_t)atol(given[4]), is_stream = given[1][0] == 's';
    if (is_stream) take_stream(), printf("%zu bytes read\n", at);
    else if (given[1][0] == 'w') judge_whole();
    else judge_pieces();
    return 0;
}
