/* pieces COUNT SEED: random modules, whole and in random pieces, with a copy of the state that goes its own way; both answers
 * must agree, and what is told after each piece must be what is told at the end of its words. */
#include "lfi_verifier.h"
#include <stdio.h>
#include <stdlib.h>
#include <string.h>

static uint64_t seed;

static uint32_t number(void) {
    seed ^= seed << 13;
    seed ^= seed >> 7;
    seed ^= seed << 17;
    return (uint32_t)(seed >> 16);
}

/* Words of all kinds: lawful alone, that open a need, that meet one, branches. */
static const uint32_t USUAL[] = {
    0xD503201F, 0xD65F03C0, 0x8B2042B2, 0xF9400240, 0xF94006BE, 0xD63F03C0, 0xD10043FF, 0xF90003E0, 0xA8C17BFD,
    0x8B3E42BE, 0x14000001, 0x54000000, 0xB9400256, 0xF8614AA0, 0x8B3662BF, 0x91000C00, 0xA9007BFD, 0x17FFFFFF,
};

static lfi_status in_pieces(const uint8_t *bytes, uint32_t words, lfi_fault *fault) {
    lfi_state state, copy;
    size_t size = 4 * (size_t)words, at = 0;
    if (lfi_verify_init(&state, words, LFI_PROFILE_1)) return 99;
    while (at < size) {
        size_t piece = 4 * (size_t)(number() % (words + 1));
        if (piece > size - at) piece = size - at;
        // HEADER: A module of which a beginning has been judged: 24 bytes of the caller's, to be copied and dropped as it likes. The fields
        //   may be read; only lfi_verify_init and lfi_verify_update write them.
        // C: Code that comes in pieces is judged as it comes. The state is 24 bytes of plain numbers of the host's, on its stack, in its
        //   heap or in shared memory; a copy of it is as good as the state itself, and nothing has to be given back.
        copy = state;
        lfi_status status = lfi_verify_update(&state, bytes + at, piece);
        if (status != lfi_verify_update(&copy, bytes + at, piece) || memcmp(&copy, &state, sizeof state)) return 98;
        at += piece;
        if (state.judged * 4 != at) return 97;
        lfi_status so_far = lfi_verify_final(&state, fault);
        if ((status == LFI_REFUSED) != (so_far == LFI_REFUSED)) return 96;
        if (at < size && so_far == LFI_LAWFUL) return 95;
    }
    return lfi_verify_final(&state, fault);
}

int main(int count, char **words) {
    if (count != 3) return 9;
    long modules = atol(words[1]), kinds[2] = {0, 0};
    seed = 88172645463325252ull + (uint64_t)atol(words[2]);
    static uint8_t bytes[4 * 5000];
    for (long i = 0; i < modules; i++) {
        uint32_t n = 1 + number() % (i % 7 ? 40 : 5000);
        uint32_t wild = i % 3 ? 200 : 100000;
        for (uint32_t j = 0; j < n; j++) {
            uint32_t word = number() % wild == 0 ? number() : USUAL[number() % 18];
            if (i % 2 && (word == 0x14000001 || word >> 24 == 0xF9 || word == 0xA8C17BFD || word == 0xD10043FF)) word = 0xD503201F;
            for (int k = 0; k < 4; k++) bytes[4 * j + (uint32_t)k] = (uint8_t)(word >> (8 * k));
        }
        lfi_fault whole = {9, 9}, cut = {9, 9};
        lfi_status status = lfi_verify(bytes, 4 * (size_t)n, LFI_PROFILE_1, &whole);
        lfi_status other = in_pieces(bytes, n, &cut);
        if (status > LFI_REFUSED || status != other || whole.word != cut.word || whole.rule != cut.rule) {
            fprintf(stderr, "module %ld: %u %u %u, in pieces %u %u %u\n", i, status, whole.word, whole.rule, other, cut.word, cut.rule);
            return 1;
        }
        kinds[status]++;
    }
    printf("%ld modules: %ld lawful, %ld refused\n", modules, kinds[0], kinds[1]);
    return kinds[0] == 0 || kinds[1] == 0;
}
