/* Asks each row of the rules' tables (rows.inc, which checks/c_callers/run writes of crates/tests_profile) by the calls: in
 * one call, and in pieces of each size that cuts it. */
#include "lfi_verifier.h"
#include <stdio.h>

struct row {
    uint32_t count, words[16], word, rule; /* rule 0: lawful */
};

static const struct row ROWS[] = {
#include "rows.inc"
};

static int told(const char *call, size_t at, lfi_status status, lfi_fault fault, lfi_status wanted, uint32_t word, uint32_t rule) {
    if (status == wanted && fault.word == word && fault.rule == rule) return 0;
    fprintf(stderr, "row %zu, %s: status %u word %u rule %u\n", at, call, status, fault.word, fault.rule);
    return 1;
}

// C: Status and fault are those of `lfiload check` on the same bytes: the call's contract cites the same definition, `Checks`.
int main(void) {
    size_t count = sizeof ROWS / sizeof *ROWS;
    for (size_t at = 0; at < count; at++) {
        const struct row *row = &ROWS[at];
        uint8_t bytes[64];
        size_t size = 4 * (size_t)row->count;
        for (size_t i = 0; i < size; i++) bytes[i] = (uint8_t)(row->words[i / 4] >> (8 * (i % 4)));
        lfi_status wanted = row->rule ? LFI_REFUSED : LFI_LAWFUL;
        lfi_fault fault = {9, 9};
        lfi_status status = lfi_verify(bytes, size, LFI_PROFILE_1, &fault);
        if (told("whole", at, status, fault, wanted, row->word, row->rule)) return 1;
        for (size_t piece = 4; piece <= size; piece += 4) {
            lfi_state state;
            if (lfi_verify_init(&state, row->count, LFI_PROFILE_1)) return 2;
            for (size_t from = 0; from < size; from += piece) {
                size_t n = size - from < piece ? size - from : piece;
                if (lfi_verify_update(&state, bytes + from, n) > LFI_REFUSED) return 3;
            }
            status = lfi_verify_final(&state, &fault);
            if (told("in pieces", at, status, fault, wanted, row->word, row->rule)) return 1;
        }
    }
    printf("%zu rows\n", count);
    return count < 500;
}
