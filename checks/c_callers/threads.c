/* 8 threads judge the same code at the same time, whole and in pages, and ask for the map. */
#include "lfi_verifier.h"
#include <pthread.h>
#include <stdio.h>
#include <stdlib.h>

enum { WORDS = 65536, THREADS = 8, ROUNDS = 4 };

static uint8_t bytes[4 * WORDS];

struct answer {
    lfi_status whole, paged, mapped;
    lfi_fault fault, paged_fault;
};

// C: The library has no locks. Calls that share nothing but what they read may run at the same time.
// HEADER: Calls may run at the same time on any threads, as long as no call writes what another one is handed. No call ends the process.
static void *judge(void *to) {
    struct answer *answer = to;
    lfi_map map;
    for (int round = 0; round < ROUNDS; round++) {
        lfi_state state;
        answer->whole = lfi_verify(bytes, sizeof bytes, LFI_PROFILE_1, &answer->fault);
        lfi_verify_init(&state, WORDS, LFI_PROFILE_1);
        for (size_t at = 0; at < sizeof bytes; at += 4096) lfi_verify_update(&state, bytes + at, 4096);
        answer->paged = lfi_verify_final(&state, &answer->paged_fault);
        answer->mapped = lfi_profile_map(LFI_PROFILE_1, 3, &map);
    }
    return NULL;
}

int main(void) {
    pthread_t threads[THREADS];
    static struct answer answers[THREADS];
    for (size_t i = 0; i < WORDS; i++) {
        uint32_t word = i == 50000 ? 0xD4000001 : 0xF9400240; /* LDR X0, [X18], and one SVC #0 */
        for (size_t k = 0; k < 4; k++) bytes[4 * i + k] = (uint8_t)(word >> (8 * k));
    }
    for (int i = 0; i < THREADS; i++)
        if (pthread_create(&threads[i], NULL, judge, &answers[i])) return 2;
    for (int i = 0; i < THREADS; i++) pthread_join(threads[i], NULL);
    for (int i = 0; i < THREADS; i++) {
        struct answer a = answers[i];
        if (a.whole != LFI_REFUSED || a.paged != LFI_REFUSED || a.mapped != LFI_LAWFUL) return 1;
        if (a.fault.word != 50000 || a.fault.rule != 1 || a.paged_fault.word != 50000 || a.paged_fault.rule != 1) return 1;
    }
    return 0;
}
