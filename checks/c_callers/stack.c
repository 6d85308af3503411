/* Each function of the library in a thread whose stack has 64 KiB, for itself and what it calls. */
#include "lfi_verifier.h"
#include <pthread.h>
#include <stdio.h>

/* LDR X30, [X18, #16] and REV32 X4, X30, whose text is long; a stream of RET. */
// HOST: A host that judges in its own process needs 24 bytes for each module that is coming, or 840 for a stream of sixteen, and 64 KiB of
//   stack.
static const uint8_t code[] = {0x5e, 0x0a, 0x40, 0xf9, 0xc4, 0x0b, 0xc0, 0xda};
static const uint8_t text[] = {1, 0, 0, 0, 1, 0, 0, 0, 0, 0, 0, 0, 2, 0, 0, 0, 0, 0, 0, 0, 4, 0, 0, 0, 0xc0, 3, 0x5f, 0xd6, 3, 0, 0, 0, 0, 0, 0, 0, 0, 0, 0, 0};
static int right;

static int judges(lfi_fault *fault) {
    lfi_state state;
    return lfi_verify(code, sizeof code, LFI_PROFILE_1, fault) == LFI_REFUSED && lfi_verify_init(&state, 2, LFI_PROFILE_1) == LFI_LAWFUL &&
           lfi_verify_update(&state, code, sizeof code) == LFI_REFUSED && lfi_verify_final(&state, fault) == LFI_REFUSED;
}

static int tells(const lfi_fault *fault) {
    uint8_t told[2048];
    uint32_t words[LFI_MOST_MENDED];
    size_t count = 0, mended = 0;
    return lfi_explain(LFI_PROFILE_1, 0, 2, code, sizeof code, fault, told, sizeof told, &count) == LFI_LAWFUL && count > 400 &&
           lfi_mend(LFI_PROFILE_1, code, sizeof code, fault, words, LFI_MOST_MENDED, &mended) == LFI_LAWFUL && mended > 0;
}

static int reads(void) {
    lfi_stream stream;
    lfi_event event = {0};
    size_t at = 0;
    if (lfi_stream_init(&stream, LFI_PROFILE_1) != LFI_LAWFUL) return 0;
    while (at < sizeof text) at += lfi_stream_next(&stream, text + at, sizeof text - at, &event);
    int ends = event.kind == LFI_END && event.verdict == LFI_LAWFUL;
    lfi_stream_end(&stream, &event);
    return ends && event.kind == LFI_NOTHING;
}

static void *call(void *unused) {
    lfi_fault fault;
    lfi_map map;
    lfi_registers registers;
    right = judges(&fault) && tells(&fault) && reads() && lfi_profile_map(LFI_PROFILE_1, 0, &map) == LFI_LAWFUL &&
            lfi_profile_registers(LFI_PROFILE_1, &registers) == LFI_LAWFUL && lfi_version() == LFI_VERSION;
    return unused;
}

int main(void) {
    pthread_attr_t small;
    pthread_t thread;
    if (pthread_attr_init(&small) || pthread_attr_setstacksize(&small, 65536) || pthread_create(&thread, &small, call, NULL)) return 3;
    pthread_join(thread, NULL);
    if (!right) printf("stack: a call answers otherwise\n");
    return !right;
}
