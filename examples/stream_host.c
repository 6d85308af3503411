/* A host that takes a stream of modules from standard input: copies their code straight into their slots, hears of each module
 * what becomes of it, and prints the report that `lfiload load` prints; where a read fails, nothing, and its status is 3.
 * docs/C.md says what each call promises.
 *
 *   cc -I include examples/stream_host.c out/TARGET/liblfi_verifier.a -o stream_host
 *   ./stream_host < examples/two_modules.stream */
#ifndef _GNU_SOURCE
#define _GNU_SOURCE
#endif
#include "lfi_verifier.h"
#include <stdio.h>
#include <string.h>
#include <sys/mman.h>
#include <unistd.h>

/* A module that was opened: its code in its slot, how large it is, and how it ended. */
typedef struct module {
    uint8_t *code;
    uint32_t words, page_bytes;
    lfi_event end;
} module;

static module modules[LFI_MODULES];
static uint32_t strays, fault;

/* Takes memory for the code at its place in the module's slot. */
static int open_module(const lfi_event *event) {
    lfi_map map;
    module *it = &modules[event->module];
    if (lfi_profile_map(event->profile, event->module, &map)) return 0;
    void *at = (void *)(uintptr_t)(map.base + map.code);
    it->words = event->words;
    it->page_bytes = event->page_bytes;
    it->code = (uint8_t *)mmap(at, 4 * (size_t)it->words, PROT_READ | PROT_WRITE, MAP_PRIVATE | MAP_ANONYMOUS | MAP_FIXED_NOREPLACE, -1, 0);
    return it->code == at;
}

/* Does what an event asks for; answers 0 where the system gives no memory, where code wasn't judged, or where the stream's
 * numbers aren't those that these calls wrote. The bytes were judged where they are: nobody else writes this piece before they
 * are copied. */
static int follow(const lfi_event *event, const uint8_t *bytes, size_t used) {
    if (event->kind == LFI_NO_STREAM) return 0;
    if (event->kind == LFI_OPEN) return open_module(event);
    if (event->kind == LFI_CODE) {
        if (event->verdict > LFI_REFUSED || !modules[event->module].code) return 0;
        memcpy(modules[event->module].code + event->offset, bytes, used);
    }
    if (event->kind == LFI_STRAY) strays++;
    if (event->kind == LFI_END) modules[event->module].end = *event;
    if (event->kind == LFI_FAULT) fault = event->number;
    return 1;
}

/* What became of a module: whether it is complete. From then on nobody writes its code. */
static int tell(uint32_t number, const module *it) {
    const lfi_event *end = &it->end;
    printf("module %u: ", number);
    if (end->verdict == LFI_REFUSED) printf("refused, word %u rule %u\n", end->fault.word, end->fault.rule);
    else if (end->verdict == LFI_LAWFUL) printf("complete, %u words\n", it->words);
    else if (end->reason == LFI_CLOSED) printf("incomplete, %u of %u pages\n", end->pages, (4 * it->words + it->page_bytes - 1) / it->page_bytes);
    else if (end->reason == LFI_LOST) printf("lost, fault %u\n", end->number);
    else printf("page fault, index %u\n", end->number);
    return end->verdict == LFI_LAWFUL && !mprotect(it->code, 4 * (size_t)it->words, PROT_READ);
}

int main(void) {
    static uint8_t piece[4096];
    lfi_stream stream;
    static lfi_event event; /* of kind LFI_NOTHING */
    int well = 1;
    ssize_t got = 0;
    if (lfi_stream_init(&stream, LFI_PROFILE_1)) return 3;
    while (event.kind < LFI_FAULT && (got = read(0, piece, sizeof piece)) > 0)
        for (size_t at = 0, used; at < (size_t)got && event.kind < LFI_FAULT; at += used) {
            used = lfi_stream_next(&stream, piece + at, (size_t)got - at, &event);
            if (!follow(&event, piece + at, used)) return 3;
        }
    if (got < 0) return 3;
    do {
        if (lfi_stream_end(&stream, &event) || !follow(&event, piece, 0)) return 3;
    } while (event.kind != LFI_NOTHING);
    for (uint32_t i = 0; i < LFI_MODULES; i++)
        if (modules[i].code && !tell(i, &modules[i])) well = 0;
    if (fault) printf("connection 0: fault %u\n", fault);
    printf("strays %u\n", strays);
    return well && !fault ? 0 : 1;
}
