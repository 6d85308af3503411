/* 16 slots in one process, a thread each, all at once: threads CODE TIMES runs the same code of profile 1 so often in each slot, and prints
 * a line for each run: the slot, the output, how it ended. Then each thread runs NOP and BRK in its slot so often that signals come in
 * several threads at once, and prints how many of these runs ended at the BRK; then NOP alone, and whether that ended behind it. At the end
 * it prints how many threads had a stack for signals that shares no byte with another one's. Made of the files of examples/native_host but
 * command.c. */
#include "native_host.h"
#include <pthread.h>

// HOST: Slots don't depend on each other: each of 16 modules may run in its own, on threads of their own. The law speaks of one at a time,
//   and none of them touches another's slot.
// HOST: **Writers.** While the code runs, no other thread and no device writes code, table or data of the slot: the definitions know no
//   second writer. One thread at a time is in a slot.
enum { BREAKS = 300 };
static pthread_barrier_t all_are_here;
static int times;
static stack_t stacks[LFI_MODULES];
static __thread char text[4096];
static __thread size_t length;

static int put(uint8_t byte) {
    if (length < sizeof text - 1) text[length++] = (char)byte;
    return 1;
}

/* Puts code of profile 1 into a slot, and judges it there. */
static void fill(uint32_t number, const void *code, size_t size) {
    lfi_fault fault;
    uint8_t *at = open_slot(number, (uint32_t)(size / 4), 0, LFI_PROFILE_1);
    memcpy(at, code, size);
    if (lfi_verify(at, size, LFI_PROFILE_1, &fault)) exit(1);
    seal_slot(&slots[number]);
}

static void print_outputs(const slot *it) {
    for (int k = 0; k < times; k++) {
        length = 0;
        ending how = run_slot(it, 0, put);
        text[length] = 0;
        for (size_t i = 0; i < length; i++) text[i] = text[i] == '\n' ? ' ' : text[i];
        printf("%zu %shalt %d status %u\n", (size_t)(it - slots), text, (int)how.halt, how.status);
    }
}

/* A signal ends each of these runs, on a stack that no other thread's handler uses. */
// HOST: | BRK (halt 4) | SIGTRAP | |
static void print_breaks(const slot *it) {
    static const uint32_t code[] = {0xd503201f, 0xd4200000}; /* NOP, BRK #1 */
    int right = 0;
    fill((uint32_t)(it - slots), code, sizeof code);
    pthread_barrier_wait(&all_are_here);
    for (int k = 0; k < BREAKS; k++) {
        ending how = run_slot(it, 0, put);
        right += how.halt == HALT_BREAK && how.at == code_of(it) + 4;
    }
    // HOST: The rest is zero.
    fill((uint32_t)(it - slots), code, sizeof *code); /* the NOP alone: what was behind it isn't there any more */
    ending how = run_slot(it, 0, put);
    printf("%zu breaks %d, fresh %d\n", (size_t)(it - slots), right, how.halt == HALT_FETCH && how.at == code_of(it) + 4);
}

static void *enter(void *given) {
    prepare_thread();
    pthread_barrier_wait(&all_are_here);
    sigaltstack(0, &stacks[(const slot *)given - slots]);
    print_outputs(given);
    print_breaks(given);
    return 0;
}

/* Whether signals of this slot's thread come on a stack of its own. */
// HOST: **Signals on the code's stack.** A signal that comes while the code runs is delivered at sp, which the code chooses. All handlers
//   run on a stack of their own (`sigaltstack`, `SA_ONSTACK`), for each thread that enters a slot.
static int is_apart(uint32_t number) {
    const stack_t *it = &stacks[number];
    uint32_t m = 0;
    while (m < LFI_MODULES && (m == number || (uintptr_t)stacks[m].ss_sp - (uintptr_t)it->ss_sp >= it->ss_size)) m++;
    return !(it->ss_flags & SS_DISABLE) && it->ss_size >= (size_t)MINSIGSTKSZ && m == LFI_MODULES;
}

int main(int count, char **given) {
    static uint8_t code[1 << 16];
    pthread_t threads[LFI_MODULES];
    FILE *file = count == 3 ? fopen(given[1], "rb") : 0;
    if (!file) return 2;
    size_t size = fread(code, 1, sizeof code, file);
    times = atoi(given[2]);
    prepare_process();
    pthread_barrier_init(&all_are_here, 0, LFI_MODULES);
    for (uint32_t m = 0; m < LFI_MODULES; m++) fill(m, code, size);
    for (uint32_t m = 0; m < LFI_MODULES; m++)
        if (pthread_create(&threads[m], 0, enter, &slots[m])) return 3;
    for (uint32_t m = 0; m < LFI_MODULES; m++) pthread_join(threads[m], 0);
    int apart = 0;
    for (uint32_t m = 0; m < LFI_MODULES; m++) apart += is_apart(m);
    printf("%d stacks\n", apart);
    return 0;
}
