/* What happens while code runs: its runtime, the signals, and how it ends. */
#include "native_host.h"

__thread frame lfi_frame;
int carries_out_ordered;

/* The run that goes on in this thread: what its runtime and its handler find. No slot: the thread is in none. */
static __thread struct {
    const slot *slot;
    int (*put)(uint8_t); /* writes a byte of its output */
    ending ending;
    volatile sig_atomic_t late;
} now;

/* What the law says of the registers at a call. No host has to look at them; this one finds out so where the law doesn't hold. */
static int are_lawful(const frame *it, const lfi_map *map) {
    return it->x[21] == map->base && it->x[22] >> 32 == 0 && it->x[18] - map->base < map->size && it->x[23] - map->base < map->size &&
           it->x[24] - map->base < map->size && it->x[30] - map->base < map->size && it->sp - (map->base - 512) < map->size + 1024;
}

/* The runtime of `lfiload run`, whose one argument is a byte. entry.S calls it on the host's stack; it answers whether the code goes on.
 * HOST: takes each argument for hostile: an address is `B + (x mod 2^32)`, and a length is tested against the slot's end */
int lfi_runtime(frame *registers, uint32_t number) {
    if (!are_lawful(registers, &now.slot->map)) now.ending = (ending){.halt = HALT_ESCAPE, .at = registers->x[30]};
    else if (number == 0) now.ending = (ending){.halt = HALT_ENDED, .status = registers->x[0] & 255};
    else if (number == 1) now.ending = now.put((uint8_t)registers->x[0]) ? now.ending : (ending){.halt = HALT_ENDED, .status = 255};
    else registers->x[0] = ~(uint64_t)0;
    if (now.ending.halt == HALT_NONE && now.late) now.ending.halt = HALT_TIME;
    return now.ending.halt == HALT_NONE;
}

/* Why a signal ends the code that it has interrupted; HALT_NONE where the code goes on. */
static ending why(const slot *it, int number, uint64_t address, mcontext_t *registers) {
    uint64_t pc = registers->pc;
    if (number == SIGALRM) return (ending){.halt = HALT_TIME};
    /* HOST: Whether pc is one of the n words tells a fetch from an access */
    if (pc % 4 != 0 || pc - code_of(it) >= 4 * (uint64_t)it->words) return (ending){.halt = HALT_FETCH, .at = pc};
    if (number == SIGTRAP) return (ending){.halt = HALT_BREAK, .at = pc};
    if (number == SIGBUS && carries_out_ordered) {
        enum ordered done = carry_out_ordered(it, registers, &address);
        if (done == ORDERED_DONE) return (ending){.halt = HALT_NONE};
        if (done == ORDERED_DENIED) return (ending){.halt = HALT_ACCESS, .at = address};
    }
    if (number == SIGILL || !is_near(it, address)) return (ending){.halt = HALT_ESCAPE, .at = address};
    return (ending){.halt = number == SIGBUS ? HALT_BUS : HALT_ACCESS, .at = address};
}

static void handle(int number, siginfo_t *info, void *given) {
    mcontext_t *registers = &((ucontext_t *)given)->uc_mcontext;
    const slot *it = now.slot;
    if (number == SIGALRM) now.late = 1;
    if (!it || !is_near(it, registers->pc)) { /* it has interrupted the host */
        if (number == SIGALRM) return;        /* which sees at the code's next call that it is late */
        fprintf(stderr, "native_host: ESCAPE, or a fault of the host: signal %d pc 0x%016llx address %p\n", number, registers->pc, info->si_addr);
        _exit(9);
    }
    now.ending = why(it, number, (uint64_t)info->si_addr, registers);
    /* HOST: code that was interrupted is gone on with exactly as it stood, or not at all */
    if (now.ending.halt == HALT_NONE) return;
    /* HOST: The handler gets back by setting pc to code of the host's, sp to the host's stack, and BTYPE to 0 (bits 10 and 11 of `pstate`, */
    registers->pc = (uint64_t)lfi_leave;
    registers->regs[0] = (uint64_t)&lfi_frame;
    registers->sp = lfi_frame.host_sp;
    registers->pstate &= ~(UINT64_C(3) << 10);
}

/* HOST: All handlers run on a stack of their own (`sigaltstack`, `SA_ONSTACK`), for each thread that enters a slot. */
void prepare_thread(void) {
    stack_t stack = {.ss_size = 65536, .ss_sp = malloc(65536)};
    if (!stack.ss_sp || sigaltstack(&stack, 0)) die("sigaltstack");
}

void prepare_process(void) {
    static const int signals[] = {SIGSEGV, SIGBUS, SIGILL, SIGTRAP, SIGALRM};
    struct sigaction action = {.sa_sigaction = handle, .sa_flags = SA_SIGINFO | SA_ONSTACK | SA_RESTART}; /* a write goes on */
    sigfillset(&action.sa_mask);
    prepare_thread();
    for (size_t i = 0; i < sizeof signals / sizeof *signals; i++)
        if (sigaction(signals[i], &action, 0)) die("sigaction");
    /* HOST: **Pages of 4,096 bytes.** */
    if (sysconf(_SC_PAGESIZE) != PAGE || lfi_version() != LFI_VERSION) errno = ENOTSUP, die("pages or library of another kind");
    /* HOST: the process registers for it once (`MEMBARRIER_CMD_REGISTER_PRIVATE_EXPEDITED_SYNC_CORE`) */
    if (syscall(SYS_membarrier, MEMBARRIER_CMD_REGISTER_PRIVATE_EXPEDITED_SYNC_CORE, 0, 0)) die("membarrier");
    make_entries();
}

/* Has SIGALRM come after so many seconds, and then again and again; 0: never. */
static void limit(double seconds) {
    struct timeval first = {(time_t)seconds, (suseconds_t)(1e6 * (seconds - (double)(time_t)seconds))}, later = {0, seconds > 0 ? 20000 : 0};
    if (seconds > 0 && first.tv_sec == 0 && first.tv_usec == 0) first.tv_usec = 1; /* 0 would be no limit */
    if (setitimer(ITIMER_REAL, &(struct itimerval){later, first}, 0)) die("setitimer");
}

/* Runs a sealed module from its entry, for so many seconds at most; 0: without a limit. */
ending run_slot(const slot *it, double seconds, int (*put)(uint8_t)) {
    uint64_t base = it->map.base;
    memset(&lfi_frame, 0, sizeof lfi_frame);
    memset(&now, 0, sizeof now);
    /* HOST: `lfiload run` starts with x18, x21, x23, x24 and x30 at B, sp at B + 2^32 and 0 elsewhere. */
    lfi_frame.x[18] = lfi_frame.x[21] = lfi_frame.x[23] = lfi_frame.x[24] = lfi_frame.x[30] = base;
    lfi_frame.sp = base + it->map.size - (PLANT == PLANT_STACK ? 16 : 0);
    now.put = put, now.slot = it;
    if (seconds > 0) limit(seconds);
    lfi_enter(&lfi_frame, start_of(it));
    if (seconds > 0) limit(0);
    now.slot = 0;
    return now.ending;
}
