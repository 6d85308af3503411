/* Loaded before the C library (LD_PRELOAD): a sleep takes no time, and for the program its time goes by; so a wait for a word of memory
 * that has a limit of time, which nobody ends within a millisecond. At its end the program's seconds, and the microseconds
 * of its longest sleep, are written to the file that HURRIED names. For checks/lib/serving.py, on Linux. */
#define _GNU_SOURCE
#include <errno.h>
#include <linux/futex.h>
#include <sched.h>
#include <stdarg.h>
#include <stdatomic.h>
#include <stdio.h>
#include <stdlib.h>
#include <sys/syscall.h>
#include <time.h>

#define NANOS 1000000000LL
#define MILLISECOND 1000000L
/* A longer wait, in seconds, has no limit of time. */
#define LONGEST 1000000L

/* How much time went by without being waited for, and the longest sleep, in nanoseconds. One thread sleeps. */
static atomic_llong slept, longest;

/* A call of the system, which no other library has to be asked for. */
static long call(long number, long a, long b, long c, long d, long e, long f) {
#if defined(__x86_64__)
    register long r10 __asm__("r10") = d, r8 __asm__("r8") = e, r9 __asm__("r9") = f;
    __asm__ volatile("syscall" : "+a"(number) : "D"(a), "S"(b), "d"(c), "r"(r10), "r"(r8), "r"(r9) : "rcx", "r11", "memory");
    return number;
#else
    register long x8 __asm__("x8") = number, x0 __asm__("x0") = a, x1 __asm__("x1") = b, x2 __asm__("x2") = c;
    register long x3 __asm__("x3") = d, x4 __asm__("x4") = e, x5 __asm__("x5") = f;
    __asm__ volatile("svc #0" : "+r"(x0) : "r"(x8), "r"(x1), "r"(x2), "r"(x3), "r"(x4), "r"(x5) : "memory");
    return x0;
#endif
}

static long long nanos_of(const struct timespec *it) { return it->tv_sec * NANOS + it->tv_nsec; }

int clock_gettime(clockid_t clock, struct timespec *now) {
    call(SYS_clock_gettime, clock, (long)now, 0, 0, 0, 0);
    long long time = nanos_of(now) + slept;
    *now = (struct timespec){time / NANOS, time % NANOS};
    return 0;
}

int nanosleep(const struct timespec *time, struct timespec *left) {
    (void)left;
    slept += nanos_of(time);
    if (nanos_of(time) > longest) longest = nanos_of(time);
    return sched_yield();
}

/* A wait with a limit of time, of which a millisecond is waited for. */
static long wait_hurried(const long *words) {
    struct timespec short_time = {0, MILLISECOND};
    long answer = call(SYS_futex, words[0], words[1], words[2], (long)&short_time, 0, 0);
    if (answer == -ETIMEDOUT) slept += nanos_of((struct timespec *)words[3]);
    return answer;
}

long syscall(long number, ...) {
    va_list given;
    long words[6];
    va_start(given, number);
    for (int at = 0; at < 6; at++) words[at] = va_arg(given, long);
    va_end(given);
    int is_wait = number == SYS_futex && words[3] && (words[1] & FUTEX_CMD_MASK) == FUTEX_WAIT;
    int is_limited = is_wait && ((struct timespec *)words[3])->tv_sec < LONGEST;
    long answer = is_limited ? wait_hurried(words) : call(number, words[0], words[1], words[2], words[3], words[4], words[5]);
    if (answer >= 0 || answer < -4095) return answer;
    errno = (int)-answer;
    return -1;
}

/* How the program ends. */
void _exit(int status) {
    FILE *file = getenv("HURRIED") ? fopen(getenv("HURRIED"), "w") : NULL;
    if (file) {
        fprintf(file, "%lld %lld\n", slept / NANOS, longest / 1000);
        fclose(file);
    }
    for (;;) call(SYS_exit_group, status, 0, 0, 0, 0, 0);
}
