/* Loaded before the C library (LD_PRELOAD): what CLOCK names goes wrong, or is slow. For checks/lib/clocks.py, on Linux.
 *   fails  the clock can't be read
 *   later  the clock can't be read a second time
 *   block  a listener can't be set not to wait
 *   over   once a second has gone by, nobody can be taken any longer
 *   look   the first look for a client that finds none is followed by a pause of two seconds
 *   read   the first reading of the clock after a client was taken is preceded by such a pause
 *   write  each write to the standard output is interrupted 5,000 times
 *   lost   the first write to the standard error fails
 *   stat   nothing is told of the first file that is asked for by its name
 *   pause  a pause of more than 20 milliseconds ends the program with status 99, and the first one is told on the standard error */
#define _GNU_SOURCE
#include <errno.h>
#include <stdarg.h>
#include <stdatomic.h>
#include <stdlib.h>
#include <string.h>
#include <sys/ioctl.h>
#include <sys/socket.h>
#include <sys/stat.h>
#include <sys/syscall.h>
#include <time.h>
#include <unistd.h>

static atomic_int taken, paused;
static struct timespec first;

static int is(const char *what) {
    const char *how = getenv("CLOCK");
    return how && !strcmp(how, what);
}

/* Two seconds, once. */
static void pause_once(void) {
    struct timespec time = {2, 0};
    if (!atomic_fetch_add(&paused, 1)) syscall(SYS_nanosleep, &time, NULL);
}

int clock_gettime(clockid_t clock, struct timespec *now) {
    static atomic_int asked;
    if (is("fails") || is("later") && atomic_fetch_add(&asked, 1)) {
        errno = EINVAL;
        return -1;
    }
    if (is("read") && taken) pause_once();
    int told = (int)syscall(SYS_clock_gettime, clock, now);
    if (clock == CLOCK_MONOTONIC && !first.tv_sec) first = *now;
    return told;
}

int nanosleep(const struct timespec *time, struct timespec *left) {
    static atomic_int told;
    if (is("pause") && (time->tv_sec || time->tv_nsec > 20000000)) _exit(99);
    if (is("pause") && !atomic_fetch_add(&told, 1)) syscall(SYS_write, 2, "a pause\n", 8);
    return (int)syscall(SYS_nanosleep, time, left);
}

int ioctl(int at, unsigned long asked, ...) {
    va_list more;
    va_start(more, asked);
    void *given = va_arg(more, void *);
    va_end(more);
    if (is("block") && asked == FIONBIO) {
        errno = EACCES;
        return -1;
    }
    return (int)syscall(SYS_ioctl, at, asked, given);
}

/* Whether a second has gone by since the clock was read first. */
static int is_over(void) {
    struct timespec now;
    syscall(SYS_clock_gettime, CLOCK_MONOTONIC, &now);
    return first.tv_sec && (now.tv_sec - first.tv_sec) * 1000000000 + now.tv_nsec - first.tv_nsec >= 1000000000;
}

int accept4(int at, struct sockaddr *address, socklen_t *length, int flags) {
    if (is("over") && is_over()) {
        errno = EACCES;
        return -1;
    }
    int client = (int)syscall(SYS_accept4, at, address, length, flags), error = errno;
    if (client >= 0) taken = 1;
    else if (is("look")) pause_once();
    errno = error;
    return client;
}

ssize_t write(int at, const void *bytes, size_t count) {
    static int left = 5000, lost;
    if (at == 1 && is("write") && left-- > 0) {
        errno = EINTR;
        return -1;
    }
    left = 5000;
    if (at == 2 && is("lost") && !lost++) {
        errno = ENOSPC;
        return -1;
    }
    return syscall(SYS_write, at, bytes, count);
}

int statx(int folder, const char *path, int flags, unsigned mask, struct statx *told) {
    static int asked;
    if (*path && is("stat") && !asked++) {
        errno = EIO;
        return -1;
    }
    return (int)syscall(SYS_statx, folder, path, flags, mask, told);
}
