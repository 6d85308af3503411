/* Loaded before the C library (LD_PRELOAD): how the system answers reads and writes of the standard input, the standard output and of files with a
 * higher number, which are no sockets. For checks/lib/answers.py, on Linux. ANSWERS is one of these words:
 *   short        at most 1,001 bytes are read and written at once, and 7 on the standard error
 *   interrupted  each write is interrupted twice, and then short, as each read is
 *   nothing      a write takes no byte
 *   lose N       the write number N, counted from 1, to the standard error fails
 *   write N      a write fails with this error
 *   read N       the first read is short, and each later one fails with this error
 *   recv N       the same of what a socket receives
 *   each N..     the same of what each client sends, with the errors of this list in the order in which clients are taken; and of files, in
 *                the order of their descriptors
 *   thread N     the thread number N, counted from 1, can't be started
 *   memory N     the program gets memory for its first N requests, and from then on for none; what the C library asks for it gets
 * Whatever it is, nobody waits until the system has put a file on its disk: that ends the program with status 99. */
#define _GNU_SOURCE
#include <dlfcn.h>
#include <errno.h>
#include <link.h>
#include <pthread.h>
#include <stdatomic.h>
#include <stdlib.h>
#include <string.h>
#include <sys/socket.h>
#include <sys/syscall.h>
#include <unistd.h>

enum { MOST = 1001, FEW = 7, FILES = 1024 };

static atomic_int reads, writes, taken, requests, heard[FILES];
static int order[FILES];
static uintptr_t begin, end;

static const char *how(void) {
    const char *word = getenv("ANSWERS");
    return word ? word : "";
}

static int is(const char *word) { return !strncmp(how(), word, strlen(word)); }

static ssize_t fail(int error) {
    errno = error;
    return -1;
}

static size_t few(size_t count) { return (is("short") || is("interrupted") || is("read") || is("recv") || is("each")) && count > MOST ? MOST : count; }

/* Where the program's own code is: it comes first. */
static int look(struct dl_phdr_info *at, size_t size, void *none) {
    (void)size, (void)none;
    for (int it = 0; it < at->dlpi_phnum; it++) {
        if (at->dlpi_phdr[it].p_type != PT_LOAD || !(at->dlpi_phdr[it].p_flags & PF_X)) continue;
        begin = at->dlpi_addr + at->dlpi_phdr[it].p_vaddr;
        end = begin + at->dlpi_phdr[it].p_memsz;
    }
    return 1;
}

__attribute__((constructor)) static void find(void) { dl_iterate_phdr(look, NULL); }

/* Whether there is no memory for whoever goes on at this place. */
static int is_refused(void *caller) {
    uintptr_t at = (uintptr_t)caller;
    return at >= begin && at < end && is("memory") && atomic_fetch_add(&requests, 1) >= atoi(how() + 7);
}

void *__libc_malloc(size_t), *__libc_calloc(size_t, size_t), *__libc_realloc(void *, size_t), *__libc_memalign(size_t, size_t);

void *malloc(size_t size) { return is_refused(__builtin_return_address(0)) ? NULL : __libc_malloc(size); }
void *calloc(size_t count, size_t size) { return is_refused(__builtin_return_address(0)) ? NULL : __libc_calloc(count, size); }
void *realloc(void *old, size_t size) { return is_refused(__builtin_return_address(0)) ? NULL : __libc_realloc(old, size); }
void *aligned_alloc(size_t by, size_t size) { return is_refused(__builtin_return_address(0)) ? NULL : __libc_memalign(by, size); }

int posix_memalign(void **made, size_t by, size_t size) {
    if (is_refused(__builtin_return_address(0))) return ENOMEM;
    *made = __libc_memalign(by, size);
    return *made ? 0 : ENOMEM;
}

/* The number at a place of the list. */
static int listed(int place) {
    const char *at = how() + 5;
    while (place-- > 0 && *at) at += strcspn(at, " ") + 1;
    return atoi(at);
}

ssize_t read(int at, void *bytes, size_t count) {
    if (is("each") && at > 2 && at < FILES && atomic_fetch_add(&heard[at], 1)) return fail(listed(at - 3));
    if (is("read") && atomic_fetch_add(&reads, 1)) return fail(atoi(how() + 5));
    return syscall(SYS_read, at, bytes, few(count));
}

ssize_t write(int at, const void *bytes, size_t count) {
    if (at == 2 && is("lose") && atomic_fetch_add(&writes, 1) + 1 == atoi(how() + 5)) return fail(EAGAIN);
    if (at == 2) return syscall(SYS_write, at, bytes, is("short") && count > FEW ? FEW : count);
    if (is("nothing")) return 0;
    if (is("interrupted") && atomic_fetch_add(&writes, 1) % 3 < 2) return fail(EINTR);
    if (is("write")) return fail(atoi(how() + 6));
    return syscall(SYS_write, at, bytes, few(count));
}

int accept4(int at, struct sockaddr *address, socklen_t *length, int flags) {
    int client = (int)syscall(SYS_accept4, at, address, length, flags);
    if (client >= 0 && client < FILES) order[client] = taken++;
    return client;
}

ssize_t recv(int at, void *bytes, size_t count, int flags) {
    if (is("each") && at < FILES && atomic_fetch_add(&heard[at], 1)) return fail(listed(order[at]));
    if (is("recv") && atomic_fetch_add(&reads, 1)) return fail(atoi(how() + 5));
    return syscall(SYS_recvfrom, at, bytes, few(count), flags, NULL, NULL);
}

int pthread_create(pthread_t *thread, const pthread_attr_t *how_made, void *(*begin)(void *), void *given) {
    static atomic_int started;
    int (*create)(pthread_t *, const pthread_attr_t *, void *(*)(void *), void *) = dlsym(RTLD_NEXT, "pthread_create");
    return is("thread") && atomic_fetch_add(&started, 1) + 1 == atoi(how() + 7) ? EAGAIN : create(thread, how_made, begin, given);
}

enum { SYNCED = 99 };

int fsync(__attribute__((unused)) int at) { _exit(SYNCED); }
int fdatasync(__attribute__((unused)) int at) { _exit(SYNCED); }
int syncfs(__attribute__((unused)) int at) { _exit(SYNCED); }
void sync(void) { _exit(SYNCED); }
