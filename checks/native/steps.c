/* Tells on standard error, as they come, the host's calls that reserve pages or change what may be done with them, that judge code in its
 * place, that bring caches in step and that have other cores synchronize; and whether pages may be executed in which the bytes are others
 * than those of which the caches were brought in step. Made of all files of examples/native_host, with --wrap=mmap,
 * --wrap=mprotect, --wrap=lfi_verify_update, --wrap=syscall and --wrap=__clear_cache. */
#include "native_host.h"
#include <stdarg.h>

void *__real_mmap(void *at, size_t size, int rights, int flags, int file, off_t from);
int __real_mprotect(void *from, size_t size, int rights);
lfi_status __real_lfi_verify_update(lfi_state *state, const uint8_t *piece, size_t size);
long __real_syscall(long number, ...);
void __real___clear_cache(void *from, void *to);
void *__wrap_mmap(void *at, size_t size, int rights, int flags, int file, off_t from);
int __wrap_mprotect(void *from, size_t size, int rights);
lfi_status __wrap_lfi_verify_update(lfi_state *state, const uint8_t *piece, size_t size);
long __wrap_syscall(long number, ...);
void __wrap___clear_cache(void *from, void *to);

/* Pages that nobody else has a way to, and without access; or others, as those of a file. */
void *__wrap_mmap(void *at, size_t size, int rights, int flags, int file, off_t from) {
    int own = rights == PROT_NONE && flags & MAP_PRIVATE && flags & MAP_ANONYMOUS && file == -1;
    fprintf(stderr, "step: %p %p %s\n", at, (void *)((char *)at + size), own ? "reserve" : "map otherwise");
    return __real_mmap(at, size, rights, flags, file, from);
}

lfi_status __wrap_lfi_verify_update(lfi_state *state, const uint8_t *piece, size_t size) {
    fprintf(stderr, "step: %p %p judge\n", (const void *)piece, (const void *)(piece + size));
    return __real_lfi_verify_update(state, piece, size);
}

/* The code of which the caches were brought in step last, and the sum of its bytes at that time. */
static struct {
    const uint8_t *from, *to;
    uint64_t sum;
} in_step;

static uint64_t sum_of(const uint8_t *from, const uint8_t *to) {
    uint64_t sum = 0;
    for (; from < to; from++) sum = sum * 31 + *from;
    return sum;
}

int __wrap_mprotect(void *from, size_t size, int rights) {
    int is_of_step = (uint8_t *)from <= in_step.from && in_step.to <= (uint8_t *)from + size;
    if (rights & PROT_EXEC && (!is_of_step || sum_of(in_step.from, in_step.to) != in_step.sum)) fprintf(stderr, "step: executed as it wasn't in step\n");
    const char *reads = rights & PROT_READ ? " read" : "", *writes = rights & PROT_WRITE ? " write" : "", *executes = rights & PROT_EXEC ? " execute" : "";
    fprintf(stderr, "step: %p %p%s%s%s\n", from, (void *)((char *)from + size), reads, writes, executes);
    return __real_mprotect(from, size, rights);
}

void __wrap___clear_cache(void *from, void *to) {
    fprintf(stderr, "step: %p %p caches\n", from, to);
    in_step.from = from, in_step.to = to, in_step.sum = sum_of(from, to);
    __real___clear_cache(from, to);
}

long __wrap_syscall(long number, ...) {
    va_list given;
    va_start(given, number);
    long first = va_arg(given, long), second = va_arg(given, long), third = va_arg(given, long);
    va_end(given);
    if (number == SYS_membarrier && first == MEMBARRIER_CMD_REGISTER_PRIVATE_EXPEDITED_SYNC_CORE) fprintf(stderr, "step: register\n");
    else if (number == SYS_membarrier && first == MEMBARRIER_CMD_PRIVATE_EXPEDITED_SYNC_CORE) fprintf(stderr, "step: synchronize\n");
    else fprintf(stderr, "step: system call %ld\n", number);
    return __real_syscall(number, first, second, third);
}
