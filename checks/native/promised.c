/* A system with too little memory to promise a slot's: it maps one only where it is asked for no promise (mmap(2), MAP_NORESERVE). Linked
 * with all files of examples/native_host, and with examples/host.c. */
#define _GNU_SOURCE
#include <errno.h>
#include <stddef.h>
#include <sys/mman.h>

void *__wrap_mmap(void *at, size_t size, int rights, int flags, int file, off_t from);

void *__real_mmap(void *at, size_t size, int rights, int flags, int file, off_t from);

void *__wrap_mmap(void *at, size_t size, int rights, int flags, int file, off_t from) {
    if (size >> 31 && !(flags & MAP_NORESERVE)) return errno = ENOMEM, MAP_FAILED;
    return __real_mmap(at, size, rights, flags, file, from);
}
