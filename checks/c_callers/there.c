// Preloaded into a host: maps a page at the address that THERE names before the host begins, and tells at its end what the page holds. With OLD
// set, the host's mmap takes an address for a wish, also with MAP_FIXED_NOREPLACE, as Linux before 4.17 does.
#define _GNU_SOURCE
#include <stdint.h>
#include <stdio.h>
#include <stdlib.h>
#include <string.h>
#include <sys/mman.h>
#include <sys/syscall.h>
#include <unistd.h>

static const char text[] = "of another part of this process";
static char *page;

void *mmap(void *at, size_t size, int rights, int how, int file, off_t offset) {
    if (getenv("OLD")) how &= ~MAP_FIXED_NOREPLACE;
    return (void *)(uintptr_t)syscall(SYS_mmap, at, size, rights, how, file, offset);
}

__attribute__((constructor)) static void map(void) {
    const char *there = getenv("THERE");
    void *at = (void *)(uintptr_t)strtoull(there ? there : "0", NULL, 16);
    page = (char *)mmap(at, 4096, PROT_READ | PROT_WRITE, MAP_PRIVATE | MAP_ANONYMOUS, -1, 0);
    if (page != at) _exit(4);
    memcpy(page, text, sizeof text);
}

__attribute__((destructor)) static void tell(void) { fprintf(stderr, "the page is %s\n", page); }
