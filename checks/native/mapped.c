/* Maps a page at the address that the environment names in MAPPED, before the host does anything, and tells at its end what the page holds.
 * Made of all files of examples/native_host. */
#include "native_host.h"

static const char text[] = "of another part of this process";
static char *page;

__attribute__((constructor)) static void map(void) {
    void *at = (void *)(uintptr_t)strtoull(getenv("MAPPED"), 0, 16);
    page = mmap(at, PAGE, PROT_READ | PROT_WRITE, MAP_PRIVATE | MAP_ANONYMOUS, -1, 0);
    if (page != at) printf("no page at %p\n", at), exit(4);
    memcpy(page, text, sizeof text);
}

__attribute__((destructor)) static void tell(void) {
    if (page != MAP_FAILED) printf("the page is %s\n", page), fflush(stdout);
}
