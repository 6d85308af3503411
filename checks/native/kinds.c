/* A library of the next interface, or a system whose pages have 16,384 bytes, as KIND says. Made of all files of examples/native_host, with
 * --wrap=lfi_version and --wrap=sysconf. */
#include "native_host.h"

uint32_t __real_lfi_version(void), __wrap_lfi_version(void);
long __real_sysconf(int name), __wrap_sysconf(int name);

static int is(const char *what) {
    const char *kind = getenv("KIND");
    return kind && !strcmp(kind, what);
}

uint32_t __wrap_lfi_version(void) { return __real_lfi_version() + is("library"); }

long __wrap_sysconf(int name) { return name == _SC_PAGESIZE && is("pages") ? 16384 : __real_sysconf(name); }
