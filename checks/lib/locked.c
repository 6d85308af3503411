/* Loaded before the C library (LD_PRELOAD): no file of the name lfiload can be removed. For checks/lib/installed.py. */
#define _GNU_SOURCE
#include <dlfcn.h>
#include <errno.h>
#include <string.h>

static int is_locked(const char *path) {
    const char *name = strrchr(path, '/');
    return strcmp(name ? name + 1 : path, "lfiload") == 0 && (errno = EACCES);
}

int unlink(const char *path) {
    int (*next)(const char *) = (int (*)(const char *))dlsym(RTLD_NEXT, "unlink");
    return is_locked(path) ? -1 : next(path);
}

int unlinkat(int at, const char *path, int flags) {
    int (*next)(int, const char *, int) = (int (*)(int, const char *, int))dlsym(RTLD_NEXT, "unlinkat");
    return is_locked(path) ? -1 : next(at, path, flags);
}
