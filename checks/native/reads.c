/* Reads of a file fail from its first fread on, but for what was read before: its descriptor is closed then. */
#include <stdio.h>
#include <unistd.h>

size_t __real_fread(void *to, size_t size, size_t count, FILE *file);

size_t __wrap_fread(void *to, size_t size, size_t count, FILE *file) {
    static int closed;
    if (!closed) closed = 1, close(fileno(file));
    return __real_fread(to, size, count, file);
}
