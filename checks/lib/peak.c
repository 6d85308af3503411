/* Loaded before the C library (LD_PRELOAD): at the program's end what /proc/self/status tells of it is copied to the file that PEAK
 * names. For checks/hostile, on Linux. */
#include <fcntl.h>
#include <stdlib.h>
#include <sys/syscall.h>
#include <unistd.h>

void _exit(int status) {
    static char text[16384];
    const char *name = getenv("PEAK");
    int from = open("/proc/self/status", O_RDONLY), to = name ? open(name, O_WRONLY | O_CREAT | O_TRUNC, 0600) : -1;
    ssize_t size = from < 0 ? 0 : read(from, text, sizeof text);
    if (to >= 0 && size > 0 && write(to, text, (size_t)size) < size) abort();
    for (;;) syscall(SYS_exit_group, status);
}
