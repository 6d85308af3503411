/* steps WHAT FILE PROGRAM WORD..: runs a program with all its threads, and writes to the file how many it was of WHAT: `calls` of the system, or
 * `instructions` that it executed since its libraries were loaded; of these then, where the standard output is a file, how many there were each
 * time that this grew. Its status is that of the program; 125 where the system lets nobody trace here. On Linux. */
#define _GNU_SOURCE
#include <errno.h>
#include <signal.h>
#include <stdio.h>
#include <string.h>
#include <sys/ptrace.h>
#include <sys/stat.h>
#include <sys/syscall.h>
#include <sys/wait.h>
#include <unistd.h>

enum { MOST = 1 << 16, UNTRACED = 125, CALL = SIGTRAP | 0x80 };

/* Goes on to the first munmap, by which the loader gives back the list of libraries, and past it. */
static int load(pid_t child) {
    for (int found = 0, status; found < 2;) {
        if (ptrace(PTRACE_SYSCALL, child, 0, 0) || waitpid(child, &status, 0) != child) return UNTRACED;
        if (!WIFSTOPPED(status)) return 2;
        struct __ptrace_syscall_info call;
        if (WSTOPSIG(status) != CALL || ptrace(PTRACE_GET_SYSCALL_INFO, child, sizeof call, &call) < 0) return UNTRACED;
        if (found || call.op == PTRACE_SYSCALL_INFO_ENTRY && call.entry.nr == SYS_munmap) found++;
    }
    return 0;
}

static off_t size_of(int file) {
    struct stat told;
    return fstat(file, &told) ? 0 : told.st_size;
}

int main(int count, char **given) {
    if (count < 4) return 2;
    int by_calls = !strcmp(given[1], "calls");
    pid_t child = fork();
    if (!child) {
        if (ptrace(PTRACE_TRACEME, 0, 0, 0)) _exit(UNTRACED);
        execv(given[3], given + 3);
        _exit(127);
    }
    int status;
    if (waitpid(child, &status, 0) != child || !WIFSTOPPED(status)) return UNTRACED;
    if (ptrace(PTRACE_SETOPTIONS, child, 0, PTRACE_O_TRACECLONE | PTRACE_O_TRACESYSGOOD | PTRACE_O_EXITKILL)) return UNTRACED;
    int left = by_calls ? 0 : load(child);
    if (left) return left;
    static unsigned long long grown[MOST];
    unsigned long long stops = 0;
    int grew = 0, step = by_calls ? PTRACE_SYSCALL : PTRACE_SINGLESTEP;
    off_t size = size_of(1);
    if (ptrace(step, child, 0, 0)) return UNTRACED;
    for (pid_t thread; (thread = waitpid(-1, &status, __WALL)) > 0;) {
        if (!WIFSTOPPED(status)) {
            if (thread == child) break;
            continue;
        }
        int caught = WSTOPSIG(status);
        stops += !by_calls || caught == CALL;
        off_t now = by_calls ? size : size_of(1);
        if (now != size && grew < MOST) grown[grew++] = stops;
        size = now;
        /* A thread begins with SIGSTOP. */
        int signal = caught == SIGTRAP || caught == SIGSTOP || caught == CALL ? 0 : caught;
        if (ptrace(step, thread, 0, signal) && errno != ESRCH) return UNTRACED;
    }
    FILE *told = fopen(given[2], "w");
    /* Each call stops at its begin and at its end. */
    if (!told || fprintf(told, "%llu\n", by_calls ? stops / 2 : stops) < 0) return UNTRACED;
    for (int at = 0; at < grew; at++)
        if (fprintf(told, "%llu\n", grown[at]) < 0) return UNTRACED;
    if (fclose(told)) return UNTRACED;
    return WIFEXITED(status) ? WEXITSTATUS(status) : UNTRACED;
}
