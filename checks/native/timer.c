/* Tells on standard error each time what the host sets its timer to, in seconds, and whether it goes off again and again. Made of all files of
 * examples/native_host, with --wrap=setitimer. */
#include "native_host.h"

int __real_setitimer(__itimer_which_t which, const struct itimerval *new, struct itimerval *old);
int __wrap_setitimer(__itimer_which_t which, const struct itimerval *new, struct itimerval *old);

int __wrap_setitimer(__itimer_which_t which, const struct itimerval *new, struct itimerval *old) {
    int again = new->it_interval.tv_sec || new->it_interval.tv_usec;
    fprintf(stderr, "timer: %lld.%06ld%s\n", (long long)new->it_value.tv_sec, (long)new->it_value.tv_usec, again ? " again" : "");
    return __real_setitimer(which, new, old);
}
