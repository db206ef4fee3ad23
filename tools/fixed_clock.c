/* Loaded before the C library, it makes a program's clock stand still: see tools/query_sessions.py. What measures how much time has
 * passed goes on.
 *
 * CLOCK_MOMENT  what the clock shows, in seconds since 1970 */
#define _GNU_SOURCE
#include <stdlib.h>
#include <sys/syscall.h>
#include <time.h>
#include <unistd.h>

int clock_gettime(clockid_t clock, struct timespec *now) {
    const char *moment = getenv("CLOCK_MOMENT");
    if (clock != CLOCK_REALTIME || !moment) return syscall(SYS_clock_gettime, clock, now);
    now->tv_sec = atoll(moment);
    now->tv_nsec = 0;
    return 0;
}
