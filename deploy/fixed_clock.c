// Lets the clock of the program that it is loaded into stand still, so that two runs of it make the same ids and stamps.
//
//     cc -shared -fPIC -O2 -o fixed_clock.so fixed_clock.c
//     FIXED_CLOCK=MILLISECONDS LD_PRELOAD=./fixed_clock.so PROGRAM
//
// Only the clock that tells the time of day stands; waits are measured by another one. Without FIXED_CLOCK it goes on.
#define _GNU_SOURCE
#include <stdlib.h>
#include <sys/syscall.h>
#include <time.h>
#include <unistd.h>

static long long moment = -1;

__attribute__((constructor)) static void begin(void) {
    const char *told = getenv("FIXED_CLOCK");
    if (told) moment = atoll(told);
}

int clock_gettime(clockid_t which, struct timespec *now) {
    if (which != CLOCK_REALTIME || moment < 0) return syscall(SYS_clock_gettime, which, now);
    now->tv_sec = moment / 1000;
    now->tv_nsec = moment % 1000 * 1000000;
    return 0;
}
