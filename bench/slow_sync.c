/* Makes each sync of a file take SYNC_MICROSECONDS longer, asleep, as a disk is that keeps what it is told: a library to be loaded before the C library's. */
#define _GNU_SOURCE
#include <dlfcn.h>
#include <stdlib.h>
#include <time.h>

int fdatasync(int file) {
    static int (*sync)(int);
    static long micros = -1;
    if (!sync) sync = (int (*)(int))dlsym(RTLD_NEXT, "fdatasync");
    if (micros < 0) micros = getenv("SYNC_MICROSECONDS") ? atol(getenv("SYNC_MICROSECONDS")) : 0;
    int answer = sync(file);
    struct timespec rest = {micros / 1000000, micros % 1000000 * 1000};
    if (micros > 0) nanosleep(&rest, 0);
    return answer;
}
