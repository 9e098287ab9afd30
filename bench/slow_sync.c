/* Preloaded into a program, this makes each of its syncs take SYNC_MICROSECONDS longer, as on a slow disk.

       cc -shared -fPIC -O2 -o slow_sync.so slow_sync.c
       SYNC_MICROSECONDS=3000 LD_PRELOAD=./slow_sync.so PROGRAM */
#define _GNU_SOURCE
#include <stdlib.h>
#include <sys/syscall.h>
#include <time.h>
#include <unistd.h>

static void pause_once(void) {
    const char *given = getenv("SYNC_MICROSECONDS");
    long microseconds = given ? atol(given) : 0;
    struct timespec pause = {microseconds / 1000000, microseconds % 1000000 * 1000};
    nanosleep(&pause, NULL);
}

int fdatasync(int file) {
    pause_once();
    return syscall(SYS_fdatasync, file);
}

int fsync(int file) {
    pause_once();
    return syscall(SYS_fsync, file);
}
