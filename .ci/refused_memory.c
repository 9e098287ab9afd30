/* Preloaded into a program, this refuses one request for memory: that of the number REFUSED, counted from the start, or of the
   number that comes with a signal SIGUSR1, counted from there, of which a line `counts` on standard error tells. 0 is none.

       cc -shared -fPIC -O2 -o refused_memory.so refused_memory.c -ldl
       REFUSED=9 LD_PRELOAD=./refused_memory.so PROGRAM */
#define _GNU_SOURCE
#include <dlfcn.h>
#include <signal.h>
#include <stdatomic.h>
#include <stdlib.h>
#include <unistd.h>

static atomic_long left;

static void count(int number, siginfo_t *came, void *context) {
    left = came->si_value.sival_int;
    if (write(STDERR_FILENO, "counts\n", 7) != 7) left = 0;
}

__attribute__((constructor)) static void begin(void) {
    const char *given = getenv("REFUSED");
    struct sigaction action = {.sa_sigaction = count, .sa_flags = SA_SIGINFO | SA_RESTART};
    left = given ? atol(given) : 0;
    sigaction(SIGUSR1, &action, NULL);
}

static int refuses(void) { return left > 0 && atomic_fetch_sub(&left, 1) == 1; }

void *malloc(size_t size) {
    static void *(*real)(size_t);
    if (!real) real = dlsym(RTLD_NEXT, "malloc");
    return refuses() ? NULL : real(size);
}

void *realloc(void *old, size_t size) {
    static void *(*real)(void *, size_t);
    if (!real) real = dlsym(RTLD_NEXT, "realloc");
    return refuses() ? NULL : real(old, size);
}
