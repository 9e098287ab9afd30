/* Preloaded into a program, this makes the look-up of each name that begins with "hang" take ten seconds and find nothing, as
   with a name server that never answers. The name "answers.example" is this machine.

       cc -shared -fPIC -O2 -o slow_names.so slow_names.c -ldl
       LD_PRELOAD=./slow_names.so PROGRAM */
#define _GNU_SOURCE
#include <dlfcn.h>
#include <netdb.h>
#include <string.h>
#include <unistd.h>

typedef int look_up(const char *, const char *, const struct addrinfo *, struct addrinfo **);

int getaddrinfo(const char *name, const char *service, const struct addrinfo *hints, struct addrinfo **found) {
    if (name && !strncmp(name, "hang", 4)) {
        sleep(10);
        return EAI_AGAIN;
    }
    if (name && !strcmp(name, "answers.example")) name = "127.0.0.1";
    return ((look_up *)dlsym(RTLD_NEXT, "getaddrinfo"))(name, service, hints, found);
}
