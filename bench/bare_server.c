/* A server that does little: about what a GET and a change cost any program on this machine.
 *
 *     cc -O2 -pthread -o bare_server bare_server.c && ./bare_server FILE
 *
 * It writes its port to standard output and serves 127.0.0.1 by four threads, each with an epoll set of its own. It
 * understands no more of HTTP than wrk sends. GET gives 1,024, 65,536 or 1,048,576 bytes out of memory, by the last
 * letters of the path (1k, 64k, 1m). Any other method is a change: one after another they write the body and 76 bytes
 * into FILE and sync, write one byte and sync. FILE is laid out beforehand, so that no write makes it longer.
 */
#define _GNU_SOURCE
#include <arpa/inet.h>
#include <fcntl.h>
#include <netinet/tcp.h>
#include <pthread.h>
#include <stdio.h>
#include <stdlib.h>
#include <string.h>
#include <sys/epoll.h>
#include <sys/socket.h>
#include <sys/uio.h>
#include <unistd.h>

enum { THREADS = 4, DESCRIPTORS = 1024, REQUEST_BYTES = 16384, FILE_BYTES = 1 << 26, BODY_BYTES = 1 << 20 };

struct connection {
    size_t held;
    char bytes[REQUEST_BYTES];
};

static struct connection connections[DESCRIPTORS];
static char body[BODY_BYTES];
static int file;
static off_t place;
static pthread_mutex_t turn = PTHREAD_MUTEX_INITIALIZER;

static void fail(const char *what) {
    perror(what);
    exit(1);
}

static void change(const char *record, size_t size) {
    pthread_mutex_lock(&turn);
    if (pwrite(file, record, size, place + 1) < 0 || fdatasync(file) || pwrite(file, "1", 1, place) < 0 || fdatasync(file))
        fail("write");
    place = (place + (off_t)size) % (FILE_BYTES - REQUEST_BYTES);
    pthread_mutex_unlock(&turn);
}

/* Sends all of a head and a body; a socket takes both at once, as long as its buffer has room. */
static void send_page(int socket, const char *head, size_t head_size, size_t body_size) {
    size_t sent = 0, all = head_size + body_size;
    while (sent < all) {
        struct iovec parts[2] = {{(char *)head, head_size}, {body, body_size}};
        size_t skip = sent < head_size ? sent : head_size;
        parts[0].iov_base = (char *)head + skip;
        parts[0].iov_len = head_size - skip;
        parts[1].iov_base = body + (sent - skip);
        parts[1].iov_len = all - head_size - (sent - skip);
        struct msghdr message = {.msg_iov = parts, .msg_iovlen = 2};
        ssize_t now = sendmsg(socket, &message, MSG_NOSIGNAL);
        if (now < 0) return;
        sent += (size_t)now;
    }
}

static size_t size_asked(const char *request) {
    const char *end = memchr(request + 4, ' ', 100);
    if (!end) return 0;
    return end[-1] == 'm' ? 1048576 : end[-2] == '4' ? 65536 : 1024;
}

/* Answers the first request that is whole, and tells its length; 0 where none is. */
static size_t answer(int socket, struct connection *it) {
    char *end = memmem(it->bytes, it->held, "\r\n\r\n", 4);
    if (!end) return 0;
    size_t head = (size_t)(end - it->bytes) + 4, length = 0;
    char *announced = memmem(it->bytes, head, "Content-Length: ", 16);
    if (announced) length = strtoul(announced + 16, NULL, 10);
    if (it->held < head + length) return 0;
    if (!memcmp(it->bytes, "GET ", 4)) {
        char reply[128];
        size_t size = size_asked(it->bytes);
        int written = snprintf(reply, sizeof reply, "HTTP/1.1 200 OK\r\nContent-Length: %zu\r\n\r\n", size);
        send_page(socket, reply, (size_t)written, size);
    } else {
        static const char done[] = "HTTP/1.1 204 No Content\r\n\r\n";
        char record[REQUEST_BYTES] = {0};
        size_t size = length + 76 < sizeof record ? length + 76 : sizeof record;
        memcpy(record, it->bytes + head, length < size ? length : size);
        change(record, size);
        send_page(socket, done, sizeof done - 1, 0);
    }
    return head + length;
}

static void serve(int socket) {
    struct connection *it = &connections[socket];
    ssize_t now = recv(socket, it->bytes + it->held, sizeof it->bytes - it->held, MSG_DONTWAIT);
    if (now <= 0) {
        it->held = 0;
        close(socket);
        return;
    }
    it->held += (size_t)now;
    for (size_t used; (used = answer(socket, it)) != 0; it->held -= used)
        memmove(it->bytes, it->bytes + used, it->held - used);
}

static void *work(void *set) {
    struct epoll_event events[64];
    for (;;) {
        int count = epoll_wait(*(int *)set, events, 64, -1);
        for (int k = 0; k < count; k++) serve(events[k].data.fd);
    }
    return NULL;
}

int main(int count, char **words) {
    static int sets[THREADS];
    if (count != 2) return 2;
    memset(body, 'x', sizeof body);
    file = open(words[1], O_RDWR | O_CREAT, 0600);
    if (file < 0) fail(words[1]);
    for (off_t at = 0; at < FILE_BYTES; at += BODY_BYTES)
        if (pwrite(file, body, BODY_BYTES, at) < 0) fail("write");
    if (fsync(file)) fail("sync");
    for (int k = 0; k < THREADS; k++) {
        pthread_t thread;
        sets[k] = epoll_create1(0);
        if (pthread_create(&thread, NULL, work, &sets[k])) fail("thread");
    }
    int listener = socket(AF_INET, SOCK_STREAM, 0), yes = 1;
    struct sockaddr_in at = {.sin_family = AF_INET, .sin_addr.s_addr = htonl(INADDR_LOOPBACK)};
    socklen_t size = sizeof at;
    if (bind(listener, (struct sockaddr *)&at, size) || listen(listener, 128) || getsockname(listener, (struct sockaddr *)&at, &size))
        fail("listen");
    printf("%d\n", ntohs(at.sin_port));
    fflush(stdout);
    for (int k = 0;; k++) {
        int socket = accept(listener, NULL, NULL);
        if (socket < 0) continue;
        if (socket >= DESCRIPTORS) {
            close(socket);
            continue;
        }
        setsockopt(socket, IPPROTO_TCP, TCP_NODELAY, &yes, sizeof yes);
        connections[socket].held = 0;
        struct epoll_event event = {.events = EPOLLIN, .data.fd = socket};
        epoll_ctl(sets[k % THREADS], EPOLL_CTL_ADD, socket, &event);
    }
}
