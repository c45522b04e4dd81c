/* front PORT ORIGIN=FILE..: answers DNS over UDP and TCP on 127.0.0.1 and ::1, from zone files, with the library ningkraet.
 *
 *     cc -O2 -pthread front.c $(pkg-config --cflags --libs ningkraet) -o front
 *     ./front 5300 example.com.=example.zone
 *
 * An example of a program over the library: each thread answers from its own copy of the zones, over UDP or over one TCP
 * connection after the other. SIGHUP rereads the zone files, and a zone whose file is bad stays as it is; SIGTERM and
 * SIGINT stop it. The server to run is ningkraetd, in server/.
 */
#include <errno.h>
#include <netdb.h>
#include <netinet/tcp.h>
#include <ningkraet.h>
#include <pthread.h>
#include <signal.h>
#include <stdio.h>
#include <stdlib.h>
#include <string.h>
#include <sys/stat.h>
#include <time.h>
#include <unistd.h>

enum {
    DATAGRAM = 1232,   /* octets of a UDP response, at most */
    QUERY = 4096,      /* octets of a UDP query, at most: a longer one isn't answered */
    MESSAGE = 65535,   /* octets of a TCP message, at most */
    STREAMS = 16,      /* TCP connections at once, to each address: further ones wait until one of these ends */
    IDLE = 5           /* seconds in which a TCP query has to come, and its response to be read */
};

/* The zones that are served, with a lock, and how often they have changed; what a thread copied last, and when. */
static nk_zones loaded = NK_ZONES_NONE;
static pthread_mutex_t lock = PTHREAD_MUTEX_INITIALIZER;
static _Atomic unsigned long renewed;
static _Thread_local nk_zones own = NK_ZONES_NONE;
static _Thread_local unsigned long seen;

/* Gives this thread the zones that are served now. Without memory for that, it keeps what it has. */
static void renew(void) {
    nk_zones fresh = NK_ZONES_NONE;
    if (seen == renewed) return;
    pthread_mutex_lock(&lock);
    unsigned long copied = renewed;
    uint32_t code = nk_zones_copy(&loaded, &fresh);
    pthread_mutex_unlock(&lock);
    if (code != NK_DONE) return;
    nk_zones_free(&own);   /* without the lock, since freeing a large zone takes a while */
    own = fresh;
    seen = copied;
}

static _Noreturn void *serve_datagrams(void *fd) {
    uint8_t query[QUERY] = {0}, response[DATAGRAM] = {0};
    struct sockaddr_storage client;
    for (size_t written;;) {
        socklen_t size = sizeof client;
        ssize_t length = recvfrom((intptr_t)fd, query, QUERY, MSG_TRUNC, (struct sockaddr *)&client, &size);
        renew();   /* without a query too, once in IDLE seconds, so that old zones are freed */
        if (length >= 0 && length <= QUERY &&
            nk_zones_answer(&own, time(NULL), query, length, DATAGRAM, NK_UDP, response, DATAGRAM, &written) == NK_DONE)
            sendto((intptr_t)fd, response, written, 0, (struct sockaddr *)&client, size);
    }
}

/* Answers what comes by TCP, where two octets with its length precede each message (RFC 1035 section 4.2.2). */
static _Noreturn void *serve_streams(void *listener) {
    uint8_t prefix[2], query[MESSAGE] = {0}, response[2 + MESSAGE] = {0};
    for (size_t written;;) {
        int fd = accept((intptr_t)listener, NULL, NULL);
        for (renew(); fd >= 0 && recv(fd, prefix, 2, MSG_WAITALL) == 2; renew()) {
            ssize_t length = prefix[0] << 8 | prefix[1];
            if (length && recv(fd, query, length, MSG_WAITALL) != length) break;
            if (nk_zones_answer(&own, time(NULL), query, length, MESSAGE, NK_TCP, response + 2, MESSAGE, &written) != NK_DONE) break;
            response[0] = written >> 8, response[1] = written;
            if (send(fd, response, 2 + written, 0) != (ssize_t)(2 + written)) break;
        }
        if (fd >= 0) close(fd);
    }
}

/* Starts the threads that serve an address by UDP or TCP. Returns whether it is served. */
static int serve(const char *host, const char *port, int kind) {
    struct addrinfo *found, wanted = {.ai_flags = AI_NUMERICHOST | AI_NUMERICSERV, .ai_socktype = kind};
    struct timeval idle = {IDLE, 0};
    int one = 1, is_tcp = kind == SOCK_STREAM;
    if (getaddrinfo(host, port, &wanted, &found)) return 0;
    int fd = socket(found->ai_family, kind, 0);
    setsockopt(fd, SOL_SOCKET, SO_RCVTIMEO, &idle, sizeof idle);   /* connections have the options of their listener */
    setsockopt(fd, SOL_SOCKET, SO_SNDTIMEO, &idle, sizeof idle);
    if (is_tcp) setsockopt(fd, SOL_SOCKET, SO_REUSEADDR, &one, sizeof one);
    if (is_tcp) setsockopt(fd, IPPROTO_TCP, TCP_NODELAY, &one, sizeof one);
    int fault = bind(fd, found->ai_addr, found->ai_addrlen) || (is_tcp && listen(fd, SOMAXCONN)) ? errno : 0;
    freeaddrinfo(found);
    pthread_t threads[STREAMS];
    for (int i = 0; !fault && i < (is_tcp ? STREAMS : 1); i++)
        fault = pthread_create(&threads[i], NULL, is_tcp ? serve_streams : serve_datagrams, (void *)(intptr_t)fd);
    fprintf(stderr, "front: %s %s port %s: %s\n", is_tcp ? "TCP" : "UDP", host, port, fault ? strerror(fault) : "listening");
    return !fault;
}

/* Loads the zone of an argument ORIGIN=FILE. Returns whether it did. */
static int load(nk_zones *zones, const char *word) {
    static uint8_t told[4096];
    struct stat status;
    const char *path = strchr(word, '='), *why = path ? NULL : "ORIGIN= is missing";
    FILE *file = path ? fopen(path + 1, "rb") : NULL;
    uint8_t *text = file && !fstat(fileno(file), &status) ? malloc(status.st_size + 1) : NULL;
    size_t written = 0, length = text ? fread(text, 1, status.st_size, file) : 0;
    if (!why && (!text || ferror(file))) why = strerror(errno);
    uint32_t code = why ? NK_DONE : nk_zones_load(zones, (const uint8_t *)word, path - word, text, length, told, sizeof told, &written);
    fwrite(told, 1, written, stderr);   /* the fault, or warnings */
    if (code != NK_DONE) why = code == NK_BAD_TEXT ? "its file is bad" : code == NK_BAD_NAME ? "its origin isn't a name" : "out of memory";
    if (why) fprintf(stderr, "front: %s isn't loaded: %s\n", word, why);
    if (file) fclose(file);
    free(text);
    return !why;
}

/* Loads all zones into a copy of those that are served, and serves that. Returns whether each was loaded. */
static int load_all(char **words) {
    nk_zones fresh = NK_ZONES_NONE, old;
    pthread_mutex_lock(&lock);
    int is_good = nk_zones_copy(&loaded, &fresh) == NK_DONE;
    pthread_mutex_unlock(&lock);
    if (!is_good) return 0;
    for (; *words; words++) is_good &= load(&fresh, *words);
    pthread_mutex_lock(&lock);
    old = loaded, loaded = fresh, renewed++;
    pthread_mutex_unlock(&lock);
    nk_zones_free(&old);
    return is_good;
}

int main(int argc, char **argv) {
    sigset_t handled;
    char *end = "";
    long served = 0, port = argc > 2 ? strtol(argv[1], &end, 10) : 0;
    if (port < 1 || port > 65535 || *end) {
        fprintf(stderr, "usage: front PORT ORIGIN=FILE..\n");
        return 2;
    }
    signal(SIGPIPE, SIG_IGN);
    sigemptyset(&handled);
    for (int i = 0; i < 3; i++) sigaddset(&handled, (int[]){SIGHUP, SIGINT, SIGTERM}[i]);
    pthread_sigmask(SIG_BLOCK, &handled, NULL);   /* in all threads: this one waits for them */
    if (nk_interface() != NK_INTERFACE || nk_zones_new(&loaded) != NK_DONE || !load_all(argv + 2)) return 2;
    for (int i = 0; i < 4; i++) served += serve(i < 2 ? "127.0.0.1" : "::1", argv[1], i % 2 ? SOCK_STREAM : SOCK_DGRAM);
    for (int number; served && !sigwait(&handled, &number) && number == SIGHUP;) load_all(argv + 2);
    return served ? 0 : 1;
}
