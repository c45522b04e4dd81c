/* A thread that answers queries by UDP and TCP, from a copy of the zones. */
#pragma once

#include <sys/queue.h>

#include "log.h"

/* What the kernel tells events of: a connection, or a socket at which something may have come. */
struct source { int fd, is_connection, has_come; };

/* A socket for datagrams: of those that one call read, `count`, those from `at` on are still to be answered. */
enum { BATCH = 32, DATAGRAM = 4096 };   /* octets of a query that are read: a longer one is dropped */
struct udp {
    struct source source;
    int count, at;
    struct mmsghdr read[BATCH];
    struct iovec rooms[BATCH];
    struct sockaddr_storage clients[BATCH];
    _Alignas(struct cmsghdr) uint8_t controls[BATCH][CMSG_SPACE(sizeof(struct in6_pktinfo))];   /* (those of IPv4 are shorter) */
    uint8_t octets[BATCH][DATAGRAM], responses[BATCH][1232];
};

TAILQ_HEAD(queue, connection);   /* a list of connections, the one that moved last at its end */

struct worker {
    pthread_t thread;
    const struct config *config;
    nk_zones zones;
    nk_access access;                  /* keys, and who may have zones */
    nk_updates updates;                /* and who may change them */
    unsigned long seen;                /* which zones these are */
    int epoll, spare;                  /* `spare`: a descriptor that is kept for a client that is turned away */
    struct udp *udp;                   /* one for each address */
    struct source *listeners;
    size_t address_count;
    struct queue silent, asking, busy; /* connections that have asked nothing yet, that have, and those of them with queries that wait */
    struct counters counters;
};

enum {
    SHARE = 2000,    /* microseconds that answers of one kind take before those of the other have their turn; one answer at least */
    SLICE = 200      /* microseconds that answers to one connection take before the next one has its turn; one answer at least */
};

/* The moment by a clock that nobody sets, in microseconds. */
uint64_t microseconds(void);
/* Makes a worker with these sockets, of each address one for datagrams and one that listens. Returns 0, or -1 once it is logged why. */
int worker_begin(struct worker *worker, const struct config *config, const int *sockets, size_t address_count);
/* Starts its thread; ends all threads; frees a worker whose thread has ended. */
int worker_start(struct worker *worker);
void workers_stop(void);
void worker_free(struct worker *worker);
/* Answers a client's message into a buffer, and counts it. Returns a code of the library: after NK_DONE `written` is how long the response
 * is, and `summary` what it was; after NK_TRANSFER the transfer has its messages. */
uint32_t answer_message(struct worker *worker, nk_transfer *transfer, const struct sockaddr *client, uint32_t transport, time_t now, const uint8_t *query,
                        size_t query_length, uint8_t *response, size_t size, size_t *written, nk_summary *summary);
/* A file descriptor whose events come with this source. Returns 0 or -1. */
int worker_watch(struct worker *worker, struct source *source, uint32_t events, int is_new);

/* ---- udp.c: queries by UDP */
/* Answers datagrams that have come, until none is left of those that were read, or SHARE is over. */
void udp_answer(struct worker *worker, struct udp *udp);

/* ---- tcp.c: queries by TCP */
/* Takes connections that wait at a listener. */
void tcp_accept(struct worker *worker, struct source *listener);
/* Moves the octets that an event tells of, and answers what was asked. */
void tcp_event(struct worker *worker, struct source *connection, uint32_t events);
/* Answers queries that wait in connections' buffers, until none does or SHARE is over since `began`. */
void tcp_answer(struct worker *worker, uint64_t began);
/* Closes connections that were idle for too long; all of them. */
void tcp_close_idle(struct worker *worker);
void tcp_close_all(struct worker *worker);
/* Whether a response isn't sent whole yet. */
int tcp_has_unsent(const struct worker *worker);

/* ---- limits.c: how much one client may have: TCP connections at once, and responses a second by UDP; shared by all workers */
/* Makes the tables. Returns 0, or -1 once it is logged that there is no memory. */
int limits_begin(const struct config *config);

/* What becomes of a response by UDP. */
enum verdict { SEND, CUT, WITHHOLD };

/* Counts a response to a client, by the client's prefix, the kind of answer and the name that was asked for, of which a name error counts without its
 * first label. Nobody else can have responses sent to a client with a valid cookie, or whose update was taken: it has no limit. */
enum verdict limits_take(const struct sockaddr *client, const nk_summary *summary, const uint8_t *query, size_t query_length);

/* Where the question's name ends in a query: at the octet 0 of the root, or at the end of what is there of it. */
size_t name_end(const uint8_t *query, size_t length);
/* The octets of a client's address, and how many there are: 4 or 16. */
const uint8_t *client_octets(const struct sockaddr *client, size_t *length);
/* Counts a TCP connection of a client, and tells whether it may have one more: its counter, or NULL. */
atomic_uint *limits_enter(const struct sockaddr *client);
void limits_leave(atomic_uint *tally);
/* Whether there are no more connections than may be in all. */
int limits_room(void);
void limits_free(void);
