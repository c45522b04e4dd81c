/* Queries by TCP (RFC 7766): a connection may ask many at once, is answered in turns by time, and is closed once it is idle. */
#include <netinet/tcp.h>

#include "worker.h"

enum {
    FIRST = 512,          /* octets of a connection's buffer once something comes; it grows with what is sent */
    FRAME = 2 + 65535,    /* octets of a message with its length, at most */
    TURN = 1 << 16,       /* octets of responses to one connection before the next one has its turn */
    ACCEPTED = 64,        /* connections that are taken in one turn */
    GRACE = 1000000       /* microseconds that a client has to ask, before others make room sooner than it */
};

struct connection {
    struct source source;
    TAILQ_ENTRY(connection) at, at_busy;
    struct queue *list;
    atomic_uint *tally;
    struct sockaddr_storage client;
    uint64_t moved;           /* the microsecond in which a whole query came, or octets went out: no client holds it by octets alone */
    uint32_t events;          /* those that the kernel is asked for */
    unsigned is_busy, is_ended, is_sending;   /* by an answer that is due; the client has closed its half (section 6.2.4); messages of `transfer` come first */
    nk_transfer transfer;
    uint8_t *in, *unsent;     /* of `unsent` the client hasn't read `left` octets from `sent` on: until it has, no more of its queries are answered */
    size_t size, have, left, sent;
};

static void enter(struct connection *c, struct queue *list) {
    c->list = list;
    TAILQ_INSERT_TAIL(list, c, at);
}

static void leave_busy(struct worker *worker, struct connection *c) {
    if (c->is_busy) TAILQ_REMOVE(&worker->busy, c, at_busy);
    c->is_busy = 0;
}

static void close_connection(struct worker *worker, struct connection *c) {
    leave_busy(worker, c);
    TAILQ_REMOVE(c->list, c, at);
    limits_leave(c->tally);
    close(c->source.fd);
    nk_transfer_free(&c->transfer);
    free(c->in);
    free(c->unsent);
    free(c);
}

/* Makes room for a connection: closes another, the one that has been silent for longest, or else the one whose last query is the oldest;
 * and that first where the silent ones have come within GRACE, and it has asked nothing for as long. */
static int evict(struct worker *worker, const struct connection *newest) {
    struct connection *silent = TAILQ_FIRST(&worker->silent), *asking = TAILQ_FIRST(&worker->asking);
    if (silent == newest) silent = NULL;
    uint64_t before = microseconds() - GRACE;
    struct connection *c = silent && (!asking || silent->moved < before || asking->moved >= before) ? silent : asking;
    if (!c) return 0;
    count(&worker->counters.tcp_evicted, 1);
    close_connection(worker, c);
    return 1;
}

void tcp_accept(struct worker *worker, struct source *listener) {
    listener->has_come = 0;
    for (int taken = 0; taken < ACCEPTED; taken++) {
        struct sockaddr_storage client;
        socklen_t length = sizeof client;
        int one = 1, fd = accept4(listener->fd, (struct sockaddr *)&client, &length, SOCK_NONBLOCK | SOCK_CLOEXEC);
        int is_short = fd < 0 && (errno == EMFILE || errno == ENFILE || errno == ENOMEM || errno == ENOBUFS);
        if (is_short && evict(worker, NULL)) continue;
        if (is_short) {   /* the next client is turned away, by the descriptor that is kept for that: otherwise it would wake the worker for ever */
            close(worker->spare);
            if ((worker->spare = accept4(listener->fd, NULL, NULL, SOCK_CLOEXEC)) >= 0) close(worker->spare);
            worker->spare = dup(worker->epoll);
        }
        if (fd < 0) return;
        atomic_uint *tally = limits_enter((struct sockaddr *)&client);
        struct connection *c = tally ? calloc(1, sizeof *c) : NULL;
        if (!c) {
            count(tally ? &worker->counters.no_memory : &worker->counters.tcp_refused, 1);
            if (tally) limits_leave(tally);
            close(fd);
            continue;
        }
        *c = (struct connection){.source = {fd, 1, 0}, .client = client, .tally = tally, .moved = microseconds(), .events = EPOLLIN};
        enter(c, &worker->silent);
        setsockopt(fd, IPPROTO_TCP, TCP_NODELAY, &one, sizeof one);
        count(&worker->counters.tcp_accepted, 1);
        if (worker_watch(worker, &c->source, EPOLLIN, 1)) close_connection(worker, c);
        else while (!limits_room() && evict(worker, c)) {}
    }
}

/* Whether an answer is due: messages of a transfer, or that to a whole query in what was read from an octet on. */
static int is_due(const struct connection *c, size_t at) {
    return c->is_sending || (c->have - at >= 2 && c->have - at - 2 >= (size_t)(c->in[at] << 8 | c->in[at + 1]));
}

/* Answers whole queries that were read, until none is left, the client has TURN octets to read, or SLICE is over. Tells whether the connection goes on. */
static int answer_frames(struct worker *worker, struct connection *c) {
    static _Thread_local uint8_t out[TURN + FRAME];
    const struct sockaddr *client = (void *)&c->client;
    size_t at = 0, made = 0, written;
    nk_summary summary;
    time_t now = time(NULL);
    for (uint64_t until = microseconds() + SLICE; made < TURN && is_due(c, at) && (!(at | made) || microseconds() < until);) {
        uint8_t *query = c->in + at + 2, *response = out + made + 2;
        size_t length = c->is_sending ? 0 : c->in[at] << 8 | c->in[at + 1];
        uint32_t code = c->is_sending ? nk_transfer_next(&c->transfer, now, response, 65535, &written)
                                      : answer_message(worker, &c->transfer, client, NK_TCP, now, query, length, response, 65535, &written, &summary);
        if (!c->is_sending) at += 2 + length;
        if (code == NK_DONE && c->is_sending) count(&worker->counters.octets_out, written);
        else if (code == NK_DONE) {
            count_response(&worker->counters, written, &summary);
            log_query(client, NK_TCP, query, length, written, &summary);
        }
        if (code == NK_TRANSFER) count(&worker->counters.transfers, 1);
        if (code == NK_TRANSFER || code == NK_NO_MORE) c->is_sending = code == NK_TRANSFER;
        else if (code != NK_DONE && code != NK_IGNORED) return 0;
        if (code != NK_DONE) continue;
        out[made] = written >> 8, out[made + 1] = written;
        made += 2 + written;
    }
    memmove(c->in, c->in + at, c->have -= at);
    if (made) {   /* messages without an answer, such as those of no octets, hold no connection */
        c->moved = microseconds();
        TAILQ_REMOVE(c->list, c, at);
        enter(c, &worker->asking);
    }
    ssize_t sent = made ? send(c->source.fd, out, made, MSG_DONTWAIT | MSG_NOSIGNAL) : 0;
    if (sent < 0 && errno != EAGAIN && errno != EINTR) return 0;
    if (sent < 0) sent = 0;
    c->left = made - sent;
    c->sent = 0;
    if (c->left && !(c->unsent = malloc(c->left))) return 0;
    if (c->left) memcpy(c->unsent, out + sent, c->left);
    return 1;
}

/* Reads more, into a buffer that has room for the message whose length is known. Tells whether the connection goes on. */
static int read_more(struct connection *c) {
    size_t need = c->have < 2 ? FIRST : (size_t)(c->in[0] << 8 | c->in[1]) + 2;
    if (need > c->size) {
        uint8_t *grown = realloc(c->in, need);
        if (!grown) return 0;
        c->in = grown, c->size = need;
    }
    ssize_t count = recv(c->source.fd, c->in + c->have, c->size - c->have, MSG_DONTWAIT);
    if (count < 0) return errno == EAGAIN || errno == EINTR;
    c->is_ended = count == 0;
    c->have += count;
    return 1;
}

static int send_more(struct connection *c) {
    ssize_t count = send(c->source.fd, c->unsent + c->sent, c->left, MSG_DONTWAIT | MSG_NOSIGNAL);
    if (count < 0) return errno == EAGAIN || errno == EINTR;
    c->moved = microseconds();
    c->sent += count;
    if (!(c->left -= count)) free(c->unsent), c->unsent = NULL;
    return 1;
}

/* What a connection waits for is asked of the kernel; one that is answered to its end is closed. */
static void go_on(struct worker *worker, struct connection *c, int goes_on) {
    int waits = goes_on && !c->left && is_due(c, 0);
    if (!goes_on || (c->is_ended && !c->left && !waits)) {
        close_connection(worker, c);
        return;
    }
    if (waits && !c->is_busy) TAILQ_INSERT_TAIL(&worker->busy, c, at_busy);
    c->is_busy |= waits;
    uint32_t events = c->left ? EPOLLOUT : waits || c->is_ended ? 0 : EPOLLIN;
    if (events != c->events && !worker_watch(worker, &c->source, events, 0)) c->events = events;
}

void tcp_event(struct worker *worker, struct source *source, uint32_t events) {
    struct connection *c = (struct connection *)source;
    go_on(worker, c, c->left ? send_more(c) : is_due(c, 0) ? !(events & (EPOLLERR | EPOLLHUP)) : read_more(c));
}

void tcp_answer(struct worker *worker, uint64_t began) {
    do {
        struct connection *c = TAILQ_FIRST(&worker->busy);
        if (!c) return;
        leave_busy(worker, c);
        go_on(worker, c, answer_frames(worker, c));
    } while (microseconds() - began < SHARE);
}

void tcp_close_idle(struct worker *worker) {
    uint64_t now = microseconds(), most = worker->config->tcp_idle * 1000000ull;
    for (int i = 0; i < 2; i++)
        for (struct connection *c = TAILQ_FIRST(i ? &worker->asking : &worker->silent), *next; c; c = next) {
            next = TAILQ_NEXT(c, at);
            if (c->is_busy || c->moved + most >= now) continue;
            count(&worker->counters.tcp_idle, 1);
            close_connection(worker, c);
        }
}

void tcp_close_all(struct worker *worker) {
    for (struct connection *c; (c = TAILQ_FIRST(&worker->silent)) || (c = TAILQ_FIRST(&worker->asking));) close_connection(worker, c);
}

int tcp_has_unsent(const struct worker *worker) {
    const struct connection *c;
    TAILQ_FOREACH(c, &worker->asking, at)
        if (c->left || c->is_busy) return 1;
    return 0;
}
