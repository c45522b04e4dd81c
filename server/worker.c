/* The loop of a worker. */
#include "worker.h"
#include "zones.h"

enum { EVENTS = 256, SECOND = 1000000, DRAINING = SECOND };   /* DRAINING: how long responses that wait are still sent at the end */

static atomic_int stopping;

void workers_stop(void) { atomic_store(&stopping, 1); }

uint64_t microseconds(void) {
    struct timespec now;
    clock_gettime(CLOCK_MONOTONIC, &now);
    return (uint64_t)now.tv_sec * SECOND + now.tv_nsec / 1000;
}

int worker_watch(struct worker *worker, struct source *source, uint32_t events, int is_new) {
    struct epoll_event event = {.events = events, .data.ptr = source};
    return epoll_ctl(worker->epoll, is_new ? EPOLL_CTL_ADD : EPOLL_CTL_MOD, source->fd, &event);
}

int worker_begin(struct worker *worker, const struct config *config, const int *sockets, size_t address_count) {
    *worker = (struct worker){.config = config, .zones = NK_ZONES_NONE, .access = NK_ACCESS_NONE, .updates = NK_UPDATES_NONE, .seen = -1ul, .address_count = address_count, .epoll = epoll_create1(EPOLL_CLOEXEC)};
    TAILQ_INIT(&worker->silent);
    TAILQ_INIT(&worker->asking);
    TAILQ_INIT(&worker->busy);
    worker->spare = dup(worker->epoll);
    worker->udp = calloc(address_count, sizeof *worker->udp);
    worker->listeners = calloc(address_count, sizeof *worker->listeners);
    if (nk_zones_new(&worker->zones) != NK_DONE || worker->epoll < 0 || !worker->udp || !worker->listeners)
        return log_line("a worker can't be made: %s", worker->epoll < 0 ? strerror(errno) : "out of memory");
    if (config_access(config, &worker->access, &worker->updates)) return -1;
    for (size_t i = 0; i < address_count; i++) {
        worker->udp[i].source.fd = sockets[2 * i], worker->listeners[i].fd = sockets[2 * i + 1];
        if (worker_watch(worker, &worker->udp[i].source, EPOLLIN | EPOLLEXCLUSIVE, 1) || worker_watch(worker, &worker->listeners[i], EPOLLIN | EPOLLEXCLUSIVE, 1))
            return log_line("a socket can't be watched: %s", strerror(errno));
    }
    return 0;
}

/* Answers what has come. Connections are accepted last, since that may close others. */
static void take_turn(struct worker *worker, struct epoll_event *events, int ready) {
    uint64_t began = microseconds();
    for (int i = 0; i < ready; i++) {
        struct source *source = events[i].data.ptr;
        if (source->is_connection) tcp_event(worker, source, events[i].events);
        else source->has_come = 1;
    }
    tcp_answer(worker, began);
    for (size_t at = 0; at < worker->address_count; at++)
        if (worker->udp[at].source.has_come || worker->udp[at].at < worker->udp[at].count) udp_answer(worker, &worker->udp[at]);
    for (size_t at = 0; at < worker->address_count; at++)
        if (worker->listeners[at].has_come) tcp_accept(worker, &worker->listeners[at]);
}

static int has_more(const struct worker *worker) {
    for (size_t at = 0; at < worker->address_count; at++)
        if (worker->udp[at].at < worker->udp[at].count) return 1;
    return !TAILQ_EMPTY(&worker->busy);
}

static void *run(void *given) {
    struct worker *worker = given;
    struct epoll_event events[EVENTS];
    uint64_t looked = microseconds(), ends = 0;
    while (!ends || (microseconds() < ends && (has_more(worker) || tcp_has_unsent(worker)))) {
        int ready = epoll_wait(worker->epoll, events, EVENTS, has_more(worker) ? 0 : ends ? 50 : 500);
        zones_take(&worker->zones, &worker->seen);
        take_turn(worker, events, ready < 0 ? 0 : ready);
        if (microseconds() - looked >= SECOND) {
            tcp_close_idle(worker);
            looked = microseconds();
        }
        if (!ends && atomic_load(&stopping)) ends = microseconds() + DRAINING;
    }
    tcp_close_all(worker);
    return NULL;
}

int worker_start(struct worker *worker) { return pthread_create(&worker->thread, NULL, run, worker); }

void worker_free(struct worker *worker) {
    nk_zones_free(&worker->zones);
    nk_access_free(&worker->access);
    nk_updates_free(&worker->updates);
    free(worker->udp);
    free(worker->listeners);
    if (worker->epoll >= 0) close(worker->epoll);
    if (worker->spare >= 0) close(worker->spare);
}
