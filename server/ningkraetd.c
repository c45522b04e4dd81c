/* ningkraetd [-t] [-c FILE]: answers DNS from zone files, by the library ningkraet. README.md says how it is configured and run.
 * This thread reads zones, takes signals and commands; each worker is a thread that answers from a copy of the zones. */
#include <grp.h>
#include <poll.h>
#include <pwd.h>
#include <signal.h>
#include <sys/inotify.h>
#include <sys/prctl.h>
#include <sys/resource.h>
#include <sys/signalfd.h>

#include "control.h"
#include "zones.h"

enum { SIGNALS, CONTROL, FILES, POLLED };
enum { SETTLE = 300000, LATEST = 3000000, PAIRS = 64 };   /* microseconds without a change of a file before it is read, and if they don't end */

static struct config config;
static struct worker *workers;
static size_t worker_count;
static int watcher = -1;

static void watch(const char *folder) {
    if (watcher >= 0) inotify_add_watch(watcher, folder, IN_CLOSE_WRITE | IN_MOVE | IN_DELETE | IN_CREATE | IN_MOVE_SELF | IN_DELETE_SELF);
}

/* Gives up what only opening sockets needs: the folders outside of the one to stay in, and the rights of root. */
static int drop_privileges(void) {
    struct passwd *user = config.user ? getpwnam(config.user) : NULL;
    if (config.user && !user) return log_line("there is no user %s", config.user);
    if (config.chroot && (chroot(config.chroot) || chdir("/"))) return log_line("%s: %s", config.chroot, strerror(errno));
    if (user && (setgroups(0, NULL) || setgid(user->pw_gid) || setuid(user->pw_uid)))
        return log_line("the rights of %s can't be taken: %s", config.user, strerror(errno));
    if (!geteuid()) log_line("running as root: name a user in the configuration");
    prctl(PR_SET_NO_NEW_PRIVS, 1, 0, 0, 0);   /* no program that is run from here has more rights */
    return 0;
}

/* As many descriptors as connections need, or as may be had. */
static void raise_descriptors(void) {
    struct rlimit limit;
    rlim_t need = config.tcp_connections + 64 + 3 * worker_count * (config.listen_count + 1);
    if (getrlimit(RLIMIT_NOFILE, &limit) || limit.rlim_cur >= need) return;
    if (!setrlimit(RLIMIT_NOFILE, &(struct rlimit){need, limit.rlim_max < need ? need : limit.rlim_max})) return;
    limit.rlim_cur = limit.rlim_max;
    setrlimit(RLIMIT_NOFILE, &limit);
    log_line("no more than %llu descriptors can be had, so fewer TCP connections", (unsigned long long)limit.rlim_cur);
}

/* Opens the sockets and makes the workers, with no thread started yet. */
static int make_workers(void) {
    int inherited[2 * PAIRS], pairs = sockets_inherited(inherited, PAIRS);
    long processors = sysconf(_SC_NPROCESSORS_ONLN);
    worker_count = config.workers ? config.workers : processors > 0 ? (size_t)processors : 1;
    if (pairs < 0) return -1;
    if (!pairs && !config.listen_count) return log_line("no address to listen at: the configuration has no line 'listen', and no socket was handed over");
    raise_descriptors();
    workers = calloc(worker_count, sizeof *workers);
    int *sockets = calloc(2 * (config.listen_count + 1), sizeof *sockets);
    int is_bad = !workers || !sockets;
    if (is_bad) log_line("out of memory");
    for (size_t i = 0; i < worker_count && !is_bad; i++) {
        if (!pairs) is_bad = sockets_open(&config, worker_count > 1, sockets);
        if (!is_bad) is_bad = worker_begin(&workers[i], &config, pairs ? inherited : sockets, pairs ? (size_t)pairs : config.listen_count);
    }
    free(sockets);
    return is_bad ? -1 : 0;
}

static void renew(int all) {
    sockets_notify("RELOADING=1");
    size_t faults = zones_renew(all);
    log_line("zones read: %zu, of which %zu have a file that is bad", zones_count(), faults);
    sockets_notify("READY=1");
}

/* Takes signals, commands and changes of files, until one of them ends it. */
static void manage(int signals, int control) {
    struct pollfd polled[POLLED] = {[SIGNALS] = {signals, POLLIN, 0}, [CONTROL] = {control, POLLIN, 0}, [FILES] = {watcher, POLLIN, 0}};
    uint64_t due = 0, latest = 0;   /* when files that have changed are read; 0: none has */
    for (;;) {
        uint64_t now = microseconds();
        if (due && (now >= due || now >= latest)) due = 0, renew(0);
        if (poll(polled, POLLED, due ? (int)((due - now) / 1000) + 1 : -1) < 0 && errno != EINTR) return;
        struct signalfd_siginfo info;
        if (polled[SIGNALS].revents && read(signals, &info, sizeof info) == sizeof info) {
            if (info.ssi_signo != SIGHUP) return;
            log_open(config.log, config.query_log, config.query_log_every);
            renew(0);
        }
        if (polled[CONTROL].revents && control_take(control, workers, worker_count)) return;
        if (polled[FILES].revents) {
            char events[4096];
            while (read(watcher, events, sizeof events) > 0) {}
            latest = due ? latest : microseconds() + LATEST;
            due = microseconds() + SETTLE;
        }
    }
}

/* Serves until it is told to stop by one of these signals. Returns the status of the program. */
static int serve(const sigset_t *handled) {
    if (make_workers()) return 2;
    int control = config.control ? control_listen(config.control) : -1;
    if (config.control && control < 0) return 2;
    if (config.control && config.user && getpwnam(config.user) && chown(config.control, getpwnam(config.user)->pw_uid, -1)) log_line("%s: %s", config.control, strerror(errno));
    if (limits_begin(&config) || drop_privileges()) return 2;
    if (log_open(config.log, config.query_log, config.query_log_every) || journals_begin(&config) || zones_begin(&config, watch)) return 2;
    if (config.watch && (watcher = inotify_init1(IN_NONBLOCK | IN_CLOEXEC)) < 0) log_line("files aren't watched: %s", strerror(errno));
    renew(1);
    int signals = signalfd(-1, handled, SFD_CLOEXEC);
    size_t started = 0;
    while (started < worker_count && !worker_start(&workers[started])) started++;
    if (started < worker_count) log_line("only %zu of %zu workers could be started", started, worker_count);
    if (started) {
        log_line("serving %zu zones by %zu workers", zones_count(), started);
        manage(signals, control);
    }
    sockets_notify("STOPPING=1");
    workers_stop();
    for (size_t i = 0; i < started; i++) pthread_join(workers[i].thread, NULL);
    for (size_t i = 0; i < worker_count; i++) worker_free(&workers[i]);
    if (control >= 0) unlink(config.control);
    free(workers);
    limits_free();
    zones_free();
    journals_free();
    return started ? 0 : 2;
}

/* Reads all zones, and says of each that is bad what is wrong. */
static int test(void) {
    size_t faults = zones_begin(&config, watch) ? 1 : zones_renew(1);
    printf("%zu zones, of which %zu have a file that is bad\n", zones_count(), faults);
    zones_free();
    return faults ? 1 : 0;
}

int main(int argc, char **argv) {
    const char *path = "/etc/ningkraet/ningkraetd.conf";
    int is_test = 0, option;
    while ((option = getopt(argc, argv, "c:t")) != -1)
        if (option == 'c') path = optarg;
        else if (option == 't') is_test = 1;
        else argc = 0;
    if (optind != argc) return fprintf(stderr, "usage: ningkraetd [-t] [-c FILE]\n"), 2;
    sigset_t handled;
    sigemptyset(&handled);
    for (int i = 0; i < 3; i++) sigaddset(&handled, (int[]){SIGHUP, SIGINT, SIGTERM}[i]);
    if (!is_test) sigprocmask(SIG_BLOCK, &handled, NULL);   /* from the start on, and in each worker: none comes unseen */
    if (!is_test) signal(SIGPIPE, SIG_IGN);
    int status = config_read(&config, path) ? 2 : is_test ? test() : serve(&handled);
    config_free(&config);
    return status;
}
