/* Carries out commands of ningkraetctl. */
#include "control.h"
#include "zones.h"

enum { COMMAND = 8192, REPLY = 1 << 22, PATIENCE = 2 };   /* PATIENCE: seconds in which more of a command has to come, and of its reply to go */

int control_listen(const char *path) {
    struct sockaddr_un address = {.sun_family = AF_UNIX};
    if (strlen(path) >= sizeof address.sun_path) return log_line("%s: the path of a socket has at most %zu octets", path, sizeof address.sun_path - 1);
    strcpy(address.sun_path, path);
    int fd = socket(AF_UNIX, SOCK_STREAM | SOCK_CLOEXEC | SOCK_NONBLOCK, 0);
    unlink(path);
    mode_t old = umask(0177);
    int is_bad = fd < 0 || bind(fd, (struct sockaddr *)&address, sizeof address) || listen(fd, 8);
    umask(old);
    if (!is_bad) return fd;
    log_line("%s: %s", path, strerror(errno));
    if (fd >= 0) close(fd);
    return -1;
}

/* Reads the line of a command. Returns whether it came whole. */
static int read_line(int fd, char *line) {
    size_t have = 0;
    char *end = NULL;
    for (ssize_t more; !end && have < COMMAND - 1 && (more = read(fd, line + have, COMMAND - 1 - have)) > 0; have += more)
        end = memchr(line + have, '\n', more);
    if (end) *end = 0;
    return end != NULL;
}

/* Writes the reply to a command: its first word is ok or error. */
static size_t reply_to(char *line, char *reply, struct worker *workers, size_t worker_count, int *is_over) {
    char *rest = line, *name = strsep(&rest, " "), *first = rest ? strsep(&rest, " ") : NULL, *second = rest;
    struct counters *counters[worker_count];
    for (size_t i = 0; i < worker_count; i++) counters[i] = &workers[i].counters;
    const char *why = "the commands are: status, metrics, zones, reload, add ORIGIN FILE, drop ORIGIN, write ORIGIN, stop";
    size_t length = sprintf(reply, "ok\n");
    if (!strcmp(name, "status") && !first) {
        length += sprintf(reply + length, "%12zu zones\n%12zu workers\n", zones_count(), worker_count);
        return length + counters_print(reply + length, REPLY - length, counters, worker_count, 0);
    }
    if (!strcmp(name, "metrics") && !first) return length + counters_print(reply + length, REPLY - length, counters, worker_count, 1);
    if (!strcmp(name, "zones") && !first) return length + zones_print(reply + length, REPLY - length);
    if (!strcmp(name, "reload") && !first) {
        size_t faults = zones_renew(1);
        return faults ? (size_t)sprintf(reply, "error\n%zu zones have a file that is bad: ningkraetctl zones has them\n", faults) : length;
    }
    if ((*is_over = !strcmp(name, "stop") && !first)) return length;
    if (!strcmp(name, "add") && second) {
        why = zones_add(first, second);
        if (!why && zones_renew(0)) why = "its file is bad, or another's: ningkraetctl zones has the faults";
    }
    if (!strcmp(name, "drop") && first && !second) why = zones_drop(first);
    if (!strcmp(name, "write") && first && !second) why = zones_write(first);
    return why ? (size_t)sprintf(reply, "error\n%s\n", why) : length;
}

int control_take(int listener, struct worker *workers, size_t worker_count) {
    static char line[COMMAND], reply[REPLY];   /* where memory runs out, there are commands still */
    const struct timeval patience = {PATIENCE, 0};
    int is_over = 0, fd = accept4(listener, NULL, NULL, SOCK_CLOEXEC);
    for (int i = 0; i < 2; i++) setsockopt(fd, SOL_SOCKET, i ? SO_RCVTIMEO : SO_SNDTIMEO, &patience, sizeof patience);
    if (fd >= 0 && read_line(fd, line)) (void)!send(fd, reply, reply_to(line, reply, workers, worker_count, &is_over), MSG_NOSIGNAL);
    if (fd >= 0) close(fd);
    return is_over;
}
