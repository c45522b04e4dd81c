/* Logs. */
#include "worker.h"

static int to = STDERR_FILENO, queries_to = -1;
static unsigned sample;        /* set before the workers start */
static atomic_uint queries;

/* Opens a file to append to, and lets its descriptor be `*fd`, so that who writes there meanwhile writes to the one or the other. */
static int reopen(int *fd, const char *path, int is_standard) {
    int opened = open(path, O_WRONLY | O_APPEND | O_CREAT | O_CLOEXEC, 0640);
    if (opened < 0) return log_line("%s: %s", path, strerror(errno));
    if (*fd < 0 || is_standard) *fd = opened;
    else dup3(opened, *fd, O_CLOEXEC), close(opened);
    return 0;
}

int log_open(const char *path, const char *query_path, unsigned every) {
    if (query_path && !sample) sample = every;
    int is_bad = path && reopen(&to, path, to == STDERR_FILENO);
    return (query_path && reopen(&queries_to, query_path, 0)) || is_bad ? -1 : 0;
}

int log_line(const char *format, ...) {
    char line[2048];
    size_t length = 0;
    time_t now = time(NULL);
    struct tm parts;
    if (to != STDERR_FILENO) length = strftime(line, sizeof line, "%Y-%m-%dT%H:%M:%SZ ", gmtime_r(&now, &parts));
    length += snprintf(line + length, sizeof line - length, "ningkraetd: ");
    va_list values;
    va_start(values, format);
    int more = vsnprintf(line + length, sizeof line - length - 1, format, values);
    va_end(values);
    length += more < 0 ? 0 : (size_t)more < sizeof line - length - 1 ? (size_t)more : sizeof line - length - 2;
    line[length++] = '\n';
    (void)!write(to, line, length);   /* a log that can't be written stops nothing */
    return -1;
}

size_t name_text(char *text, const uint8_t *query, size_t query_length, size_t *behind) {
    size_t length = 0, at = 12, end = name_end(query, query_length);
    while (at < end) {
        for (uint8_t left = query[at++]; left && at < end; left--, at++) {
            int c = query[at], is_plain = c && c < 128 && (isalnum(c) || strchr("-_*", c));
            length += sprintf(text + length, is_plain ? "%c" : "\\\\%03d", c);
        }
        text[length++] = '.';
    }
    if (!length) text[length++] = '.';
    text[length] = 0;
    *behind = at + 1;
    return length;
}

void log_query(const struct sockaddr *client, uint32_t transport, const uint8_t *query, size_t query_length, size_t written, const nk_summary *summary) {
    if (!sample || query_length < 17 || atomic_fetch_add_explicit(&queries, 1, memory_order_relaxed) % sample) return;
    char name[NAME_TEXT], host[INET6_ADDRSTRLEN] = "", line[4096];
    size_t behind, length_of_address;
    const char *zone = name + name_text(name, query, query_length, &behind), *quote = summary->origin_labels ? "\"" : "";
    for (size_t labels = summary->origin_labels; zone > name && (zone[-1] != '.' || --labels); zone--) {}
    unsigned type = behind + 2 <= query_length ? query[behind] << 8 | query[behind + 1] : 0;
    inet_ntop(client->sa_family, client_octets(client, &length_of_address), host, sizeof host);
    struct timespec now;
    clock_gettime(CLOCK_REALTIME, &now);
    int length = snprintf(line, sizeof line,
                          "{\"time\":%lld.%03ld,\"client\":\"%s\",\"transport\":\"%s\",\"name\":\"%s\",\"type\":%u,\"zone\":%s%s%s,\"kind\":\"%s\",\"rcode\":%u,\"size\":%zu,\"truncated\":%s,\"cookie\":\"%s\"}\n",
                          (long long)now.tv_sec, now.tv_nsec / 1000000, host, transport == NK_TCP ? "tcp" : "udp", name, type,
                          quote, !*quote ? "null" : *zone ? zone : ".", quote, kind_names[summary->kind],
                          summary->code, written, summary->truncated ? "true" : "false", cookie_names[summary->cookie]);
    if (write(queries_to, line, length) < 0) return;
}
