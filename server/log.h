/* What ningkraetd tells an operator: what each worker counts for itself, lines on standard error or in a file, and sampled queries as JSON. */
#pragma once

#include "config.h"

/* How many kinds of responses there are, codes (up to BADCOOKIE), and states of a cookie. */
enum { KINDS = NK_OTHER + 1, CODES = 24, COOKIES = NK_COOKIE_KNOWN + 1 };

extern const char *const kind_names[KINDS], *const cookie_names[COOKIES];

#define COUNTERS(X)                                                                                                            \
    X(udp_queries, "queries by UDP") X(tcp_queries, "queries by TCP")                                                          \
    X(octets_in, "octets of queries") X(octets_out, "octets of responses")                                                     \
    X(ignored, "messages without an answer: too short, too long, or responses") X(truncated, "responses with TC")              \
    X(limited, "responses withheld by the rate limit") X(slipped, "responses cut to a header and question by the rate limit")  \
    X(no_memory, "queries dropped for want of memory") X(transfers, "transfers that began")                                    \
    X(updates, "updates taken") X(updates_refused, "updates refused")                                                          \
    X(unsent, "responses that the system did not take") X(tcp_accepted, "TCP connections accepted")                            \
    X(tcp_refused, "TCP connections closed at once: the client has too many")                                                  \
    X(tcp_evicted, "TCP connections closed for newer ones") X(tcp_idle, "TCP connections closed for being idle")

struct counters {
#define X(name, text) atomic_ullong name;
    COUNTERS(X)
#undef X
    atomic_ullong kinds[KINDS], codes[CODES], cookies[COOKIES];
};

/* Adds to a counter of which this thread is the only writer. */
static inline void count(atomic_ullong *counter, unsigned long long by) {
    atomic_store_explicit(counter, atomic_load_explicit(counter, memory_order_relaxed) + by, memory_order_relaxed);
}

/* Counts a response of so many octets. */
void count_response(struct counters *counters, size_t length, const nk_summary *summary);
/* Writes the sums over these workers, for a reader or in the text form of Prometheus. Returns the length, less than `size`. */
size_t counters_print(char *text, size_t size, struct counters *const *workers, size_t worker_count, int for_prometheus);
/* Puts text into a buffer, as much of it as there is room for. Returns how long it is. */
size_t put(char *text, size_t room, const char *format, ...) __attribute__((format(printf, 3, 4)));
/* Opens the files, or opens them again under the same names, as after a rotation. NULL: standard error; no queries. Returns 0 or -1. */
int log_open(const char *path, const char *queries, unsigned every);
/* Writes one line, with its time where it goes to a file. Returns -1, for those who fail because of what it says. */
int log_line(const char *format, ...) __attribute__((format(printf, 1, 2)));

/* Writes the name of a message's first question, or zone, as text, each octet outside of letters, digits, -, _ and * as \\\\DDD, so that it is JSON
 * too. Returns the length; the octets of the name end before `end`. */
enum { NAME_TEXT = 5 * 255 + 2 };
size_t name_text(char *text, const uint8_t *query, size_t query_length, size_t *end);
/* Counts a query, and logs it where it is the next of its sample: a line of JSON with the moment, client, transport, question, zone and outcome. */
void log_query(const struct sockaddr *client, uint32_t transport, const uint8_t *query, size_t query_length, size_t written, const nk_summary *summary);
