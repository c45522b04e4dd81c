/* Counting, and telling what was counted. */
#include "log.h"

const char *const kind_names[KINDS] = {"answer", "referral", "no_data", "name_error", "refused", "failed", "truncated", "other"};
const char *const cookie_names[COOKIES] = {"absent", "malformed", "unknown", "known"};

void count_response(struct counters *counters, size_t length, const nk_summary *summary) {
    count(&counters->octets_out, length);
    count(&counters->kinds[summary->kind], 1);
    if (summary->code < CODES) count(&counters->codes[summary->code], 1);
    count(&counters->cookies[summary->cookie], 1);
    count(&counters->truncated, summary->truncated);
}

size_t put(char *text, size_t room, const char *format, ...) {
    va_list values;
    va_start(values, format);
    int length = vsnprintf(text, room, format, values);
    va_end(values);
    return length < 0 ? 0 : (size_t)length < room ? (size_t)length : room - 1;
}

static unsigned long long sum(struct counters *const *workers, size_t worker_count, size_t offset) {
    unsigned long long all = 0;
    for (size_t i = 0; i < worker_count; i++) all += atomic_load_explicit((atomic_ullong *)((char *)workers[i] + offset), memory_order_relaxed);
    return all;
}

static const struct family {
    const char *name, *label, *words;
    size_t offset, count;
    const char *const *values;     /* of the label, or NULL where they are numbers */
} families[] = {
#define X(name, words) {#name, NULL, words, offsetof(struct counters, name), 1, NULL},
    COUNTERS(X)
#undef X
    {"responses", "kind", "responses of kind", offsetof(struct counters, kinds), KINDS, kind_names},
    {"rcodes", "rcode", "responses with RCODE", offsetof(struct counters, codes), CODES, NULL},
    {"cookies", "cookie", "responses to clients whose cookie is", offsetof(struct counters, cookies), COOKIES, cookie_names}};

size_t counters_print(char *text, size_t size, struct counters *const *workers, size_t worker_count, int for_prometheus) {
    size_t length = 0;
    for (const struct family *it = families; it < families + sizeof families / sizeof *families; it++) {
        if (for_prometheus) length += put(text + length, size - length, "# HELP ningkraetd_%s_total %s\n# TYPE ningkraetd_%s_total counter\n", it->name, it->words, it->name);
        for (size_t i = 0; i < it->count; i++) {
            unsigned long long all = sum(workers, worker_count, it->offset + i * sizeof(atomic_ullong));
            char number[24];
            snprintf(number, sizeof number, "%zu", i);
            const char *value = it->values ? it->values[i] : number;
            if (it->label && for_prometheus) length += put(text + length, size - length, "ningkraetd_%s_total{%s=\"%s\"} %llu\n", it->name, it->label, value, all);
            else if (for_prometheus) length += put(text + length, size - length, "ningkraetd_%s_total %llu\n", it->name, all);
            else if (!it->label) length += put(text + length, size - length, "%12llu %s\n", all, it->words);
            else if (it->values || all) length += put(text + length, size - length, "%12llu %s %s\n", all, it->words, value);
        }
    }
    return length;
}
