/* Limits for clients. Both tables are of counters at the hash of a client, under a key that is drawn at each start, so that nobody can choose whom
 * to meet there. Two clients that meet share a limit for as long. */
#include "worker.h"

enum { TALLIES = 1 << 16, BUCKETS = 1 << 20 };

static const struct config *config;
static atomic_uint *tallies;           /* connections */
static _Atomic uint64_t *buckets;      /* 32 bits of the hash, 16 of the second, 16 of the responses in it */
static atomic_uint connections;
static uint64_t key[2];

static uint64_t rotated(uint64_t x, int by) { return x << by | x >> (64 - by); }

/* SipHash-2-4 (Aumasson and Bernstein, 2012). */
static uint64_t hash_of(const uint8_t *octets, size_t length) {
    uint64_t v[4] = {key[0] ^ 0x736f6d6570736575, key[1] ^ 0x646f72616e646f6d, key[0] ^ 0x6c7967656e657261, key[1] ^ 0x7465646279746573};
    for (size_t left = length;; octets += 8, left -= 8) {
        uint64_t word = htole64((uint64_t)length << 56);
        memcpy(&word, octets, left < 8 ? left : 8);
        word = le64toh(word);
        v[3] ^= word;
        for (int round = 0; round < (left < 8 ? 2 + 4 : 2); round++) {
            if (left < 8 && round == 2) v[0] ^= word, v[2] ^= 0xff;
            v[0] += v[1], v[1] = rotated(v[1], 13) ^ v[0], v[0] = rotated(v[0], 32);
            v[2] += v[3], v[3] = rotated(v[3], 16) ^ v[2];
            v[0] += v[3], v[3] = rotated(v[3], 21) ^ v[0];
            v[2] += v[1], v[1] = rotated(v[1], 17) ^ v[2], v[2] = rotated(v[2], 32);
        }
        if (left < 8) return v[0] ^ v[1] ^ v[2] ^ v[3];
        v[0] ^= word;
    }
}

const uint8_t *client_octets(const struct sockaddr *client, size_t *length) {
    int is_v4 = client->sa_family == AF_INET;
    *length = is_v4 ? 4 : 16;
    return is_v4 ? (const uint8_t *)&((const struct sockaddr_in *)client)->sin_addr : ((const struct sockaddr_in6 *)client)->sin6_addr.s6_addr;
}

/* Writes the first bits of a client's address. Returns how many octets that takes: 5 or 9. */
static size_t put_prefix(uint8_t *to, const struct sockaddr *client, unsigned bits_v4, unsigned bits_v6) {
    size_t length;
    const uint8_t *octets = client_octets(client, &length);
    unsigned bits = length == 4 ? bits_v4 : bits_v6, count = length == 4 ? 4 : 8;
    *to++ = count;
    for (unsigned i = 0; i < count; i++) to[i] = bits >= 8 * (i + 1) ? octets[i] : bits > 8 * i ? octets[i] & 0xff << (8 * (i + 1) - bits) : 0;
    return count + 1;
}

int limits_begin(const struct config *given) {
    config = given;
    tallies = calloc(TALLIES, sizeof *tallies);
    buckets = config->rate_limit ? calloc(BUCKETS, sizeof *buckets) : NULL;
    return tallies && (buckets || !config->rate_limit) && getrandom(key, sizeof key, 0) == sizeof key ? 0 : log_line("out of memory");
}

size_t name_end(const uint8_t *query, size_t length) {
    size_t at = 12;
    while (at < length && query[at] && query[at] < 64) at += 1 + query[at];
    return at < length ? at : length;
}

/* The question's name in lower case, of which a name error counts without its first label: names that are made up share what is above them. */
static size_t put_name(uint8_t *to, const uint8_t *query, size_t length, uint32_t kind) {
    size_t at = 12, end = name_end(query, length), made = 0;
    if (kind == NK_NAME_ERROR && at < end) at += 1 + query[at];
    for (; at < end && made < 255; at++) to[made++] = query[at] >= 'A' && query[at] <= 'Z' ? query[at] + 32 : query[at];
    return made;
}

enum verdict limits_take(const struct sockaddr *client, const nk_summary *summary, const uint8_t *query, size_t query_length) {
    if (!buckets || summary->cookie == NK_COOKIE_KNOWN || (summary->kind == NK_OTHER && !summary->code)) return SEND;
    uint32_t kind = summary->kind;
    uint8_t octets[10 + 256];
    size_t length = put_prefix(octets, client, config->rate_prefix_v4, config->rate_prefix_v6);
    octets[length++] = kind;
    if (kind <= NK_NAME_ERROR || kind == NK_TRUNCATED) length += put_name(octets + length, query, query_length, kind);
    struct timespec now;
    clock_gettime(CLOCK_MONOTONIC_COARSE, &now);
    uint64_t hash = hash_of(octets, length), mark = (hash & 0xffffffff00000000) | (uint64_t)(now.tv_sec & 0xffff) << 16;
    _Atomic uint64_t *bucket = &buckets[hash % BUCKETS];
    uint64_t old = atomic_load_explicit(bucket, memory_order_relaxed), new;
    do new = (old & ~0xffffull) != mark ? mark | 1 : (old & 0xffff) == 0xffff ? old : old + 1;
    while (!atomic_compare_exchange_weak_explicit(bucket, &old, new, memory_order_relaxed, memory_order_relaxed));
    unsigned responses = new & 0xffff;
    return responses <= config->rate_limit ? SEND : config->rate_slip && (responses - config->rate_limit) % config->rate_slip == 0 ? CUT : WITHHOLD;
}

atomic_uint *limits_enter(const struct sockaddr *client) {
    uint8_t octets[9];
    atomic_uint *tally = &tallies[hash_of(octets, put_prefix(octets, client, 32, 64)) % TALLIES];
    if (atomic_fetch_add(tally, 1) >= config->tcp_client_connections) return atomic_fetch_sub(tally, 1), NULL;
    atomic_fetch_add(&connections, 1);
    return tally;
}

void limits_leave(atomic_uint *tally) {
    atomic_fetch_sub(tally, 1);
    atomic_fetch_sub(&connections, 1);
}

int limits_room(void) { return atomic_load(&connections) <= config->tcp_connections; }

void limits_free(void) {
    free((void *)tallies);
    free((void *)buckets);
}
