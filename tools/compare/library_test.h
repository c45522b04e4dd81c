/* What the tests of the library in C share: a zone, keys, an update and its TSIG, and the calls about them. Each program takes it once. */
#include <ningkraet.h>
#include <stdio.h>
#include <stdlib.h>
#include <string.h>

static long left = -1;
#ifndef NOT_WRAPPED
void *__real_malloc(size_t size);
void *__real_realloc(void *block, size_t size);
static int fails(void) { return left > 0 && --left == 0; }
void *__wrap_malloc(size_t size) { return fails() ? NULL : __real_malloc(size); }
void *__wrap_realloc(void *block, size_t size) { return fails() ? NULL : __real_realloc(block, size); }
#endif

#define ORIGIN "a-name-of-more-than-thirty-three-octets.example"
static const char *const text =
    "$TTL 60\n@ SOA ns host 7 2 3 4 5\n@ NS ns\n@ MX 5 www\nns A 192.0.2.1\nwww TXT \"a\" \"b\"\nwww A 192.0.2.4\n"
    "cut NS ns.cut\nns.cut A 192.0.2.5\nalias CNAME www\n*.wild 30 A 192.0.2.2\n*.wild A 192.0.2.3\n";
static uint8_t room[65535], before[65535];

/* A query for a type at a label below the origin, with an OPT record that asks for DNSSEC, and its length. */
static size_t query_of(uint8_t *query, const char *label, int type) {
    static const uint8_t head[] = {1, 2, 1, 0, 0, 1, 0, 0, 0, 0, 0, 1}, opt[] = {0, 0, 41, 4, 208, 0, 0, 128, 0, 0, 0};
    static const char rest[] = "\47" "a-name-of-more-than-thirty-three-octets" "\7" "example";
    size_t length = strlen(label);
    memcpy(query, head, 12);
    query[12] = length;
    memcpy(query + 13, label, length);
    memcpy(query + 13 + length, rest, sizeof rest);
    length += 13 + sizeof rest;
    query[length] = type >> 8, query[length + 1] = type, query[length + 2] = 0, query[length + 3] = 1;
    memcpy(query + length + 4, opt, sizeof opt);
    return length + 4 + sizeof opt;
}

static uint32_t load(nk_zones *zones, int is_new, const char *origin, const char *file, size_t *written) {
    uint32_t (*const call)(nk_zones *, const uint8_t *, size_t, const uint8_t *, size_t, uint8_t *, size_t, size_t *) = is_new ? nk_zones_add : nk_zones_load;
    return call(zones, (const uint8_t *)origin, strlen(origin), (const uint8_t *)file, strlen(file), room, sizeof room, written);
}

static uint32_t drop(nk_zones *zones, const char *origin) { return nk_zones_drop(zones, (const uint8_t *)origin, strlen(origin)); }

static uint32_t serial(nk_zones *zones, const char *origin, uint32_t *number) { return nk_zones_serial(zones, (const uint8_t *)origin, strlen(origin), number); }

static uint32_t answer(nk_zones *zones, const char *label, int type, uint32_t transport, size_t space, size_t *written) {
    uint8_t query[128];
    size_t length = query_of(query, label, type);
    return nk_zones_answer(zones, 0, query, length, 1232, transport, room, space, written);
}

static int is_untouched(void) { return !memcmp(room, before, sizeof room); }

#define IS(fact) do { if (!(fact)) return printf("line %d: not so: %s\n", __LINE__, #fact), 1; } while (0)

/* A key of ECDSA with P-256, of which the library sees the data of its DNSKEY record alone, behind their length. */
static const uint8_t key[70] = {0, 68, 1, 1, 3, 13, 7};

static uint32_t begin(nk_plan *plan, nk_zones *zones, const char *origin, size_t keys, const nk_signing *how, size_t salt) {
    return nk_plan_begin(plan, zones, (const uint8_t *)origin, strlen(origin), key, keys, how, before, salt);
}

/* Hands out all that is left of a plan, and gives so many signatures less; and how many were asked for. */
static long sign_all(nk_plan *plan, long less) {
    size_t written;
    uint32_t number;
    long asked = 0;
    while (nk_plan_next(plan, &number, room, sizeof room, &written) == NK_DONE && !number && written > 40) asked++;
    for (long n = less; n < asked; n++) if (nk_plan_sign(plan, key, 64) != NK_DONE) return 0;
    return asked;
}

/* A file of keys, and the TSIG of a request for the zone under this key, at 1000 seconds, with a fudge of 300 (RFC 8945). */
static const char *const keys = "key \"key.example\" {\n\talgorithm hmac-sha256;\n\tsecret \"c2VjcmV0IG9mIGEga2V5IHRoYXQgaXMgc2hhcmVkLi4=\";\n};\n";
static const uint8_t tsig[] = "\3" "key" "\7" "example" "\0\0\372\0\377\0\0\0\0\0\75" "\13" "hmac-sha256" "\0\0\0\0\0\3\350\1\54\0\40"
    "\277\65\10\155\40\173\105\101\373\107\130\257\76\244\204\201\7\122\220\115\73\336\274\374\23\127\126\127\360\256\26\132" "\1\2\0\0\0\0";

/* An update of the zone, one more address of www, and the TSIG of it under the same key at the same moment. */
static const uint8_t update[] = "\1\2\50\0\0\1\0\0\0\1\0\0" "\47" "a-name-of-more-than-thirty-three-octets" "\7" "example" "\0\0\6\0\1" "\3" "www" "\300\14\0\1\0\1\0\0\0\74\0\4\300\0\2\11";
static const uint8_t update_mac[] = "\356\255\343\272\370\210\225\266\230\123\213\275\25\300\206\12\312\154\362\311\152\0\364\243\243\245\211\323\57\12\35\324";
static nk_updates rules = NK_UPDATES_NONE;
static uint8_t frame[16384], journal[16384];

static uint32_t rule(const char *origin, const char *name, uint32_t scope, uint16_t type, uint32_t denies) {
    nk_rule one = {(const uint8_t *)origin, strlen(origin), (const uint8_t *)name, strlen(name), (const uint8_t *)origin, strlen(origin), &type, 1, scope, denies};
    return nk_updates_rule(&rules, &one);
}

static uint32_t replay(nk_zones *zones, const char *origin, size_t length, size_t *whole) {
    return nk_zones_replay(zones, (const uint8_t *)origin, strlen(origin), journal, length, whole);
}

static uint32_t read_rules(const char *file, size_t *written) { return nk_updates_keys(&rules, (const uint8_t *)file, strlen(file), room, sizeof room, written); }
