/* What the library for C tells, call by call, and what memory does to it.
 *
 *     cc library_test.c $(pkg-config --cflags --libs ningkraet) -Wl,--wrap=malloc,--wrap=realloc -o library_test
 *     ./library_test [DATAGRAMS]
 *
 * Each refusal is made, clients come with cookies, and a zone is sent, and updated; then each allocation of each call fails in turn: the call says
 * so and changes nothing, or does without, and it succeeds when it is made again. Then so many datagrams, which are queries with octets turned, are
 * answered. With NOT_WRAPPED, as beside a sanitizer, which has a malloc of its own, no allocation fails. */
#include "library_test.h"

static const char *const bad_text = "$TTL 60\n@ SOA ns host 7 2 3 4 5\n@ NS ns\nns A 192.0.2\n";
static const char *const told_of_it = ORIGIN ":4:6: ";

static uint32_t expire(nk_zones *zones, const char *origin) { return nk_zones_expire(zones, (const uint8_t *)origin, strlen(origin)); }

static uint32_t prepare(nk_zones *zones, const char *origin) { return nk_zones_prepare(zones, (const uint8_t *)origin, strlen(origin)); }

/* The answer to a client that asks for NSID and has a cookie of so many octets, if there are any; the cookie of the response is put in its
 * place where it has one. */
static nk_summary summary;
static uint32_t answer_client(nk_zones *zones, uint32_t transport, int is_required, uint64_t now, uint8_t *cookie, size_t *cookie_length, size_t space, size_t *written) {
    static const uint8_t secrets[32] = {1}, address[4] = {192, 0, 2, 1}, nsid[2] = {'n', 's'};
    uint8_t query[192];
    size_t length = query_of(query, "www", 1), at = length;
    query[length - 1] = 4 + (*cookie_length ? 4 + *cookie_length : 0);
    memcpy(query + at, (uint8_t[]){0, 3, 0, 0, 0, 10, 0, *cookie_length}, 8);
    memcpy(query + at + 8, cookie, *cookie_length);
    nk_settings settings = {nsid, 2, secrets, 32, is_required};
    nk_message message = {query, length + query[length - 1], address, 4, now, 1232, transport};
    uint32_t code = nk_zones_answer_client(zones, &settings, &message, room, space, written, &summary);
    for (size_t i = 12; code == NK_DONE && i + 28 <= *written; i++)
        if (!memcmp(room + i, (uint8_t[]){0, 10, 0, 24}, 4) && !memcmp(room + i + 4, cookie, 8)) memcpy(cookie, room + i + 4, *cookie_length = 24);
    return code;
}

/* Each refusal, with what it leaves. */
static int refusals(void) {
    nk_zones zones = NK_ZONES_NONE, other = NK_ZONES_NONE;
    size_t written = 9;
    uint32_t number = 8;
    memset(room, 85, sizeof room);
    IS(load(&zones, 0, ORIGIN, text, &written) == NK_CLOSED && !written && is_untouched());
    IS(load(&zones, 1, ORIGIN, text, &written) == NK_CLOSED && !written && is_untouched());
    IS(drop(&zones, ORIGIN) == NK_CLOSED && prepare(&zones, ORIGIN) == NK_CLOSED && serial(&zones, ORIGIN, &number) == NK_CLOSED && number == 8);
    IS(answer(&zones, "www", 1, NK_UDP, 1232, &written) == NK_CLOSED && !written && nk_zones_copy(&zones, &other) == NK_CLOSED && expire(&zones, ORIGIN) == NK_CLOSED);
    IS(nk_zones_new(&zones) == NK_DONE && drop(&zones, ORIGIN) == NK_NO_ZONE && prepare(&zones, ORIGIN) == NK_NO_ZONE && serial(&zones, ORIGIN, &number) == NK_NO_ZONE && number == 8);
    IS(load(&zones, 0, "a..b", text, &written) == NK_BAD_NAME && !written && drop(&zones, "a..b") == NK_BAD_NAME && is_untouched());
    IS(serial(&zones, "a..b", &number) == NK_BAD_NAME && number == 8 && prepare(&zones, "a..b") == NK_BAD_NAME && expire(&zones, "a..b") == NK_BAD_NAME && expire(&zones, ORIGIN) == NK_NO_ZONE);
    IS(load(&zones, 0, ORIGIN, text, &written) == NK_DONE && load(&zones, 1, ORIGIN, text, &written) == NK_ZONE_EXISTS && !written);
    IS(load(&zones, 0, ORIGIN, bad_text, &written) == NK_BAD_TEXT && written > 60 && !memcmp(room, told_of_it, strlen(told_of_it)) && room[written - 1] == '\n');
    IS(load(&zones, 0, "b.example", "@ 1 SOA a b 1 2 3 4 5\n@ 1 NS a\nc.example. 1 A 192.0.2.1\n", &written) == NK_DONE && written);   /* outside of it: a warning */
    IS(load(&zones, 0, "c.example", "b.example. 1 SOA a b 1 2 3 4 5\n", &written) == NK_BAD_TEXT && written);                  /* of another origin */
    IS(serial(&zones, ORIGIN, &number) == NK_DONE && number == 7 && serial(&zones, "c.example", &number) == NK_NO_ZONE && number == 7);
    IS(prepare(&zones, ORIGIN) == NK_DONE);
    memset(room, 85, sizeof room);
    IS(answer(&zones, "www", 1, 2, 1232, &written) == NK_BAD_TRANSPORT && !written && is_untouched());
    IS(answer(&zones, "www", 1, NK_UDP, 20, &written) == NK_NO_ROOM && written > 20 && is_untouched());
    IS(nk_zones_answer(&zones, 0, room, 11, 1232, NK_UDP, room + 20, 20, &written) == NK_IGNORED && !written && is_untouched());
    IS(nk_zones_copy(&zones, &other) == NK_DONE && drop(&zones, ORIGIN) == NK_DONE && drop(&zones, ORIGIN) == NK_NO_ZONE);
    IS(answer(&zones, "www", 1, NK_UDP, 1232, &written) == NK_DONE && (room[3] & 15) == 5 && serial(&other, ORIGIN, &number) == NK_DONE);
    nk_zones_free(&zones), nk_zones_free(&zones);
    IS(answer(&other, "www", 1, NK_UDP, 1232, &written) == NK_DONE && !(room[3] & 15) && room[7] == 1);
    IS(nk_zones_copy(&zones, &other) == NK_CLOSED && serial(&other, "b.example", &number) == NK_DONE && number == 1);
    nk_zones_free(&other);
    return 0;
}

/* A zone that has expired fails, with and without answers that were kept, until it is loaded again; others don't. */
static int expiry(void) {
    nk_zones zones = NK_ZONES_NONE, other = NK_ZONES_NONE;
    size_t written;
    uint32_t number;
    IS(nk_zones_new(&zones) == NK_DONE && load(&zones, 0, ORIGIN, text, &written) == NK_DONE && load(&zones, 0, "other.example", text, &written) == NK_DONE);
    IS(nk_zones_copy(&zones, &other) == NK_DONE && prepare(&zones, ORIGIN) == NK_DONE && expire(&zones, ORIGIN) == NK_DONE && expire(&zones, ORIGIN) == NK_DONE);
    for (int again = 0; again < 2; again++) {
        IS(answer(&zones, "www", 1, NK_UDP, 1232, &written) == NK_DONE && room[3] == 2 && !(room[2] & 4) && !room[7] && !room[9]);   /* SERVFAIL, without AA */
        IS(answer(&zones, "www", 41, NK_TCP, sizeof room, &written) == NK_DONE && (room[3] & 15) == 4);            /* no type of data */
        IS(serial(&zones, ORIGIN, &number) == NK_DONE && !number && prepare(&zones, ORIGIN) == NK_DONE);
    }
    IS(serial(&zones, "other.example", &number) == NK_DONE && number == 7 && answer(&other, "www", 1, NK_UDP, 1232, &written) == NK_DONE && room[7] == 1);
    IS(load(&zones, 0, ORIGIN, text, &written) == NK_DONE && answer(&zones, "www", 1, NK_UDP, 1232, &written) == NK_DONE && room[7] == 1);
    nk_zones_free(&zones), nk_zones_free(&other);
    return 0;
}

/* Cookies: what each tells, which is made anew, and for how long it is taken. */
static int cookies(void) {
    nk_zones zones = NK_ZONES_NONE;
    size_t written = 9, length = 0;
    uint8_t cookie[24] = {1, 2, 3, 4, 5, 6, 7, 8}, first[24];
    memset(room, 85, sizeof room);
    summary = (nk_summary){9, 9, 9, 9, 9};
    IS(answer_client(&zones, NK_UDP, 0, 1000, cookie, &length, 1232, &written) == NK_CLOSED && !written && is_untouched() && summary.kind == 9);
    IS(nk_zones_new(&zones) == NK_DONE && load(&zones, 0, ORIGIN, text, &written) == NK_DONE);
    memset(room, 85, sizeof room);
    IS(answer_client(&zones, 2, 0, 1000, cookie, &length, 1232, &written) == NK_BAD_TRANSPORT && !written && is_untouched() && summary.cookie == 9);
    IS(answer_client(&zones, NK_UDP, 0, 1000, cookie, &length, 20, &written) == NK_NO_ROOM && written > 20 && is_untouched() && summary.kind == NK_ANSWER);
    IS(answer_client(&zones, NK_UDP, 1, 1000, cookie, &length, 1232, &written) == NK_DONE && summary.code == 0 && summary.cookie == NK_COOKIE_ABSENT && !length && summary.origin_labels);
    IS(!memcmp(room + written - 6, "\0\3\0\2ns", 6));
    length = 7;
    IS(answer_client(&zones, NK_UDP, 0, 1000, cookie, &length, 1232, &written) == NK_DONE && summary.code == 1 && summary.cookie == NK_COOKIE_MALFORMED && written == 12);
    length = 8;
    IS(answer_client(&zones, NK_UDP, 1, 1000, cookie, &length, 1232, &written) == NK_DONE && summary.code == 23 && summary.cookie == NK_COOKIE_UNKNOWN && length == 24 && !room[7]);
    memcpy(first, cookie, 24);
    IS(answer_client(&zones, NK_UDP, 1, 1900, cookie, &length, 1232, &written) == NK_DONE && summary.code == 0 && summary.cookie == NK_COOKIE_KNOWN && room[7] == 1);
    IS(memcmp(first, cookie, 24) && answer_client(&zones, NK_UDP, 1, 4700, cookie, &length, 1232, &written) == NK_DONE && summary.cookie == NK_COOKIE_KNOWN);
    IS(answer_client(&zones, NK_UDP, 1, 4700, first, &length, 1232, &written) == NK_DONE && summary.code == 23 && summary.kind == NK_FAILED && summary.cookie == NK_COOKIE_UNKNOWN);
    cookie[20] ^= 1;
    IS(answer_client(&zones, NK_UDP, 0, 4700, cookie, &length, 1232, &written) == NK_DONE && summary.code == 0 && summary.cookie == NK_COOKIE_UNKNOWN && !summary.truncated);
    length = 8;
    IS(answer_client(&zones, NK_TCP, 1, 4700, cookie, &length, sizeof room, &written) == NK_DONE && summary.code == 0 && summary.cookie == NK_COOKIE_UNKNOWN && length == 24);
    IS(drop(&zones, ORIGIN) == NK_DONE && answer_client(&zones, NK_TCP, 0, 4700, cookie, &length, sizeof room, &written) == NK_DONE && summary.kind == NK_REFUSED && !summary.origin_labels);
    nk_zones_free(&zones);
    return 0;
}

/* A file that includes others, whose texts are given as they are wanted. */
static uint32_t load_files(nk_zones *zones, nk_files *files, const char *file, size_t *written) {
    static const char *const own = "$TTL 60\n@ SOA ns host 7 2 3 4 5\n@ NS ns\n$INCLUDE parts/hosts\n$INCLUDE ../keys\n";
    return nk_zones_load_files(zones, files, (const uint8_t *)ORIGIN, strlen(ORIGIN), (const uint8_t *)file, strlen(file), (const uint8_t *)own, strlen(own), room, sizeof room, written);
}

static uint32_t put(nk_files *files, const char *name, const char *its) { return nk_files_put(files, (const uint8_t *)name, strlen(name), (const uint8_t *)its, strlen(its)); }

static int included(void) {
    nk_zones zones = NK_ZONES_NONE;
    nk_files files = NK_FILES_NONE;
    size_t written = 9;
    uint32_t number, code;
    memset(room, 85, sizeof room);
    IS(load_files(&zones, &files, "zones/a", &written) == NK_CLOSED && !written && is_untouched());
    IS(nk_files_next(&files, room, sizeof room, &written) == NK_NO_FILE && !written && nk_zones_new(&zones) == NK_DONE);
    IS(put(&files, "\xff", "") == NK_BAD_FILE_NAME && load_files(&zones, &files, "\xff", &written) == NK_BAD_FILE_NAME && !written);
    for (long nth = 1; (left = nth, code = load_files(&zones, &files, "zones/a", &written), left = -1, code) != NK_WANTS_FILES; nth++) IS(code == NK_NO_MEMORY && !written);
    IS(!written && is_untouched() && serial(&zones, ORIGIN, &number) == NK_NO_ZONE);
    IS(nk_files_next(&files, room, 16, &written) == NK_NO_ROOM && written == 17 && is_untouched());
    IS(nk_files_next(&files, room, sizeof room, &written) == NK_DONE && written == 17 && !memcmp(room, "zones/parts/hosts", 17));
    IS(nk_files_next(&files, room, sizeof room, &written) == NK_DONE && written == 4 && !memcmp(room, "keys", 4));
    IS(nk_files_next(&files, room, sizeof room, &written) == NK_NO_FILE && !written);
    for (long nth = 1; (left = nth, code = put(&files, "zones/parts/hosts", "ns A 192.0.2.1\nwww A 192.0.2.4\n"), left = -1, code) != NK_DONE; nth++) IS(code == NK_NO_MEMORY);
    IS(nk_files_lack(&files, (const uint8_t *)"keys", 4, NK_LACKS_PERMISSION) == NK_DONE && load_files(&zones, &files, "zones/a", &written) == NK_BAD_TEXT);
    IS(written > 10 && !memcmp(room, "zones/a:5:", 10) && serial(&zones, ORIGIN, &number) == NK_NO_ZONE && put(&files, "keys", "") == NK_DONE);
    for (long nth = 1; (left = nth, code = load_files(&zones, &files, "zones/a", &written), left = -1, code) != NK_DONE; nth++) IS(code == NK_NO_MEMORY && !written);
    IS(!written && answer(&zones, "www", 1, NK_UDP, 1232, &written) == NK_DONE && room[7] == 1);
    nk_files_free(&files), nk_files_free(&files), nk_zones_free(&zones);
    return 0;
}

static uint32_t notify(uint32_t id, const char *origin, size_t space, size_t *written) { return nk_notify_write(id, (const uint8_t *)origin, strlen(origin), room, space, written); }

/* A NOTIFY, and what is read as its response. */
static int notified(void) {
    static const uint8_t wanted[] = {0xab, 0xcd, 36, 0, 0, 1, 0, 0, 0, 0, 0, 0, 7, 'e', 'x', 'a', 'm', 'p', 'l', 'e', 0, 0, 6, 0, 1};
    size_t written = 9;
    uint32_t id = 8, number = 8, code;
    memset(room, 85, sizeof room);
    IS(notify(1, "a..b", sizeof room, &written) == NK_BAD_NAME && !written && is_untouched());
    IS(notify(1, "Example", sizeof wanted - 1, &written) == NK_NO_ROOM && written == sizeof wanted && is_untouched());
    for (long nth = 1; (left = nth, code = notify(0x1abcd, "Example.", sizeof room, &written), left = -1, code) != NK_DONE; nth++) IS(code == NK_NO_MEMORY && !written);
    IS(written == sizeof wanted && !memcmp(room, wanted, written));
    IS(nk_notify_read(room, written, &id, &number) == NK_IGNORED && id == 8 && number == 8);
    room[2] |= 128, room[3] = 5;
    IS(nk_notify_read(room, 11, &id, &number) == NK_IGNORED && nk_notify_read(room, written, &id, &number) == NK_DONE && id == 0xabcd && number == 5);
    return 0;
}

static const nk_signing by_nsec = {.inception = 1000, .expiration = 2000, .key_ttl = 60}, by_nsec3 = {.inception = 1000, .expiration = 2000, .denial = NK_NSEC3_OPT_OUT, .iterations = 1};

/* The same for a zone that is signed. */
static int plan_refusals(void) {
    nk_zones zones = NK_ZONES_NONE;
    nk_plan plan = NK_PLAN_NONE;
    nk_signing other = by_nsec3;
    size_t written = 9;
    uint32_t number = 8;
    memset(room, 85, sizeof room);
    IS(begin(&plan, &zones, ORIGIN, sizeof key, &by_nsec, 0) == NK_CLOSED && nk_plan_sign(&plan, key, 64) == NK_NO_PLAN && nk_plan_finish(&plan, &zones) == NK_NO_PLAN);
    IS(nk_plan_next(&plan, &number, room, sizeof room, &written) == NK_NO_PLAN && !written && number == 8 && is_untouched());
    IS(nk_zones_new(&zones) == NK_DONE && begin(&plan, &zones, ORIGIN, sizeof key, &by_nsec, 0) == NK_NO_ZONE && begin(&plan, &zones, "a..b", sizeof key, &by_nsec, 0) == NK_BAD_NAME);
    IS(load(&zones, 0, ORIGIN, text, &written) == NK_DONE && begin(&plan, &zones, ORIGIN, 69, &by_nsec, 0) == NK_BAD_KEYS && begin(&plan, &zones, ORIGIN, 0, &by_nsec, 0) == NK_MISSING_KEYS);
    IS(begin(&plan, &zones, ORIGIN, sizeof key, &by_nsec3, 256) == NK_BAD_DENIAL && (other.denial = 3) && begin(&plan, &zones, ORIGIN, sizeof key, &other, 0) == NK_BAD_DENIAL);
    IS((other = by_nsec).denial == NK_NSEC && (other.inception = 2000) && begin(&plan, &zones, ORIGIN, sizeof key, &other, 0) == NK_BAD_MOMENTS);
    IS(load(&zones, 0, "d.example", "$TTL 1\n@ SOA a b 1 2 3 4 5\n@ NS a\na DNAME x.\na.a A 192.0.2.1\n", &written) == NK_DONE && begin(&plan, &zones, "d.example", sizeof key, &by_nsec, 0) == NK_BAD_ZONE);
    IS(nk_plan_next(&plan, &number, room, 1, &written) == NK_NO_PLAN);
    IS(begin(&plan, &zones, ORIGIN, sizeof key, &by_nsec, 0) == NK_DONE);
    memset(room, 85, sizeof room);
    IS(nk_plan_next(&plan, &number, room, 18, &written) == NK_NO_ROOM && written > 60 && number == 8 && is_untouched());
    IS(sign_all(&plan, 1) == 15 && nk_plan_next(&plan, &number, room, sizeof room, &written) == NK_NO_MORE && !written && number == 8);
    IS(nk_plan_finish(&plan, &zones) == NK_TOO_FEW && nk_plan_sign(&plan, key, 63) == NK_DONE && nk_plan_finish(&plan, &zones) == NK_BAD_SIGNATURE);
    IS(nk_plan_sign(&plan, key, 63) == NK_DONE && nk_plan_finish(&plan, &zones) == NK_TOO_MANY && serial(&zones, ORIGIN, &number) == NK_DONE && number == 7);
    IS(begin(&plan, &zones, ORIGIN, sizeof key, &by_nsec3, 2) == NK_DONE && sign_all(&plan, 0) > 15 && drop(&zones, ORIGIN) == NK_DONE && nk_plan_finish(&plan, &zones) == NK_NO_ZONE);
    IS(load(&zones, 0, ORIGIN, "$TTL 60\n@ SOA ns host 9 2 3 4 5\n@ NS ns\n", &written) == NK_DONE && nk_plan_finish(&plan, &zones) == NK_ZONE_CHANGED);
    IS(load(&zones, 0, ORIGIN, text, &written) == NK_DONE && nk_plan_finish(&plan, &zones) == NK_DONE && nk_plan_finish(&plan, &zones) == NK_NO_PLAN);
    IS(serial(&zones, ORIGIN, &number) == NK_DONE && number == 8 && answer(&zones, "www", 1, NK_UDP, 1232, &written) == NK_DONE && room[7] == 2 && room[11] == 1);
    IS(begin(&plan, &zones, ORIGIN, sizeof key, &by_nsec, 0) == NK_DONE && sign_all(&plan, 0) == 15 && nk_plan_finish(&plan, &zones) == NK_DONE);   /* once more, by NSEC now */
    IS(serial(&zones, ORIGIN, &number) == NK_DONE && number == 9 && answer(&zones, "wwx", 1, NK_UDP, 1232, &written) == NK_DONE && (room[3] & 15) == 3 && room[9] == 6);
    IS(begin(&plan, &zones, ORIGIN, sizeof key, &by_nsec, 0) == NK_DONE);
    nk_plan_free(&plan), nk_plan_free(&plan), nk_zones_free(&zones);
    return 0;
}

static nk_access access = NK_ACCESS_NONE;

static uint32_t read_keys(const char *file, size_t *written) { return nk_zones_keys(&access, (const uint8_t *)file, strlen(file), room, sizeof room, written); }

static uint32_t allow(const char *origin, const char *name) { return nk_zones_allow(&access, (const uint8_t *)origin, strlen(origin), (const uint8_t *)name, strlen(name)); }

/* The answer to a request for the zone, which came at a moment: with so many of the octets of its TSIG, which is absent for 0. */
static uint32_t ask_zone(nk_transfer *transfer, nk_zones *zones, size_t signature, uint64_t now, uint32_t transport, size_t space, size_t *written) {
    uint8_t query[192];
    size_t length = query_of(query, "", 252) - 11 - 1;
    memmove(query + 12, query + 13, length - 12);
    query[2] = 0, query[11] = signature > 0;
    memcpy(query + length, tsig, signature);
    nk_message message = {.octets = query, .octets_length = length + signature, .moment = now, .limit = 1232, .transport = transport};
    return nk_transfer_begin(transfer, zones, &access, &message, room, space, written);
}

/* The same for zones that are sent. */
static int transfers(void) {
    nk_zones zones = NK_ZONES_NONE;
    nk_transfer transfer = NK_TRANSFER_NONE;
    size_t written = 9, whole = sizeof tsig - 1;
    memset(room, 85, sizeof room);
    IS(ask_zone(&transfer, &zones, 0, 1000, NK_TCP, sizeof room, &written) == NK_CLOSED && !written && nk_zones_new(&zones) == NK_DONE && load(&zones, 0, ORIGIN, text, &written) == NK_DONE);
    memset(room, 85, sizeof room);
    IS(ask_zone(&transfer, &zones, 0, 1000, NK_TCP, sizeof room, &written) == NK_NO_KEYS && ask_zone(&transfer, &zones, 0, 1000, 2, sizeof room, &written) == NK_BAD_TRANSPORT && !written && is_untouched());
    IS(allow(ORIGIN, "") == NK_NO_KEYS && nk_transfer_next(&transfer, 1000, room, sizeof room, &written) == NK_NO_TRANSFER && !written && is_untouched());
    IS(read_keys("\nkey a. { secret \"?\"; };\n", &written) == NK_BAD_TEXT && written > 6 && !memcmp(room, "2:", 2) && room[written - 1] == '\n' && allow(ORIGIN, "") == NK_NO_KEYS);
    IS(read_keys(keys, &written) == NK_DONE && !written && allow("a..b", "") == NK_BAD_NAME && allow(ORIGIN, "a..b") == NK_BAD_NAME && allow(ORIGIN, "b.example") == NK_NO_KEY);
    memset(room, 85, sizeof room);
    IS(ask_zone(&transfer, &zones, 0, 1000, NK_UDP, sizeof room, &written) == NK_UNKEYED && !written && is_untouched());
    IS(ask_zone(&transfer, &zones, 0, 1000, NK_TCP, sizeof room, &written) == NK_DONE && written > 12 && (room[3] & 15) == 5);
    IS(ask_zone(&transfer, &zones, whole, 1000, NK_TCP, sizeof room, &written) == NK_DONE && (room[3] & 15) == 5 && room[11] == 1);   /* nobody may have it yet */
    IS(allow(ORIGIN, "KEY.example.") == NK_DONE && ask_zone(&transfer, &zones, 0, 1000, NK_TCP, sizeof room, &written) == NK_DONE && (room[3] & 15) == 5);
    IS(ask_zone(&transfer, &zones, whole, 1301, NK_TCP, sizeof room, &written) == NK_DONE && (room[3] & 15) == 9 && room[11] == 1);   /* BADTIME */
    IS(ask_zone(&transfer, &zones, whole + 1, 1000, NK_TCP, sizeof room, &written) == NK_DONE && (room[3] & 15) == 1 && written == 12);
    memset(room, 85, sizeof room);
    IS(ask_zone(&transfer, &zones, whole, 1301, NK_TCP, 40, &written) == NK_NO_ROOM && written > 40 && is_untouched());
    IS(ask_zone(&transfer, &zones, whole, 1000, NK_TCP, sizeof room, &written) == NK_TRANSFER && !written && is_untouched());
    IS(nk_transfer_next(&transfer, 1000, room, 40, &written) == NK_NO_ROOM && written > 40 && is_untouched() && nk_transfer_next(&transfer, 1000, room, sizeof room, &written) == NK_NO_TRANSFER);
    IS(ask_zone(&transfer, &zones, whole, 1300, NK_TCP, sizeof room, &written) == NK_TRANSFER && drop(&zones, ORIGIN) == NK_DONE && (nk_access_free(&access), allow(ORIGIN, "") == NK_NO_KEYS));
    IS(nk_transfer_next(&transfer, 1300, room, sizeof room, &written) == NK_DONE && written > 300 && room[2] == 132 && !(room[3] & 15) && room[7] == 12 && room[11] == 1);
    IS(nk_transfer_next(&transfer, 1300, room, sizeof room, &written) == NK_NO_MORE && !written && nk_transfer_next(&transfer, 1300, room, sizeof room, &written) == NK_NO_TRANSFER);
    IS(read_keys("", &written) == NK_DONE && allow(ORIGIN, "") == NK_DONE && ask_zone(&transfer, &zones, 0, 1000, NK_TCP, sizeof room, &written) == NK_DONE && (room[3] & 15) == 9);
    IS(load(&zones, 0, ORIGIN, text, &written) == NK_DONE && ask_zone(&transfer, &zones, 0, 1000, NK_TCP, sizeof room, &written) == NK_TRANSFER);
    IS(expire(&zones, ORIGIN) == NK_DONE && nk_transfer_next(&transfer, 1000, room, sizeof room, &written) == NK_DONE && written > 300);   /* as it was when it began */
    IS(ask_zone(&transfer, &zones, 0, 1000, NK_TCP, sizeof room, &written) == NK_DONE && (room[3] & 15) == 2);
    nk_transfer_free(&transfer), nk_transfer_free(&transfer), nk_access_free(&access), nk_zones_free(&zones);
    return 0;
}

/* The octets of it, in a room for them. */
static nk_message update_at(uint8_t *octets, int is_signed, uint64_t now) {
    size_t length = sizeof update - 1, size = is_signed ? sizeof tsig - 1 : 0;
    memcpy(octets, update, length), memcpy(octets + length, tsig, size);
    octets[11] = is_signed;
    if (is_signed) memcpy(octets + length + size - 38, update_mac, 32);
    return (nk_message){.octets = octets, .octets_length = length + size, .moment = now};
}

static uint32_t update_zone(nk_zones *zones, int is_signed, uint64_t now, size_t space, size_t *written, uint32_t *changed) {
    uint8_t octets[256];
    nk_message message = update_at(octets, is_signed, now);
    return nk_zones_update(zones, &rules, &message, room, space, written, changed);
}

static uint32_t begin_update(nk_update *begun, nk_zones *zones, uint64_t now, size_t space, size_t frames, size_t *written, size_t *framed) {
    uint8_t octets[256];
    nk_message message = update_at(octets, 1, now);
    return nk_update_begin(begun, zones, &rules, &message, room, space, written, frame, frames, framed);
}

/* Updates: who may make them, what they change, and what each allocation that fails leaves. */
static int updates(void) {
    nk_zones zones = NK_ZONES_NONE, other = NK_ZONES_NONE;
    nk_plan plan = NK_PLAN_NONE;
    size_t written = 9;
    uint32_t changed = 9, number, code;
    memset(room, 85, sizeof room);
    IS(update_zone(&zones, 1, 1000, sizeof room, &written, &changed) == NK_CLOSED && !written && !changed && is_untouched());
    IS(nk_zones_new(&zones) == NK_DONE && load(&zones, 0, ORIGIN, text, &written) == NK_DONE && prepare(&zones, ORIGIN) == NK_DONE);
    IS(update_zone(&zones, 1, 1000, sizeof room, &written, &changed) == NK_NO_KEYS && rule(ORIGIN, "key.example", NK_SUBDOMAIN, 1, 0) == NK_NO_KEYS);
    IS(read_rules("\nkey a. { secret \"?\"; };\n", &written) == NK_BAD_TEXT && written > 6 && !memcmp(room, "2:", 2) && rule(ORIGIN, "key.example", NK_NAME, 1, 0) == NK_NO_KEYS);
    for (long nth = 1; (left = nth, code = read_rules(keys, &written), left = -1, code) != NK_DONE; nth++) IS(code == NK_NO_MEMORY && rule(ORIGIN, "a", NK_NAME, 1, 0) == NK_NO_KEYS);
    IS(rule(ORIGIN, "a.example", NK_NAME, 1, 0) == NK_NO_KEY && rule("a..b", "key.example", NK_NAME, 1, 0) == NK_BAD_NAME && rule(ORIGIN, "a..b", NK_NAME, 1, 0) == NK_BAD_NAME && rule(ORIGIN, "key.example", 4, 1, 0) == NK_BAD_SCOPE);
    nk_message query = {.octets = before, .octets_length = 12, .moment = 1000};
    memset(room, 85, sizeof room), written = 9, changed = 9;
    IS(nk_zones_update(&zones, &rules, &query, room, sizeof room, &written, &changed) == NK_NO_UPDATE && !written && !changed && is_untouched());
    IS(update_zone(&zones, 0, 1000, sizeof room, &written, &changed) == NK_DONE && written == 12 && (room[3] & 15) == 5 && !changed);
    IS(update_zone(&zones, 1, 1000, sizeof room, &written, &changed) == NK_DONE && written > 12 && (room[3] & 15) == 5 && room[11] == 1 && !changed);   /* no rule yet */
    IS(rule(ORIGIN, "KEY.example.", NK_NAME, 1, 0) == NK_DONE && update_zone(&zones, 1, 1000, sizeof room, &written, &changed) == NK_DONE && (room[3] & 15) == 5 && !changed);
    for (long nth = 1; (left = nth, code = rule(ORIGIN, "key.example", NK_SUBDOMAIN, 255, 0), left = -1, code) != NK_DONE; nth++) IS(code == NK_NO_MEMORY);
    IS(update_zone(&zones, 1, 1301, sizeof room, &written, &changed) == NK_DONE && (room[3] & 15) == 9 && room[11] == 1 && !changed);   /* BADTIME */
    memset(room, 85, sizeof room);
    IS(update_zone(&zones, 1, 1000, 40, &written, &changed) == NK_NO_ROOM && written > 40 && !changed && is_untouched());
    IS(serial(&zones, ORIGIN, &number) == NK_DONE && number == 7 && answer(&zones, "www", 1, NK_UDP, 1232, &written) == NK_DONE && room[7] == 1 && nk_zones_copy(&zones, &other) == NK_DONE);
    for (long nth = 1; left = nth, code = update_zone(&zones, 1, 1000, sizeof room, &written, &changed), left = -1, !changed; nth++)
        IS((code == NK_NO_MEMORY ? !written : code == NK_DONE && (room[3] & 15) == 2) && serial(&zones, ORIGIN, &number) == NK_DONE && number == 7);   /* SERVFAIL */
    IS(code == NK_DONE && written > 12 && room[2] == 168 && !(room[3] & 15) && room[11] == 1 && serial(&zones, ORIGIN, &number) == NK_DONE && number == 8);
    IS(answer(&zones, "www", 1, NK_UDP, 1232, &written) == NK_DONE && room[7] == 2 && prepare(&zones, ORIGIN) == NK_DONE && answer(&zones, "www", 1, NK_UDP, 1232, &written) == NK_DONE && room[7] == 2);
    IS(serial(&other, ORIGIN, &number) == NK_DONE && number == 7 && answer(&other, "www", 1, NK_UDP, 1232, &written) == NK_DONE && room[7] == 1);   /* a copy stays */
    IS(update_zone(&zones, 1, 1300, sizeof room, &written, &changed) == NK_DONE && !(room[3] & 15) && !changed && serial(&zones, ORIGIN, &number) == NK_DONE && number == 8);   /* again: nothing changes */
    IS(begin(&plan, &zones, ORIGIN, sizeof key, &by_nsec, 0) == NK_DONE && sign_all(&plan, 0) == 15 && nk_plan_finish(&plan, &zones) == NK_DONE);
    IS(update_zone(&zones, 1, 1000, sizeof room, &written, &changed) == NK_DONE && (room[3] & 15) == 5 && room[11] == 1 && !changed);   /* a signed zone */
    IS(drop(&zones, ORIGIN) == NK_DONE && update_zone(&zones, 1, 1000, sizeof room, &written, &changed) == NK_DONE && (room[3] & 15) == 9 && !changed);
    nk_updates_free(&rules), nk_updates_free(&rules), nk_zones_free(&zones), nk_zones_free(&other);
    IS(rule(ORIGIN, "key.example", NK_NAME, 1, 0) == NK_NO_KEYS);
    return 0;
}

/* Updates in two calls: what is written between them makes the zone anew, what comes between them overtakes, and what each failed allocation leaves. */
static int journals(void) {
    nk_zones zones = NK_ZONES_NONE, other = NK_ZONES_NONE;
    nk_update one = NK_UPDATE_NONE;
    size_t written = 9, framed = 9, whole = 9, length;
    uint32_t number, code, changed;
    memset(room, 85, sizeof room);
    IS(begin_update(&one, &zones, 1000, sizeof room, sizeof frame, &written, &framed) == NK_CLOSED && !written && !framed && nk_update_commit(&one, &zones) == NK_NO_PLAN);
    IS(replay(&zones, ORIGIN, 0, &whole) == NK_CLOSED && !whole && nk_zones_new(&zones) == NK_DONE && nk_zones_new(&other) == NK_DONE && replay(&zones, ORIGIN, 0, &whole) == NK_NO_ZONE);
    IS(begin_update(&one, &zones, 1000, sizeof room, sizeof frame, &written, &framed) == NK_NO_KEYS && !written && !framed && is_untouched());
    IS(read_rules(keys, &written) == NK_DONE && rule(ORIGIN, "key.example", NK_SUBDOMAIN, 255, 0) == NK_DONE && load(&zones, 0, ORIGIN, text, &written) == NK_DONE && load(&other, 0, ORIGIN, text, &written) == NK_DONE);
    memset(room, 85, sizeof room);
    IS(begin_update(&one, &zones, 1000, 40, sizeof frame, &written, &framed) == NK_NO_ROOM && written > 40 && framed > 40 && is_untouched() && nk_update_commit(&one, &zones) == NK_NO_PLAN);
    IS(begin_update(&one, &zones, 1000, sizeof room, 40, &written, &framed) == NK_NO_ROOM && written > 40 && framed > 40 && is_untouched() && nk_update_commit(&one, &zones) == NK_NO_PLAN);
    for (long nth = 1; left = nth, code = begin_update(&one, &zones, 1000, sizeof room, sizeof frame, &written, &framed), left = -1, !framed; nth++)
        IS((code == NK_NO_MEMORY ? !written : code == NK_DONE && (room[3] & 15) == 2) && nk_update_commit(&one, &zones) == NK_NO_PLAN);   /* SERVFAIL */
    IS(code == NK_DONE && written > 12 && !(room[3] & 15) && room[11] == 1 && serial(&zones, ORIGIN, &number) == NK_DONE && number == 7);
    memcpy(journal, frame, length = framed);
    for (long nth = 1; left = nth, code = nk_update_commit(&one, &zones), left = -1, code != NK_DONE; nth++)
        IS(code == NK_NO_MEMORY && serial(&zones, ORIGIN, &number) == NK_DONE && number == 7 && begin_update(&one, &zones, 1000, sizeof room, sizeof frame, &written, &framed) == NK_DONE && framed == length);
    IS(serial(&zones, ORIGIN, &number) == NK_DONE && number == 8 && answer(&zones, "www", 1, NK_UDP, 1232, &written) == NK_DONE && room[7] == 2 && nk_update_commit(&one, &zones) == NK_NO_PLAN);
    IS(begin_update(&one, &zones, 1300, sizeof room, sizeof frame, &written, &framed) == NK_DONE && written > 12 && !(room[3] & 15) && !framed && nk_update_commit(&one, &zones) == NK_NO_PLAN);   /* again: nothing changes */
    for (long nth = 1; left = nth, code = replay(&other, ORIGIN, length, &whole), left = -1, code != NK_DONE; nth++) IS(code == NK_NO_MEMORY && whole == length && serial(&other, ORIGIN, &number) == NK_DONE && number == 7);
    IS(whole == length && serial(&other, ORIGIN, &number) == NK_DONE && number == 8 && answer(&other, "www", 1, NK_UDP, 1232, &written) == NK_DONE && room[7] == 2);
    IS(replay(&other, ORIGIN, length, &whole) == NK_DONE && whole == length && serial(&other, ORIGIN, &number) == NK_DONE && number == 8);   /* a zone that has it already */
    IS(load(&other, 0, ORIGIN, text, &written) == NK_DONE && replay(&other, ORIGIN, length - 1, &whole) == NK_DONE && !whole && serial(&other, ORIGIN, &number) == NK_DONE && number == 7);   /* torn */
    IS(load(&other, 0, "b.example", text, &written) == NK_DONE && replay(&other, "b.example", length, &whole) == NK_MISFIT && whole == length && replay(&other, "a..b", length, &whole) == NK_BAD_NAME);
    IS(begin_update(&one, &other, 1000, sizeof room, sizeof frame, &written, &framed) == NK_DONE && framed == length && !memcmp(frame, journal, length));
    IS(update_zone(&other, 1, 1000, sizeof room, &written, &changed) == NK_DONE && changed == 1 && nk_update_commit(&one, &other) == NK_ZONE_CHANGED && nk_update_commit(&one, &other) == NK_NO_PLAN);
    IS(load(&other, 0, ORIGIN, text, &written) == NK_DONE && begin_update(&one, &other, 1000, sizeof room, sizeof frame, &written, &framed) == NK_DONE && framed == length && drop(&other, ORIGIN) == NK_DONE && nk_update_commit(&one, &other) == NK_ZONE_CHANGED);
    IS(load(&other, 0, ORIGIN, text, &written) == NK_DONE && begin_update(&one, &other, 1000, sizeof room, sizeof frame, &written, &framed) == NK_DONE && framed == length && (nk_zones_free(&other), nk_update_commit(&one, &other) == NK_CLOSED));
    IS(expire(&zones, ORIGIN) == NK_DONE && begin_update(&one, &zones, 1000, sizeof room, sizeof frame, &written, &framed) == NK_DONE && (room[3] & 15) == 2 && room[11] == 1 && !framed);
    nk_update_free(&one), nk_update_free(&one), nk_updates_free(&rules), nk_zones_free(&zones);
    return 0;
}

/* Each allocation of these calls fails in turn: what has memory for it goes on from where it was. */
static int transfer_failures(nk_zones *zones) {
    nk_transfer transfer = NK_TRANSFER_NONE;
    size_t written;
    uint32_t code;
    long refused = 0;
    for (long nth = 1; (left = nth, code = read_keys(keys, &written), left = -1, code) != NK_DONE; nth++, refused++) IS(code == NK_NO_MEMORY && allow(ORIGIN, "") == NK_NO_KEYS);
    for (long nth = 1; (left = nth, code = allow(ORIGIN, "key.example"), left = -1, code) != NK_DONE; nth++, refused++) IS(code == NK_NO_MEMORY);
    for (long nth = 1; (left = nth, code = ask_zone(&transfer, zones, sizeof tsig - 1, 1000, NK_TCP, sizeof room, &written), left = -1, code) != NK_TRANSFER; nth++, refused++)
        IS(code == NK_NO_MEMORY && !written && nk_transfer_next(&transfer, 1000, room, sizeof room, &written) == NK_NO_TRANSFER);
    for (long nth = 1; (left = nth, code = nk_transfer_next(&transfer, 1000, room, sizeof room, &written), left = -1, code) != NK_DONE; nth++, refused++) IS(code == NK_NO_MEMORY && !written);
    IS(written > 300 && nk_transfer_next(&transfer, 1000, room, sizeof room, &written) == NK_NO_MORE);
    nk_access_free(&access);
    if (refused) printf("%ld times no memory for a transfer\n", refused);
    return 0;
}

/* The calls of the session, by their numbers; and what is asked for. */
static const char *const labels[] = {"www", "nowhere", "a.cut", "alias", "a.wild", "www"};
static const int types[] = {16, 1, 1, 1, 1, 15};
enum { NEW, LOAD, LOAD_BAD, ADD, SERIAL, COPY, DROP, EXPIRE, PREPARE, CLIENT, ANSWER, CALLS = ANSWER + 6 };

/* A copy has the zones, or the other stays as it was. */
static uint32_t copied(nk_zones *zones, nk_zones *other) {
    uint32_t number, code = nk_zones_copy(zones, other);
    long rest = left;
    left = -1;   /* no allocation of what looks at it fails */
    int is_well = serial(other, ORIGIN, &number) == (code == NK_DONE ? NK_DONE : NK_CLOSED);
    left = rest;
    return is_well ? code : 96;
}

/* A zone has expired, or stayed as it was. */
static uint32_t expired(nk_zones *zones) {
    uint32_t number, code = expire(zones, "other.example");
    long rest = left;
    left = -1;
    int is_well = serial(zones, "other.example", &number) == NK_DONE && number == (code == NK_DONE ? 0 : 7);
    left = rest;
    return is_well ? code : 95;
}

/* Makes a call. A room that isn't written has to stay as it was, and what a call doesn't change too. */
static uint32_t call(nk_zones *zones, nk_zones *other, int number) {
    size_t written = 9;
    uint32_t of = 8, code = NK_DONE;
    memset(room, 85, sizeof room);
    if (number == NEW) return nk_zones_new(zones);
    if (number == DROP) return drop(zones, "other.example");
    if (number == EXPIRE) return expired(zones);
    if (number == PREPARE) return prepare(zones, ORIGIN);
    if (number == COPY) return copied(zones, other);
    if (number == SERIAL) return (code = serial(zones, ORIGIN, &of)) == NK_DONE && of != 7 ? 99 : code != NK_DONE && of != 8 ? 98 : code;
    if (number == LOAD || number == LOAD_BAD) code = load(zones, 0, ORIGIN, number == LOAD ? text : bad_text, &written);
    if (number == ADD) code = load(zones, 1, "other.example", text, &written);
    uint8_t cookie[24] = {1};
    size_t length = 8;
    if (number == CLIENT) code = answer_client(zones, NK_UDP, 0, 1000, cookie, &length, sizeof room, &written);
    if (number >= ANSWER) code = answer(zones, labels[number - ANSWER], types[number - ANSWER], NK_UDP, sizeof room, &written);
    return code == NK_NO_MEMORY && (written || !is_untouched()) ? 97 : code;
}

/* Has each allocation of each call fail in turn. */
static int failures(nk_zones *zones) {
    long refused = 0, done = 0;
    for (int number = 0; number < CALLS; number++)
        for (long nth = 1;; nth++) {
            nk_zones other = NK_ZONES_NONE;
            if (number == ADD) drop(zones, "other.example");
            if (number == DROP || number == EXPIRE) call(zones, &other, ADD);
            left = nth;
            uint32_t code = call(zones, &other, number);
            int all_there = left > 0;
            left = -1;
            nk_zones_free(&other);
            if (code != (number == LOAD_BAD ? NK_BAD_TEXT : NK_DONE) && (all_there || code != NK_NO_MEMORY)) return printf("call %d, allocation %ld: %u\n", number, nth, (unsigned)code), 1;
            if (all_there) break;
            *(code == NK_NO_MEMORY ? &refused : &done) += 1;
        }
    if (refused + done) printf("%ld allocations refused: %ld are told, and %ld calls did without\n", refused + done, refused, done);
    return 0;
}

/* The same of the calls that plan and sign a zone: what has memory for it goes on from where it was. */
static int plan_failures(nk_zones *zones) {
    nk_plan plan = NK_PLAN_NONE;
    uint32_t code = NK_NO_MEMORY, number;
    long refused = 0, asked;
    for (long nth = 1; code != NK_DONE; nth++, refused++) {
        left = nth, code = begin(&plan, zones, ORIGIN, sizeof key, &by_nsec3, 3), left = -1;
        IS(code == NK_DONE || (code == NK_NO_MEMORY && nk_plan_sign(&plan, key, 64) == NK_NO_PLAN));
    }
    IS((asked = sign_all(&plan, 1)) > 15);
    for (long nth = 1; (left = nth, code = nk_plan_sign(&plan, room, 64), left = -1, code) != NK_DONE; nth++, refused++) IS(code == NK_NO_MEMORY && nk_plan_finish(&plan, zones) == NK_TOO_FEW);
    for (long nth = 1; (left = nth, code = nk_plan_finish(&plan, zones), left = -1, code) != NK_DONE; nth++, refused++) IS(code == NK_NO_MEMORY && serial(zones, ORIGIN, &number) == NK_DONE && number == 7);
    IS(serial(zones, ORIGIN, &number) == NK_DONE && number == 8);
    printf("%ld signatures asked for, and %ld times no memory for them\n", asked, refused - 1);
    return 0;
}

/* Answers queries with octets turned. */
static int datagrams(nk_zones *zones, long count) {
    long codes[10] = {0};
    for (long n = 0; n < count; n++) {
        uint8_t turned[128];
        size_t length = query_of(turned, labels[n % 6], types[n % 6]), written;
        for (int k = rand() % 4; k >= 0; k--) turned[rand() % length] = rand();
        if (rand() % 4 == 0) length = rand() % (length + 1);
        codes[nk_zones_answer(zones, n, turned, length, rand() % 4096, rand() % 2, room, sizeof room, &written) % 10]++;
    }
    if (count) printf("of %ld datagrams %ld answered, %ld without an answer\n", count, codes[NK_DONE], codes[NK_IGNORED]);
    return codes[NK_DONE] + codes[NK_IGNORED] != count;
}

/* A query for what changed in the zone since a serial below 256 (IXFR), and its length. */
static size_t changes_of(uint8_t *query, uint8_t serial) {
    static const uint8_t soa[34] = {192, 12, 0, 6, 0, 1, 0, 0, 0, 0, 0, 22};
    size_t length = query_of(query, "", 251) - 11 - 1;
    memmove(query + 12, query + 13, length - 12);
    memcpy(query + length, soa, sizeof soa);
    query[2] = 0, query[9] = 1, query[11] = 0, query[length + 17] = serial;
    return length + sizeof soa;
}

static uint32_t note(nk_steps *steps, nk_zones *zones, const char *origin) { return nk_steps_note(steps, zones, (const uint8_t *)origin, strlen(origin)); }

/* The answer to it. */
static uint32_t begin_changes(nk_transfer *transfer, nk_zones *zones, uint8_t serial, uint8_t *query, size_t *length) {
    size_t written;
    *length = changes_of(query, serial);
    nk_message message = {.octets = query, .octets_length = *length, .moment = 1000, .limit = 1232, .transport = NK_TCP};
    return nk_transfer_begin(transfer, zones, &access, &message, room, sizeof room, &written);
}

/* The same, and whether what changed goes out. */
static uint32_t ask_changes(nk_transfer *transfer, nk_zones *zones, nk_steps *steps, uint8_t serial, uint32_t *sent) {
    uint8_t query[192];
    size_t length;
    uint32_t code = begin_changes(transfer, zones, serial, query, &length);
    *sent = nk_transfer_steps(transfer, steps, query, length);
    return code;
}

/* The version behind `text`: another address, and no alias. */
static const char *const next_text =
    "$TTL 60\n@ SOA ns host 8 2 3 4 5\n@ NS ns\n@ MX 5 www\nns A 192.0.2.1\nwww TXT \"a\" \"b\"\nwww A 192.0.2.9\n"
    "cut NS ns.cut\nns.cut A 192.0.2.5\n*.wild 30 A 192.0.2.2\n*.wild A 192.0.2.3\n";

/* The same for what changed in zones. */
static int changes(void) {
    nk_zones zones = NK_ZONES_NONE;
    nk_steps steps = NK_STEPS_NONE;
    nk_transfer transfer = NK_TRANSFER_NONE;
    size_t written;
    uint32_t sent;
    IS(note(&steps, &zones, ORIGIN) == NK_NO_STEPS && nk_steps_new(&steps, 100) == NK_DONE && note(&steps, &zones, ORIGIN) == NK_CLOSED && nk_zones_new(&zones) == NK_DONE);
    IS(note(&steps, &zones, ORIGIN) == NK_NO_ZONE && note(&steps, &zones, "a..b") == NK_BAD_NAME && nk_transfer_steps(&transfer, &steps, room, 0) == NK_NO_TRANSFER);
    IS(load(&zones, 0, ORIGIN, text, &written) == NK_DONE && note(&steps, &zones, ORIGIN) == NK_DONE && load(&zones, 0, ORIGIN, next_text, &written) == NK_DONE && read_keys("", &written) == NK_DONE && allow(ORIGIN, "") == NK_DONE);
    IS(ask_changes(&transfer, &zones, &steps, 7, &sent) == NK_TRANSFER && sent == NK_NO_STEPS && note(&steps, &zones, ORIGIN) == NK_DONE);   /* it wasn't noted */
    IS(ask_changes(&transfer, &zones, &steps, 7, &sent) == NK_TRANSFER && sent == NK_DONE && nk_transfer_steps(&transfer, &steps, room, 0) == NK_NO_STEPS);
    /* Between two SOA records the older one, an address and an alias, the newer one, and an address. */
    IS(nk_transfer_next(&transfer, 1000, room, sizeof room, &written) == NK_DONE && room[2] == 132 && !(room[3] & 15) && room[7] == 7);
    IS(nk_transfer_next(&transfer, 1000, room, sizeof room, &written) == NK_NO_MORE && ask_changes(&transfer, &zones, &steps, 8, &sent) == NK_DONE && sent == NK_NO_TRANSFER);
    IS(ask_changes(&transfer, &zones, &steps, 6, &sent) == NK_TRANSFER && sent == NK_NO_STEPS && nk_transfer_next(&transfer, 1000, room, sizeof room, &written) == NK_DONE && room[7] == 11);
    IS(ask_zone(&transfer, &zones, 0, 1000, NK_TCP, sizeof room, &written) == NK_TRANSFER && nk_transfer_steps(&transfer, &steps, room, changes_of(room, 7)) == NK_NO_STEPS);
    IS(nk_steps_new(&steps, 4) == NK_DONE && load(&zones, 0, ORIGIN, text, &written) == NK_DONE && note(&steps, &zones, ORIGIN) == NK_DONE && load(&zones, 0, ORIGIN, next_text, &written) == NK_DONE);
    IS(note(&steps, &zones, ORIGIN) == NK_DONE && ask_changes(&transfer, &zones, &steps, 7, &sent) == NK_TRANSFER && sent == NK_NO_STEPS && drop(&zones, ORIGIN) == NK_DONE && note(&steps, &zones, ORIGIN) == NK_NO_ZONE);
    nk_steps_free(&steps), nk_steps_free(&steps);
    IS(nk_transfer_steps(&transfer, &steps, room, 0) == NK_NO_STEPS && note(&steps, &zones, ORIGIN) == NK_NO_STEPS);
    nk_transfer_free(&transfer), nk_access_free(&access), nk_zones_free(&zones);
    return 0;
}

static uint32_t recall(nk_steps *steps, nk_zones *zones, const char *origin, size_t length) { return nk_steps_recall(steps, zones, (const uint8_t *)origin, strlen(origin), journal, length); }

/* What changed by a journal, as after a restart, and what each failed allocation leaves. */
static int recalled(void) {
    nk_zones zones = NK_ZONES_NONE;
    nk_update one = NK_UPDATE_NONE;
    nk_steps steps = NK_STEPS_NONE;
    nk_transfer transfer = NK_TRANSFER_NONE;
    size_t written, length;
    uint32_t sent, code;
    IS(recall(&steps, &zones, ORIGIN, 0) == NK_NO_STEPS && nk_steps_new(&steps, 100) == NK_DONE && recall(&steps, &zones, ORIGIN, 0) == NK_CLOSED && nk_zones_new(&zones) == NK_DONE);
    IS(recall(&steps, &zones, ORIGIN, 0) == NK_NO_ZONE && recall(&steps, &zones, "a..b", 0) == NK_BAD_NAME && load(&zones, 0, ORIGIN, text, &written) == NK_DONE);
    IS(read_rules(keys, &written) == NK_DONE && rule(ORIGIN, "key.example", NK_SUBDOMAIN, 255, 0) == NK_DONE && read_keys("", &written) == NK_DONE && allow(ORIGIN, "") == NK_DONE);
    IS(begin_update(&one, &zones, 1000, sizeof room, sizeof frame, &written, &length) == NK_DONE && length && nk_update_commit(&one, &zones) == NK_DONE);
    memcpy(journal, frame, length);
    IS(recall(&steps, &zones, ORIGIN, 0) == NK_DONE && ask_changes(&transfer, &zones, &steps, 7, &sent) == NK_TRANSFER && sent == NK_NO_STEPS);
    for (long nth = 1; (left = nth, code = recall(&steps, &zones, ORIGIN, length), left = -1, code) != NK_DONE; nth++)
        IS(code == NK_NO_MEMORY && ask_changes(&transfer, &zones, &steps, 7, &sent) == NK_TRANSFER && sent == NK_NO_STEPS);
    /* Between two SOA records the older one and an address, the newer one and two addresses. */
    IS(ask_changes(&transfer, &zones, &steps, 7, &sent) == NK_TRANSFER && sent == NK_DONE && nk_transfer_next(&transfer, 1000, room, sizeof room, &written) == NK_DONE && room[7] == 7);
    IS(recall(&steps, &zones, ORIGIN, length - 1) == NK_DONE && ask_changes(&transfer, &zones, &steps, 7, &sent) == NK_TRANSFER && sent == NK_NO_STEPS);   /* torn */
    IS(recall(&steps, &zones, ORIGIN, length) == NK_DONE && load(&zones, 0, ORIGIN, next_text, &written) == NK_DONE && note(&steps, &zones, ORIGIN) == NK_DONE);   /* the same serial again */
    IS(ask_changes(&transfer, &zones, &steps, 7, &sent) == NK_TRANSFER && sent == NK_NO_STEPS && load(&zones, 0, ORIGIN, text, &written) == NK_DONE);
    IS(recall(&steps, &zones, ORIGIN, length) == NK_DONE && ask_changes(&transfer, &zones, &steps, 6, &sent) == NK_TRANSFER && sent == NK_NO_STEPS);   /* it leads to another version */
    nk_transfer_free(&transfer), nk_update_free(&one), nk_updates_free(&rules), nk_access_free(&access), nk_steps_free(&steps), nk_zones_free(&zones);
    return 0;
}

/* Those where each allocation fails in turn. */
static int change_failures(void) {
    nk_zones zones = NK_ZONES_NONE;
    nk_steps steps = NK_STEPS_NONE;
    nk_transfer transfer = NK_TRANSFER_NONE;
    uint8_t query[192];
    size_t written, length;
    uint32_t code;
    int refused = 0;
    IS(nk_zones_new(&zones) == NK_DONE && load(&zones, 0, ORIGIN, text, &written) == NK_DONE && read_keys("", &written) == NK_DONE && allow(ORIGIN, "") == NK_DONE);
    for (long nth = 1; (left = nth, code = nk_steps_new(&steps, 100), left = -1, code) != NK_DONE; nth++, refused++) IS(code == NK_NO_MEMORY && note(&steps, &zones, ORIGIN) == NK_NO_STEPS);
    for (long nth = 1; (left = nth, code = note(&steps, &zones, ORIGIN), left = -1, code) != NK_DONE; nth++, refused++) IS(code == NK_NO_MEMORY);
    IS(load(&zones, 0, ORIGIN, next_text, &written) == NK_DONE);
    for (long nth = 1; (left = nth, code = note(&steps, &zones, ORIGIN), left = -1, code) != NK_DONE; nth++, refused++) IS(code == NK_NO_MEMORY);
    IS(begin_changes(&transfer, &zones, 7, query, &length) == NK_TRANSFER);
    for (long nth = 1; (left = nth, code = nk_transfer_steps(&transfer, &steps, query, length), left = -1, code) != NK_DONE; nth++, refused++) IS(code == NK_NO_MEMORY);
    for (long nth = 1; (left = nth, code = nk_transfer_next(&transfer, 1000, room, sizeof room, &written), left = -1, code) != NK_DONE; nth++, refused++) IS(code == NK_NO_MEMORY && !written);
    IS(room[7] == 7);
    if (refused) printf("%d times no memory for what changed\n", refused);
    nk_transfer_free(&transfer), nk_access_free(&access), nk_steps_free(&steps), nk_zones_free(&zones);
    return 0;
}

int main(int argc, char **argv) {
    nk_zones zones = NK_ZONES_NONE;
    memset(before, 85, sizeof before);
    int status = refusals() || expiry() || included() || notified() || plan_refusals() || transfers() || updates() || journals() || changes() || recalled() || cookies() || failures(&zones) || datagrams(&zones, argc > 1 ? atol(argv[1]) : 0) || transfer_failures(&zones) || plan_failures(&zones) || change_failures();
    nk_zones_free(&zones);
    return status;
}
