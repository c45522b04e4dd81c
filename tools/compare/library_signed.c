/* Updates of signed zones by the library for C: prepared, signed and committed.
 *
 *     cc library_signed.c $(pkg-config --cflags --libs ningkraet) -Wl,--wrap=malloc,--wrap=realloc -o library_signed
 *     ./library_signed FOLDER
 *
 * By NSEC, by NSEC3 and with opt-out: each refusal is made; then each allocation of each call fails in turn, the zone that was updated is asked for
 * what came and went, and its journal replayed. The zones after it are in files of the folder. The signatures aren't those of a key: the library
 * only puts them in. With NOT_WRAPPED, as beside a sanitizer, no allocation fails. */
#include "library_test.h"

/* An update of the zone by which its denials change: a name comes, and another goes; and the MAC of its TSIG. */
static const uint8_t other_names[] = "\1\2\50\0\0\1\0\0\0\2\0\0" "\47" "a-name-of-more-than-thirty-three-octets" "\7" "example" "\0\0\6\0\1"
    "\3" "new" "\300\14\0\1\0\1\0\0\0\74\0\4\300\0\2\12" "\5" "alias" "\300\14\0\377\0\377\0\0\0\0\0\0";
static const uint8_t other_mac[] = "\336\36\103\263\206\45\243\60\261\323\362\135\325\317\237\371\374\262\333\107\161\104\211\300\77\230\214\20\162\242\320\173";

/* How the zone is signed, and how many records deny the name that comes, and the one that goes: with the SOA, and each with its signature. */
static const struct { nk_signing how; size_t salt; const char *name; int before, after; } signings[] = {
    {{.inception = 1000, .expiration = 3000000, .key_ttl = 60}, 0, "nsec", 6, 4},
    {{.inception = 1000, .expiration = 3000000, .key_ttl = 60, .denial = NK_NSEC3}, 0, "nsec3", 8, 8},
    {{.inception = 1000, .expiration = 3000000, .key_ttl = 60, .denial = NK_NSEC3_OPT_OUT, .iterations = 1}, 3, "opt-out", 6, 8},
};
static nk_update one = NK_UPDATE_NONE;
static nk_plan plan = NK_PLAN_NONE;
static size_t framed;

/* Prepares that update, or for no `names` the one of an address, where this zone is signed by so many octets of the key. */
static uint32_t prepare_by(nk_zones *zones, int kind, int names, const char *origin, size_t key_length, size_t salt, size_t space, size_t *written) {
    uint8_t octets[256];
    size_t length = names ? sizeof other_names - 1 : sizeof update - 1, size = sizeof tsig - 1;
    memcpy(octets, names ? other_names : update, length), memcpy(octets + length, tsig, size), memcpy(octets + length + size - 38, names ? other_mac : update_mac, 32);
    octets[11] = 1;
    nk_message message = {.octets = octets, .octets_length = length + size, .moment = 1000};
    nk_signed_zone zone = {(const uint8_t *)origin, strlen(origin), key, key_length, before, salt, 1000, 2000000};
    return nk_update_prepare(&one, &plan, zones, &rules, &message, &zone, &signings[kind].how, room, space, written, frame, sizeof frame, &framed);
}

static uint32_t prepare_names(nk_zones *zones, int kind, size_t *written) { return prepare_by(zones, kind, 1, ORIGIN, sizeof key, signings[kind].salt, sizeof room, written); }

static uint32_t sign_update(nk_zones *zones, size_t frames) { return nk_update_sign(&one, &plan, zones, frame, frames, &framed); }

static int has_serial(nk_zones *zones, uint32_t wanted) {
    uint32_t number = 0;
    return serial(zones, ORIGIN, &number) == NK_DONE && number == wanted;
}

/* A zone of its own that is signed so: version 8. */
static int sign_zone(nk_zones *zones, int kind) {
    nk_plan its = NK_PLAN_NONE;
    size_t written;
    IS(nk_zones_new(zones) == NK_DONE && load(zones, 0, ORIGIN, text, &written) == NK_DONE && begin(&its, zones, ORIGIN, sizeof key, &signings[kind].how, signings[kind].salt) == NK_DONE);
    IS(sign_all(&its, 0) >= 15 && nk_plan_finish(&its, zones) == NK_DONE && has_serial(zones, 8));
    return 0;
}

/* Updates of a signed zone: what is refused. */
static int signed_refusals(int kind) {
    nk_zones zones = NK_ZONES_NONE;
    size_t written = 9, salt = signings[kind].salt;
    framed = 9;
    memset(room, 85, sizeof room);
    IS(prepare_names(&zones, kind, &written) == NK_CLOSED && !written && !framed && is_untouched() && sign_update(&zones, sizeof frame) == NK_NO_PLAN);
    IS(nk_zones_new(&zones) == NK_DONE && prepare_names(&zones, kind, &written) == NK_NO_KEYS && !written && !framed && is_untouched());
    IS(read_rules(keys, &written) == NK_DONE && load(&zones, 0, ORIGIN, text, &written) == NK_DONE && prepare_names(&zones, kind, &written) == NK_DONE && (room[3] & 15) == 5 && !framed);   /* no rule yet */
    IS(rule(ORIGIN, "key.example", NK_SUBDOMAIN, 255, 0) == NK_DONE && prepare_names(&zones, kind, &written) == NK_DONE && !(room[3] & 15) && framed > 40);   /* it isn't signed yet: there is nothing to sign */
    size_t length = framed;
    IS(nk_plan_next(&plan, &(uint32_t){0}, room, sizeof room, &written) == NK_NO_PLAN && sign_update(&zones, sizeof frame) == NK_NO_PLAN && framed == length && nk_update_commit(&one, &zones) == NK_DONE && has_serial(&zones, 8));
    if (sign_zone(&zones, kind)) return 1;
    memset(room, 85, sizeof room);
    IS(prepare_by(&zones, kind, 1, "a..b", sizeof key, salt, sizeof room, &written) == NK_BAD_NAME && !written && !framed && is_untouched());
    IS(prepare_by(&zones, kind, 1, ORIGIN, sizeof key - 1, salt, sizeof room, &written) == NK_BAD_KEYS && !written && is_untouched());
    IS(prepare_by(&zones, kind, 1, ORIGIN, sizeof key, 256, sizeof room, &written) == (kind ? NK_BAD_DENIAL : NK_DONE));
    memset(room, 85, sizeof room);
    IS(prepare_by(&zones, kind, 1, ORIGIN, sizeof key, salt, 40, &written) == NK_NO_ROOM && written > 40 && !framed && is_untouched() && sign_update(&zones, sizeof frame) == NK_NO_PLAN);
    IS(prepare_by(&zones, kind, 1, "b.example", sizeof key, salt, sizeof room, &written) == NK_DONE && (room[3] & 15) == 5 && !framed);   /* another zone is given: this one is signed */
    IS(prepare_by(&zones, kind, 1, ORIGIN, 0, salt, sizeof room, &written) == NK_DONE && (room[3] & 15) == 2 && room[11] == 1 && !framed && sign_update(&zones, sizeof frame) == NK_NO_PLAN);   /* no key signs it */
    /* Signatures that are lacking, too short or too many; and a frame that finds no room. The plan stays. */
    IS(prepare_names(&zones, kind, &written) == NK_DONE && !framed && sign_update(&zones, sizeof frame) == NK_TOO_FEW && !framed && sign_all(&plan, 1) > 3 && sign_update(&zones, sizeof frame) == NK_TOO_FEW);
    IS(nk_plan_sign(&plan, key, 63) == NK_DONE && sign_update(&zones, sizeof frame) == NK_BAD_SIGNATURE && nk_plan_sign(&plan, key, 64) == NK_DONE && sign_update(&zones, sizeof frame) == NK_TOO_MANY && !framed);
    IS(prepare_names(&zones, kind, &written) == NK_DONE && sign_all(&plan, 0) > 3 && sign_update(&zones, 40) == NK_NO_ROOM && framed > 40 && nk_update_commit(&one, &zones) == NK_NO_PLAN && has_serial(&zones, 8));
    /* Freed before it is signed, and before it is committed. */
    IS(sign_update(&zones, sizeof frame) == NK_DONE && (nk_update_free(&one), nk_update_commit(&one, &zones) == NK_NO_PLAN) && sign_update(&zones, sizeof frame) == NK_NO_PLAN);
    IS(prepare_names(&zones, kind, &written) == NK_DONE && (nk_plan_free(&plan), sign_update(&zones, sizeof frame) == NK_NO_PLAN) && nk_update_commit(&one, &zones) == NK_NO_PLAN && has_serial(&zones, 8));
    /* Other zones, and none. */
    IS(prepare_names(&zones, kind, &written) == NK_DONE && sign_all(&plan, 0) > 3 && drop(&zones, ORIGIN) == NK_DONE && sign_update(&zones, sizeof frame) == NK_NO_ZONE && !framed);
    IS(load(&zones, 0, ORIGIN, text, &written) == NK_DONE && sign_update(&zones, sizeof frame) == NK_ZONE_CHANGED && nk_update_commit(&one, &zones) == NK_NO_PLAN && has_serial(&zones, 7));
    /* Without a journal. */
    nk_zones_free(&zones);
    if (sign_zone(&zones, kind)) return 1;
    IS(prepare_names(&zones, kind, &written) == NK_DONE && sign_all(&plan, 0) > 3 && nk_plan_finish(&plan, &zones) == NK_DONE && has_serial(&zones, 9) && sign_update(&zones, sizeof frame) == NK_NO_PLAN);
    if (sign_zone(&zones, kind)) return 1;
    IS(prepare_names(&zones, kind, &written) == NK_DONE && sign_all(&plan, 0) > 3);
    nk_zones_free(&zones), nk_updates_free(&rules);
    IS(sign_update(&zones, sizeof frame) == NK_CLOSED && !framed && (nk_plan_free(&plan), sign_update(&zones, sizeof frame) == NK_NO_PLAN));
    return 0;
}

/* The answer about a label: its code, and how many records it has that answer, and that prove. */
static int is_answered(nk_zones *zones, const char *label, int code, int answers, int proofs) {
    size_t written;
    return answer(zones, label, 1, NK_UDP, 1232, &written) == NK_DONE && (room[3] & 15) == code && room[7] == answers && room[9] == proofs;
}

/* Writes the zone into a file of a folder. */
static int keep_zone(nk_zones *zones, const char *folder, int kind) {
    char path[4096];
    size_t written;
    snprintf(path, sizeof path, "%s/%s.zone", folder, signings[kind].name);
    FILE *file = fopen(path, "w");
    int is_kept = file && nk_zones_write(zones, (const uint8_t *)ORIGIN, strlen(ORIGIN), room, sizeof room, &written) == NK_DONE && fwrite(room, 1, written, file) == written;
    return file && !fclose(file) && is_kept;
}

/* Those that are made, where each allocation fails in turn: the denials are those of the names after the update, and the journal leads to the same. */
static int signed_updates(int kind, const char *folder) {
    nk_zones zones = NK_ZONES_NONE, other = NK_ZONES_NONE, third = NK_ZONES_NONE;
    size_t written, whole, length;
    uint32_t code;
    long refused = 0, asked;
    if (signed_refusals(kind) || sign_zone(&zones, kind) || sign_zone(&other, kind)) return 1;
    IS(read_rules(keys, &written) == NK_DONE && rule(ORIGIN, "key.example", NK_SUBDOMAIN, 255, 0) == NK_DONE && nk_zones_copy(&zones, &third) == NK_DONE);
    for (long nth = 1; left = nth, code = prepare_names(&zones, kind, &written), left = -1, code != NK_DONE || (room[3] & 15); nth++, refused++)
        IS((code == NK_NO_MEMORY ? !written : code == NK_DONE && (room[3] & 15) == 2) && !framed && sign_update(&zones, sizeof frame) == NK_NO_PLAN);   /* SERVFAIL */
    IS(room[2] == 168 && room[11] == 1 && !framed && (asked = sign_all(&plan, 0)) > 3);
    for (long nth = 1; left = nth, code = sign_update(&zones, sizeof frame), left = -1, code != NK_DONE; nth++, refused++) {
        IS(code == NK_NO_MEMORY && !framed && nk_update_commit(&one, &zones) == NK_NO_PLAN);
        /* With NSEC the plan may be freed: the update is prepared again. */
        IS((code = nk_plan_next(&plan, &(uint32_t){0}, room, sizeof room, &written)) == NK_NO_MORE || (!kind && code == NK_NO_PLAN && prepare_names(&zones, kind, &written) == NK_DONE && sign_all(&plan, 0) == asked));
    }
    IS(framed > 200 && sign_update(&zones, sizeof frame) == NK_NO_PLAN && has_serial(&zones, 8) && is_answered(&zones, "new", 3, 0, signings[kind].before));
    memcpy(journal, frame, length = framed);
    IS(nk_update_commit(&one, &zones) == NK_DONE && has_serial(&zones, 9) && has_serial(&third, 8) && nk_update_commit(&one, &zones) == NK_NO_PLAN);
    IS(is_answered(&zones, "new", 0, 2, 0) && is_answered(&zones, "alias", 3, 0, signings[kind].after) && is_answered(&third, "alias", 0, 4, 0));
    /* Again: nothing changes. And one that came between. */
    IS(prepare_names(&zones, kind, &written) == NK_DONE && !(room[3] & 15) && !framed && sign_update(&zones, sizeof frame) == NK_NO_PLAN && nk_update_commit(&one, &zones) == NK_NO_PLAN);
    IS(replay(&other, ORIGIN, length, &whole) == NK_DONE && whole == length && has_serial(&other, 9));
    IS(nk_zones_write(&zones, (const uint8_t *)ORIGIN, strlen(ORIGIN), room, sizeof room, &written) == NK_DONE && nk_zones_write(&other, (const uint8_t *)ORIGIN, strlen(ORIGIN), room + sizeof room / 2, sizeof room / 2, &whole) == NK_DONE);
    IS(written == whole && !memcmp(room, room + sizeof room / 2, whole) && keep_zone(&zones, folder, kind));
    IS(prepare_by(&third, kind, 0, ORIGIN, sizeof key, signings[kind].salt, sizeof room, &written) == NK_DONE && sign_all(&plan, 0) == 2 && sign_update(&third, sizeof frame) == NK_DONE);   /* the SOA, and the address */
    IS(nk_update_commit(&one, &zones) == NK_ZONE_CHANGED && nk_update_commit(&one, &zones) == NK_NO_PLAN && has_serial(&zones, 9));
    printf("%s: %ld signatures asked for by an update, and %ld times no memory for them\n", signings[kind].name, asked, refused);
    nk_updates_free(&rules), nk_zones_free(&zones), nk_zones_free(&other), nk_zones_free(&third);
    return 0;
}

int main(int argc, char **argv) {
    memset(before, 85, sizeof before);
    if (argc != 2) return 2;
    for (int kind = 0; kind < 3; kind++)
        if (signed_updates(kind, argv[1])) return 1;
    return 0;
}
