/* Signs a zone with keys that only this program has, and answers queries for it over UDP, and updates: the library says what is to be signed, and
 * OpenSSL signs, by ED25519 and by ECDSA with P-256.
 *
 *     cc -O2 examples/serving/signed.c $(pkg-config --cflags --libs ningkraet libcrypto) -o signed
 *     ./signed PORT ORIGIN FILE [TSIG NAME]
 *
 * The keys are new at each start. They are printed as trust anchors, so that delv can validate what it is answered:
 *
 *     ./signed 5300 example.com. examples/example.zone > anchors &
 *     delv @127.0.0.1 -p 5300 -a anchors +root=example.com. www.example.com. A
 *
 * Whoever has the key of this name in the file TSIG may change the zone (RFC 2136), of which what changed is signed then:
 *
 *     tsig-keygen admin.example.com > tsig
 *     ./signed 5300 example.com. examples/example.zone tsig admin.example.com > anchors &
 *     printf 'server 127.0.0.1 5300\nzone example.com.\nupdate add new.example.com. 60 A 192.0.2.9\nsend\n' | nsupdate -k tsig
 *
 * Updates are lost at its end, as the keys are: nothing is written to a journal.
 */
#include <arpa/inet.h>
#include <ningkraet.h>
#include <openssl/ec.h>
#include <openssl/evp.h>
#include <stdio.h>
#include <stdlib.h>
#include <string.h>
#include <time.h>

enum { KEYS = 2, ED25519 = 15, ECDSA_P256 = 13 };
static const uint8_t algorithms[KEYS] = {ED25519, ECDSA_P256};
static EVP_PKEY *pairs[KEYS];
static uint8_t keys[256], octets[65536], text[1 << 20], frame[1 << 20];
static nk_zones zones = NK_ZONES_NONE;
static nk_plan plan = NK_PLAN_NONE;
static nk_updates updates = NK_UPDATES_NONE;
static nk_update begun = NK_UPDATE_NONE;

static void stop(const char *what, unsigned code) {
    fprintf(stderr, "signed: %s: %u\n", what, code);
    exit(1);
}

/* The data of a key's DNSKEY record (RFC 4034 section 2.1; RFC 8080 section 3, RFC 6605 section 4), and their length. */
static size_t key_data(int key, uint8_t *data) {
    uint8_t point[65];
    size_t length = sizeof point;
    memcpy(data, (uint8_t[]){1, 1, 3, algorithms[key]}, 4);
    if (algorithms[key] == ED25519 ? !EVP_PKEY_get_raw_public_key(pairs[key], point, &length) : !EVP_PKEY_get_octet_string_param(pairs[key], "pub", point, sizeof point, &length))
        stop("no public key", key);
    size_t form = algorithms[key] == ECDSA_P256; /* the octet that says that the point isn't compressed */
    memcpy(data + 4, point + form, length - form);
    return 4 + length - form;
}

/* The signature of a key as an RRSIG record has it, in 64 octets. */
static void sign(int key, const uint8_t *data, size_t length, uint8_t *signature) {
    uint8_t made[128];
    size_t count = sizeof made;
    EVP_MD_CTX *context = EVP_MD_CTX_new();
    if (!EVP_DigestSignInit(context, NULL, algorithms[key] == ED25519 ? NULL : EVP_sha256(), NULL, pairs[key]) || EVP_DigestSign(context, made, &count, data, length) != 1)
        stop("no signature", key);
    EVP_MD_CTX_free(context);
    if (algorithms[key] == ED25519) {
        memcpy(signature, made, 64);
        return;
    }
    const uint8_t *begin = made;
    ECDSA_SIG *parts = d2i_ECDSA_SIG(NULL, &begin, count);
    if (!parts || BN_bn2binpad(ECDSA_SIG_get0_r(parts), signature, 32) != 32 || BN_bn2binpad(ECDSA_SIG_get0_s(parts), signature + 32, 32) != 32) stop("no signature", key);
    ECDSA_SIG_free(parts);
}

/* Signs what a plan hands out, if there is one. */
static void sign_plan(void) {
    static uint8_t asked[1 << 20];
    size_t length;
    uint32_t key, code;
    for (uint8_t signature[64]; !(code = nk_plan_next(&plan, &key, asked, sizeof asked, &length));) {
        sign(key, asked, length, signature);
        if ((code = nk_plan_sign(&plan, signature, sizeof signature))) stop("a signature isn't taken", code);
    }
    if (code != NK_NO_MORE && code != NK_NO_PLAN) stop("what is to be signed isn't handed out", code);
}

/* How the zone is signed from now on. */
static nk_signing signing(void) { return (nk_signing){.inception = time(NULL) - 3600, .expiration = time(NULL) + 30 * 86400, .key_ttl = 3600, .denial = NK_NSEC}; }

/* Carries an update out, and signs what it changed. With NK_DONE the response is in `octets`. */
static uint32_t update(const nk_message *message, nk_signed_zone *zone, size_t *written) {
    size_t framed;
    nk_signing how = signing();
    zone->held_from = time(NULL), zone->held_until = time(NULL) + 15 * 86400;
    uint32_t code = nk_update_prepare(&begun, &plan, &zones, &updates, message, zone, &how, octets, sizeof octets, written, frame, sizeof frame, &framed);
    if (code != NK_DONE) return code;
    sign_plan();
    code = nk_update_sign(&begun, &plan, &zones, frame, sizeof frame, &framed);
    if (code != NK_DONE && code != NK_NO_PLAN) return code;
    /* (a server that keeps its keys appends the frame to its journal here, and waits until it is on the disk) */
    return framed ? nk_update_commit(&begun, &zones) : NK_DONE;
}

/* Reads a file, and gives its length. */
static size_t read_file(const char *path) {
    FILE *file = fopen(path, "rb");
    size_t length = file ? fread(text, 1, sizeof text, file) : 0;
    if (!file || fclose(file)) stop("a file can't be read", 1);
    return length;
}

/* The owner of a key in a file may change everything in the zone. */
static void permit(const uint8_t *origin, size_t origin_length, const char *path, const char *name) {
    size_t length = read_file(path), written;
    const nk_rule rule = {origin, origin_length, (const uint8_t *)name, strlen(name), origin, origin_length, (const uint16_t[]){255}, 1, NK_SUBDOMAIN, 0};
    uint32_t code = nk_updates_keys(&updates, text, length, octets, sizeof octets, &written);
    if (code || (code = nk_updates_rule(&updates, &rule))) stop("the key can't be read", code);
}

int main(int argc, char **argv) {
    if (argc != 4 && argc != 6) stop("it is called with a port, an origin and a file, and with a file of a key and its name", 2);
    const uint8_t *origin = (const uint8_t *)argv[2];
    size_t origin_length = strlen(argv[2]), length = read_file(argv[3]), written, data = 0;
    uint32_t code = NK_NO_MEMORY;
    if (nk_zones_new(&zones) || (code = nk_zones_load(&zones, origin, origin_length, text, length, octets, sizeof octets, &written))) stop("the zone isn't loaded", code);
    if (argc == 6) permit(origin, origin_length, argv[4], argv[5]);

    pairs[0] = EVP_PKEY_Q_keygen(NULL, NULL, "ED25519"), pairs[1] = EVP_EC_gen("P-256");
    for (int k = 0; k < KEYS; k++) {
        size_t count = key_data(k, keys + data + 2);
        keys[data] = count >> 8, keys[data + 1] = count;
        octets[EVP_EncodeBlock(octets, keys + data + 6, count - 4)] = 0;
        printf("%s { %s static-key 257 3 %d \"%s\"; };\n", "trust-anchors", argv[2], algorithms[k], octets);
        data += 2 + count;
    }
    fflush(stdout);

    nk_signing how = signing();
    if ((code = nk_plan_begin(&plan, &zones, origin, origin_length, keys, data, &how, octets, 0))) stop("the zone isn't planned", code);
    sign_plan();
    if ((code = nk_plan_finish(&plan, &zones))) stop("the zone isn't signed", code);

    int way = socket(AF_INET, SOCK_DGRAM, 0);
    struct sockaddr_in here = {.sin_family = AF_INET, .sin_port = htons(atoi(argv[1])), .sin_addr.s_addr = htonl(INADDR_LOOPBACK)}, from;
    nk_signed_zone zone = {.origin = origin, .origin_length = origin_length, .keys = keys, .keys_length = data, .salt = keys};
    if (bind(way, (struct sockaddr *)&here, sizeof here)) stop("the port isn't free", atoi(argv[1]));
    for (;;) {
        socklen_t size = sizeof from;
        ssize_t count = recvfrom(way, text, 65535, 0, (struct sockaddr *)&from, &size);
        if (count < 0) continue;
        const nk_message message = {.octets = text, .octets_length = count, .address = text, .moment = time(NULL)};
        code = update(&message, &zone, &written);
        if (code == NK_NO_UPDATE || code == NK_NO_KEYS) code = nk_zones_answer(&zones, time(NULL), text, count, 1232, NK_UDP, octets, sizeof octets, &written);
        if (!code) sendto(way, octets, written, 0, (struct sockaddr *)&from, size);
    }
}
