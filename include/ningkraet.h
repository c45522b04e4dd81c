/* ningkraet.h: authoritative DNS zones in memory, for C and for languages that call C.
 *
 * The octets of a query go in, those of its response come out; no call opens a socket. The library is written in Rattle. It is proved which
 * code each call returns, and what it does to the zones, to the buffer and to what it writes elsewhere, as its comment says; as long as the
 * caller follows the rules below, which no compiler checks. Not proved are the wording of faults and warnings, how much time and memory a
 * call takes, and that memory is freed.
 *
 * Rules for the caller
 *
 *  - An nk_zones is set to NK_ZONES_NONE before its first call, and from then on only the calls below write to it. It isn't copied and then
 *    used in both places: to move it, copy it and set the old one to NK_ZONES_NONE. What it points to belongs to the library.
 *  - Only one call at a time uses an nk_zones, queries included: each call needs it exclusively. It may move from one thread to another:
 *    by a lock, by the start or end of a thread, or by a sequentially consistent atomic. Calls with different nk_zones may run at the same
 *    time, even if nk_zones_copy gave them the same zones ("Threads", below). No call is made from a signal handler, nor in the child of a
 *    fork of a process with several threads.
 *  - No pointer is NULL, even if the length that follows it is 0. A pointer and a length denote that many octets, which exist and are
 *    initialized (buffers too: calloc one, or memset it once), fewer than 2^63. What a call writes doesn't overlap any other argument.
 *  - malloc, realloc and free belong to one allocator, and align blocks as those of the C library do.
 *
 * Promises to the caller
 *
 *  - Every call returns, whatever the octets are, with a code that says how it ended. No call prints, opens or reads a file, waits, starts
 *    a thread, keeps a pointer of the caller's, reads a clock or ends the process.
 *  - All memory is the library's own, except for the buffers that the caller passes; the calls with _free free it.
 *  - A call that returns anything but NK_DONE hasn't changed any zone. What it leaves in the buffer is described at each call.
 *  - Each call that returns a code may return NK_NO_MEMORY. Nothing is lost then, and the same call may be repeated.
 *  - Zones that were freed, or never made, give NK_CLOSED, and do no harm. They may be freed again.
 *
 * Threads
 *
 *    Each thread that answers has an nk_zones of its own, which nk_zones_copy makes from a loaded one: no zone is read or stored twice, and
 *    no answer waits for another thread. To reload zones while queries are being answered, one thread loads them into a copy and puts that
 *    in place of the nk_zones from which all others are copied; each other thread then copies that, and puts it in place of its own. The shared
 *    nk_zones is used under a lock, since a copy too needs both exclusively; the lock isn't held while a zone is read, nor while one is freed:
 *
 *        the thread that loads                                      each thread that answers, between two queries
 *
 *        nk_zones fresh = NK_ZONES_NONE, old;                       nk_zones fresh = NK_ZONES_NONE;
 *        lock();                                                    if (seen != renewed) {                   an atomic number
 *        code = nk_zones_copy(&loaded, &fresh);                         lock();
 *        unlock();                                                      now = renewed;
 *        if (code == NK_DONE)                                           code = nk_zones_copy(&loaded, &fresh);
 *            code = nk_zones_load(&fresh, ..);                          unlock();
 *        if (code == NK_DONE) {                                         if (code == NK_DONE)
 *            lock();                                                        nk_zones_free(&own), own = fresh, seen = now;
 *            old = loaded, loaded = fresh, fresh = old, renewed++;  }
 *            unlock();                                              nk_zones_answer(&own, ..);
 *        }
 *        nk_zones_free(&fresh);
 *
 *    A zone that was dropped or replaced is freed with the last nk_zones that has it, by the thread whose call that is. It is proved that an
 *    nk_zones may move to another thread with what it shares; that a program locks as above isn't proved, and nothing checks it.
 *
 *    Processes don't share zones. Each loads its own: after the fork, or before it if the process has one thread. With SO_REUSEPORT each has
 *    its own sockets on the same port; to reload zones, start a new process, and end the old one once the new one listens.
 */
#ifndef NINGKRAET_H
#define NINGKRAET_H

#include <stddef.h>
#include <stdint.h>

#ifdef __cplusplus
extern "C" {
#endif

/* The version of the interface that this header declares. A later header may add calls and codes under the same number; if a call or a code
 * changes or is removed, the number grows. */
#define NK_INTERFACE 1

/* How a call ended. */
enum {
    NK_DONE = 0,          /* it is done */
    NK_IGNORED = 1,       /* the message gets no answer: fewer than 12 octets, or itself a response (RFC 1035 section 4.1.1); or isn't one that is read */
    NK_CLOSED = 2,        /* there are no zones: none were made, or they were freed */
    NK_BAD_NAME = 3,      /* the origin isn't the text of a name */
    NK_BAD_TEXT = 4,      /* the text isn't that of a zone file, or its records make no zone; or it isn't that of a file of keys */
    NK_NO_MEMORY = 5,     /* there is not enough memory */
    NK_NO_ROOM = 6,       /* the response is longer than the buffer for it */
    NK_NO_ZONE = 7,       /* there is no zone with this origin */
    NK_ZONE_EXISTS = 8,   /* there is a zone with this origin already */
    NK_BAD_TRANSPORT = 9, /* the transport is neither NK_UDP nor NK_TCP */
    NK_NO_PLAN = 20,      /* there is no plan: none was begun, or it was finished or freed; nor an update that was begun */
    NK_BAD_KEYS = 21,     /* the keys aren't DNSKEY data, one can't be a zone's key, or there are more than 256 */
    NK_MISSING_KEYS = 22, /* there is no key, or one by whose algorithm not each set is signed (RFC 4035 section 2.2) */
    NK_BAD_MOMENTS = 23,  /* signatures can't hold from the one moment to the other (RFC 4034 section 3.1.5) */
    NK_BAD_DENIAL = 24,   /* the denial, the iterations or the salt are none that a zone has (RFC 5155 section 3.2) */
    NK_BAD_ZONE = 25,     /* what the zone has can't be signed: a CNAME at its origin, or records below a DNAME */
    NK_LONG_NAMES = 26,   /* the origin is too long for names that are hashed */
    NK_NO_MORE = 27,      /* everything that is to be signed was handed out, or all messages of a transfer */
    NK_ZONE_CHANGED = 28, /* the zone has another serial than the one that was planned or updated, or isn't there */
    NK_TOO_FEW = 29,      /* there are fewer signatures than the plan wants */
    NK_TOO_MANY = 30,     /* there are more */
    NK_BAD_SIGNATURE = 31, /* a signature isn't as long as those of its key */
    NK_NO_KEYS = 32,      /* there are no keys: none were read, or they were freed */
    NK_NO_KEY = 33,       /* there is no key of this name */
    NK_UNKEYED = 34,      /* the message has no TSIG and asks for no transfer: nk_zones_answer or nk_zones_answer_client answers it */
    NK_TRANSFER = 35,     /* the messages of a zone follow */
    NK_NO_TRANSFER = 36,  /* there is no transfer: none was begun, or it came to its end, or was freed */
    NK_NO_STEPS = 37,     /* there is no nk_steps: none was begun, or it was freed; or it lacks what a client needs */
    NK_NO_UPDATE = 38,    /* the message is no update: nk_transfer_begin, nk_zones_answer or nk_zones_answer_client answers it */
    NK_BAD_SCOPE = 39,    /* the scope of a rule is none of NK_NAME to NK_OWN_SUBDOMAIN */
    NK_WANTS_FILES = 40,  /* files are included of which there is no text yet: nk_files_next hands out their names */
    NK_NO_FILE = 41,      /* no file is wanted */
    NK_BAD_FILE_NAME = 42, /* the name of a file isn't UTF-8 */
    NK_NO_ENTRY = 43,     /* a whole frame of the journal has no entry: the file is no journal */
    NK_MISFIT = 44        /* an entry of the journal doesn't fit the zone before it: the journal is that of another zone, or of another file of it */
};

/* How a query came; and how many octets a response has at most over each. */
enum { NK_UDP = 0, NK_TCP = 1 };
enum { NK_UDP_OCTETS = 1232, NK_TCP_OCTETS = 65535 };

/* Zones, or none. */
typedef struct nk_zones {
    void *kept;
} nk_zones;

/* What initializes one, to no zones; as a value, (nk_zones)NK_ZONES_NONE. */
#define NK_ZONES_NONE {0}

/* Keys, and who may have zones; a zone that is being sent; or none. The rules for an nk_zones hold for them too. */
typedef struct nk_access {
    void *kept;
} nk_access;

typedef struct nk_transfer {
    void *kept;
} nk_transfer;

#define NK_ACCESS_NONE {0}
#define NK_TRANSFER_NONE {0}

/* What changed in zones from version to version, or none. The rules for an nk_zones hold for it too: threads that share one take turns. */
typedef struct nk_steps {
    void *kept;
} nk_steps;

#define NK_STEPS_NONE {0}

/* Keys, and rules of who may change what in which zone; or none. The rules for an nk_zones hold for them too. */
typedef struct nk_updates {
    void *kept;
} nk_updates;

#define NK_UPDATES_NONE {0}

/* An update that was begun, or none. The rules for an nk_zones hold for it too. */
typedef struct nk_update {
    void *kept;
} nk_update;

#define NK_UPDATE_NONE {0}

/* Which names a rule is about: its own, that and all below it, that of the key, or that and all below it. */
enum { NK_NAME = 0, NK_SUBDOMAIN = 1, NK_OWN_NAME = 2, NK_OWN_SUBDOMAIN = 3 };

/* A rule of who may change what in a zone. A final dot of a name may be omitted. */
typedef struct nk_rule {
    const uint8_t *origin;          /* the zone's */
    size_t origin_length;
    const uint8_t *key;             /* the name of the key whose owner it is about */
    size_t key_length;
    const uint8_t *name;            /* its own, for NK_NAME and NK_SUBDOMAIN; else any name, such as "." */
    size_t name_length;
    const uint16_t *types;          /* the types that it is about, 255 being each; none: each but SOA and NS. It is never about NSEC, NSEC3, */
    size_t types_length;            /* NSEC3PARAM and RRSIG. This length is their number. */
    uint32_t scope;                 /* NK_NAME to NK_OWN_SUBDOMAIN */
    uint32_t denies;                /* 0: it grants what it is about; else it denies it */
} nk_rule;

/* A plan of a zone that is being signed, or none. The rules for an nk_zones hold for it too. */
typedef struct nk_plan {
    void *kept;
} nk_plan;

#define NK_PLAN_NONE {0}

/* A signed zone that updates may change. */
typedef struct nk_signed_zone {
    const uint8_t *origin;          /* its origin; a final dot may be omitted */
    size_t origin_length;
    const uint8_t *keys;            /* its keys, as nk_plan_begin takes them */
    size_t keys_length;
    const uint8_t *salt;            /* of NSEC3, as there */
    size_t salt_length;
    uint64_t held_from;             /* from when */
    uint64_t held_until;            /* until when signatures have to hold that stay, in seconds since 1970: others are made anew */
} nk_signed_zone;

/* Texts of files by their names, or none. The rules for an nk_zones hold for them too. */
typedef struct nk_files {
    void *kept;
} nk_files;

#define NK_FILES_NONE {0}

/* Why a file can't be read: there is none, a folder has its name, or a pipe or a device; you may not read it; or another reason. */
enum { NK_LACKS_FILE = 0, NK_LACKS_FOLDER = 1, NK_LACKS_STREAM = 2, NK_LACKS_PERMISSION = 3, NK_LACKS_OTHER = 4 };

/* How a zone denies what it doesn't have: by NSEC, by NSEC3, or by NSEC3 with opt-out (RFC 5155 section 6). */
enum { NK_NSEC = 0, NK_NSEC3 = 1, NK_NSEC3_OPT_OUT = 2 };

/* How a zone is to be signed. */
typedef struct nk_signing {
    uint64_t inception;             /* from when on signatures hold, in seconds since 1970-01-01 00:00 UTC */
    uint64_t expiration;            /* until when */
    uint32_t jitter;                /* how many seconds earlier they end at most, those at one name together; else 0 */
    uint32_t key_ttl;               /* the TTL of DNSKEY, CDS and CDNSKEY records, in seconds */
    uint32_t denial;                /* NK_NSEC, NK_NSEC3 or NK_NSEC3_OPT_OUT */
    uint32_t iterations;            /* how many more times names are hashed; RFC 9276 section 3.1 recommends 0 */
    uint32_t asks_parent;           /* not 0: with CDS and CDNSKEY records for the keys that sign keys (RFC 7344) */
} nk_signing;

/* The interface version of the linked library, to compare with NK_INTERFACE. */
uint32_t nk_interface(void);

/* Initializes an nk_zones without any zone. What was there before is freed once this has succeeded.
 * NK_DONE, or NK_NO_MEMORY, after which what was there stays. */
uint32_t nk_zones_new(nk_zones *zones);

/* Gives another nk_zones the zones of this one, replacing what is there, which is freed. Each zone is in memory once; what is put into or
 * dropped from one of the two afterwards doesn't affect the other. Time and memory depend on the number of zones, not on what is in them.
 * NK_DONE, NK_NO_MEMORY or NK_CLOSED; after any code but NK_DONE the other is as it was. */
uint32_t nk_zones_copy(nk_zones *zones, nk_zones *other);

/* Frees the zones, if there are any, except those that another nk_zones has too. Afterwards there are none. */
void nk_zones_free(nk_zones *zones);

/* Reads the text of a zone file (RFC 1035 section 5), and installs its zone, replacing the zone with this origin if there is one.
 * The origin is the name at the top of the zone, such as "example.com" (a final dot may be omitted), and completes the relative names of the
 * text; "." is the root. A signed zone has its signatures and denials in the text; it is served as it is signed, and never signed here.
 *
 * The buffer gets lines of text without a final 0, as much of them as fits, and `written` says how many octets these are. After NK_BAD_TEXT
 * it is the first fault, such as "example.com:4:12: an IPv4 address takes four numbers with dots, not 'www'": origin, line and column (both
 * from 1; omitted if the fault isn't at one place), and what is wrong, followed by a line feed. After NK_DONE there is a line for each
 * record that isn't accepted as it is: outside the zone, there already, with a TTL other than that of its RRset, or a signature that covers
 * nothing. With any other code nothing is written, and `written` is 0.
 *
 * NK_DONE, NK_BAD_NAME, NK_BAD_TEXT, NK_NO_MEMORY or NK_CLOSED. */
uint32_t nk_zones_load(nk_zones *zones, const uint8_t *origin, size_t origin_length, const uint8_t *text, size_t text_length,
                       uint8_t *buffer, size_t buffer_length, size_t *written);

/* The same for a new zone: if there is a zone with this origin already, that one stays, and the code is NK_ZONE_EXISTS. */
uint32_t nk_zones_add(nk_zones *zones, const uint8_t *origin, size_t origin_length, const uint8_t *text, size_t text_length,
                      uint8_t *buffer, size_t buffer_length, size_t *written);

/* Removes the zone with this origin. NK_DONE, NK_NO_ZONE, NK_BAD_NAME, NK_NO_MEMORY or NK_CLOSED. */
uint32_t nk_zones_drop(nk_zones *zones, const uint8_t *origin, size_t origin_length);

/* Has the zone with this origin expire, as a secondary has to that couldn't ask the primary for the zone's expire interval (RFC 1034 section
 * 4.3.5): a zone without any record comes in its place, which is freed. Queries for its names get SERVFAIL, and so do transfers to those who may
 * have it; its serial is 0. nk_zones_load brings it back. NK_DONE, NK_NO_ZONE, NK_BAD_NAME, NK_NO_MEMORY or NK_CLOSED. */
uint32_t nk_zones_expire(nk_zones *zones, const uint8_t *origin, size_t origin_length);

/* Keeps the answers that the zone with this origin gives most as the octets that go out: those for A and AAAA of each name that has an address
 * or an alias, and those for each set of the types NS, SOA, MX, SRV, TXT and DNSKEY, to a query without EDNS and to one that takes DNSSEC
 * records (DO); none that is truncated. Such a query is answered in less time, if the letters of its name are lower case; and so is one for
 * a name right below the origin that doesn't exist, if the letters of the origin are. No answer changes, and no zone. It takes as long as so many queries, and memory: some 350 octets for a name with an address, and 1,000 in a zone that is
 * signed with NSEC. What is kept goes with the zone: where that is replaced, ask again. nk_zones_copy shares it.
 * NK_DONE, NK_NO_ZONE, NK_BAD_NAME, NK_NO_MEMORY or NK_CLOSED. */
uint32_t nk_zones_prepare(nk_zones *zones, const uint8_t *origin, size_t origin_length);

/* Writes the serial of the zone with this origin (RFC 1035 section 3.3.13) to `serial`, which stays as it was with any code but NK_DONE.
 * NK_DONE, NK_NO_ZONE, NK_BAD_NAME, NK_NO_MEMORY or NK_CLOSED. */
uint32_t nk_zones_serial(nk_zones *zones, const uint8_t *origin, size_t origin_length, uint32_t *serial);

/* Answers a message (RFC 1035 section 4) from the zones. The response is at the beginning of the buffer, and `written` has its length in
 * octets; the rest of the buffer is as it was. The zone with the longest origin at or above the name in the query answers; for DS the longest
 * one above it, if there is one (RFC 4035 section 3.1.4.1). A name that is in none of the zones is REFUSED. A query for a transfer (AXFR,
 * IXFR) gets NOTIMP, since that takes more than one message (RFC 5936 section 2.2): nk_transfer_begin answers it. A TSIG is passed over.
 *
 *   now        the time, in seconds since 1970-01-01 00:00 UTC. Nothing depends on it as long as no zone is signed here.
 *   limit      how many octets a UDP response may have at most, such as 1232. If the client accepts fewer according to its OPT record, or the
 *              1232 that are ever sent are fewer, that counts; 512 without an OPT record, and never less. Ignored over TCP: 65535.
 *              A response that would be longer is truncated, and says so (TC).
 *   transport  NK_UDP or NK_TCP.
 *
 * A buffer of 1232 octets is enough over UDP, and one of 65535 over TCP. After NK_NO_ROOM `written` says how many are needed; with any other
 * code but NK_DONE it is 0. With any code but NK_DONE the buffer is as it was.
 *
 * NK_DONE, NK_IGNORED, NK_NO_ROOM, NK_NO_MEMORY, NK_BAD_TRANSPORT or NK_CLOSED. */
uint32_t nk_zones_answer(nk_zones *zones, uint64_t now, const uint8_t *query, size_t query_length, size_t limit, uint32_t transport,
                         uint8_t *buffer, size_t buffer_length, size_t *written);

/* What a server answers by options of EDNS (RFC 6891 section 6.1.2). */
typedef struct nk_settings {
    const uint8_t *nsid;         /* the server's identifier (RFC 5001), if it has any octets */
    size_t nsid_length;
    const uint8_t *secrets;      /* the secrets for cookies (RFC 7873): 16 octets are the current one; 32 are that and the one before it, by which */
    size_t secrets_length;       /* cookies are still valid. With any other number of octets there are none, and COOKIE options are ignored. */
    uint32_t cookies_required;   /* other than 0: a UDP query with a COOKIE option, but no valid server cookie, gets BADCOOKIE and a new one */
} nk_settings;

/* A message, and how it came. */
typedef struct nk_message {
    const uint8_t *octets;
    size_t octets_length;
    const uint8_t *address;      /* the client's, of 4 or 16 octets */
    size_t address_length;
    uint64_t moment;             /* the time, in seconds since 1970-01-01 00:00 UTC: a server cookie is valid for an hour */
    size_t limit;                /* as nk_zones_answer has it */
    uint32_t transport;          /* NK_UDP or NK_TCP */
} nk_message;

/* What a response was, to be counted, logged and limited by. */
typedef struct nk_summary {
    uint32_t code;               /* the response code, of twelve bits (RFC 6891 section 6.1.3) */
    uint32_t kind;               /* NK_ANSWER to NK_OTHER */
    uint32_t truncated;          /* 1 if it is truncated (TC), else 0 */
    uint32_t cookie;             /* what the query told by a COOKIE option: NK_COOKIE_ABSENT to NK_COOKIE_KNOWN */
    size_t origin_labels;        /* so many labels at the end of the name, with the root's, are the origin of the zone that answers; 0: none does */
} nk_summary;

/* The kind of a response. */
enum {
    NK_ANSWER = 0,       /* there is an answer */
    NK_REFERRAL = 1,     /* it refers to the servers of a zone below (RFC 1034 section 4.3.2) */
    NK_NO_DATA = 2,      /* the name has no data of the type (RFC 2308 section 2.2) */
    NK_NAME_ERROR = 3,   /* there is no such name (RFC 2308 section 2.1) */
    NK_REFUSED = 4,      /* REFUSED: the name is in none of the zones */
    NK_FAILED = 5,       /* another code than NOERROR, NXDOMAIN and REFUSED */
    NK_TRUNCATED = 6,    /* truncated, with nothing left of the answer */
    NK_OTHER = 7         /* not the response to a standard query */
};

/* What a query told by a COOKIE option (RFC 7873 section 5.2). */
enum {
    NK_COOKIE_ABSENT = 0,      /* it has none, or there are no secrets */
    NK_COOKIE_MALFORMED = 1,   /* it is malformed, which gets FORMERR */
    NK_COOKIE_UNKNOWN = 2,     /* it has no server cookie, or one that isn't valid, or isn't any more: the client's address may be forged */
    NK_COOKIE_KNOWN = 3        /* it has a valid server cookie, so the client gets what is sent to its address */
};

/* The same as nk_zones_answer, with options in the OPT record of the response, and tells what the response was.
 *
 *  - COOKIE, if the query has one and there are secrets: the client's cookie with a new server cookie (RFC 7873, RFC 9018).
 *  - An extended error (RFC 8914) with REFUSED: 20, Not Authoritative; and with SERVFAIL: 0, Other Error.
 *  - NSID, if the query asks for it and there is an identifier (RFC 5001).
 *
 * A UDP response leaves room for cookie and identifier within its limit; an option that finds none is left out. A query without an OPT record
 * gets the response of nk_zones_answer. `summary` stays as it was with any code but NK_DONE and NK_NO_ROOM.
 *
 * NK_DONE, NK_IGNORED, NK_NO_ROOM, NK_NO_MEMORY, NK_BAD_TRANSPORT or NK_CLOSED. */
uint32_t nk_zones_answer_client(nk_zones *zones, const nk_settings *settings, const nk_message *message, uint8_t *buffer,
                                size_t buffer_length, size_t *written, nk_summary *summary);

/* Reads a file of keys that are shared with other servers (TSIG, RFC 8945), as BIND's tsig-keygen and Knot DNS's keymgr -t print them, or NSD's
 * key: blocks. They replace what is there, which is freed, its secrets wiped; and nobody may have a zone until nk_zones_allow says so. Of keys
 * with one name and algorithm the first counts. The buffer gets the first fault of a file that is refused, such as "3:17: this isn't base64"
 * (line and column, both from 1), followed by a line feed, as much of it as fits; `written` is 0 with any code but NK_BAD_TEXT.
 * NK_DONE, NK_BAD_TEXT or NK_NO_MEMORY; after any code but NK_DONE what was there stays. */
uint32_t nk_zones_keys(nk_access *access, const uint8_t *text, size_t text_length, uint8_t *buffer, size_t buffer_length, size_t *written);

/* Lets those have the zone with this origin (AXFR, IXFR) whose requests are signed with the key of this name; a name without octets: anybody.
 * The zone needn't be there yet. What was allowed stays allowed until keys are read again.
 * NK_DONE, NK_NO_KEY, NK_BAD_NAME (of either), NK_NO_MEMORY or NK_NO_KEYS. */
uint32_t nk_zones_allow(nk_access *access, const uint8_t *origin, size_t origin_length, const uint8_t *key, size_t key_length);

/* Frees the keys, and wipes their secrets. Transfers that began go on. */
void nk_access_free(nk_access *access);

/* Answers a message that has a TSIG, or asks for a transfer (IXFR; AXFR over TCP). Any other gets NK_UNKEYED: call this first, and then
 * nk_zones_answer_client with the same nk_message. The address isn't looked at.
 *
 *  - A TSIG that is malformed gets FORMERR; one that is refused NOTAUTH with BADKEY, BADSIG, BADTIME or BADTRUNC (RFC 8945 section 5.3.2).
 *  - A message that is rightly signed is answered as nk_zones_answer does, and the response is signed.
 *  - A transfer: NOTAUTH if there is no such zone, REFUSED if it doesn't go to the one who asks; the SOA alone if the client is up to date, or
 *    asks over UDP (RFC 1995 section 2). Otherwise NK_TRANSFER: nk_transfer_next hands out the zone whole, as it was at this moment, whatever
 *    is loaded or dropped meanwhile; or what changed, after nk_transfer_steps. The transfer replaces what is there, which is freed.
 *
 * After NK_DONE the response is in the buffer, and `written` has its length, as for nk_zones_answer, and so after NK_NO_ROOM; with any other code
 * `written` is 0. With any code but NK_TRANSFER the transfer is as it was.
 * NK_DONE, NK_TRANSFER, NK_UNKEYED, NK_IGNORED, NK_NO_ROOM, NK_NO_MEMORY, NK_BAD_TRANSPORT, NK_NO_KEYS or NK_CLOSED. */
uint32_t nk_transfer_begin(nk_transfer *transfer, nk_zones *zones, nk_access *access, const nk_message *message, uint8_t *buffer,
                           size_t buffer_length, size_t *written);

/* Hands out the next message of the transfer, signed if the request was: it is in the buffer, and `written` has its length. If a record can't
 * be sent, a message with SERVFAIL is the last one. `now` is the time, in seconds since 1970-01-01 00:00 UTC. A buffer of 65535 octets is
 * enough. After NK_NO_MORE the transfer is freed, and so after NK_NO_ROOM (`written` says how many octets are needed): no message may be left
 * out. With any other code but NK_DONE `written` is 0, and the transfer as it was.
 * NK_DONE, NK_NO_MORE, NK_NO_ROOM, NK_NO_MEMORY or NK_NO_TRANSFER. */
uint32_t nk_transfer_next(nk_transfer *transfer, uint64_t now, uint8_t *buffer, size_t buffer_length, size_t *written);

/* Has what changed go out in place of the whole zone (IXFR, RFC 1995 section 4), as one step (section 5), to the same client, signed as the
 * zone would be. Call it after NK_TRANSFER, before the first nk_transfer_next, with the octets of the message that began the transfer.
 * NK_NO_STEPS, and the zone goes out whole, if it was asked for whole (AXFR); if the changes from the client's serial to that of the version
 * that is sent aren't kept; or if one of their records can't be sent. NK_NO_STEPS too if a message went out already, or what changed goes out.
 * All messages are made at once: it takes memory for them, and nothing of the nk_steps afterwards.
 * NK_DONE, NK_NO_STEPS, NK_NO_MEMORY or NK_NO_TRANSFER; after any code but NK_DONE the transfer is as it was. */
uint32_t nk_transfer_steps(nk_transfer *transfer, nk_steps *steps, const uint8_t *message, size_t message_length);

/* Frees the transfer, if there is one. Afterwards there is none. */
void nk_transfer_free(nk_transfer *transfer);

/* Initializes an nk_steps to which no version of a zone is known; at most `most` records, signatures among them, are kept of what changed in each
 * zone. What was there before is freed once this has succeeded.
 * NK_DONE, or NK_NO_MEMORY, after which what was there stays. */
uint32_t nk_steps_new(nk_steps *steps, uint32_t most);

/* Keeps what changed in the zone with this origin from the version that was noted before to the one that these zones have. Call it for each version
 * that is loaded or updated, from the first on, and again after NK_NO_MEMORY; clients may have the older version meanwhile. It reads both versions
 * once, and copies the RRsets that changed. The oldest changes go where there are too many records; all go where the serial isn't newer than before
 * (RFC 1982). The version that was noted last stays in memory, once, whether or not an nk_zones has it: call it after nk_zones_drop too.
 * NK_DONE; NK_NO_ZONE, and what was noted of this origin is forgotten; NK_BAD_NAME, NK_NO_MEMORY, NK_NO_STEPS or NK_CLOSED, and nothing changes. */
uint32_t nk_steps_note(nk_steps *steps, nk_zones *zones, const uint8_t *origin, size_t origin_length);

/* Keeps what the journal of a zone has of its changes, in place of what is kept of the zone, so that it goes out after a restart too. Call it once the zone
 * is there to which the journal leads (nk_zones_replay), instead of nk_steps_note for that version. Of a journal that leads to a version of another
 * serial, or of which a whole frame has no entry, no changes are kept: the version is noted as the first one. Frames behind the last whole one count
 * for nothing; no octets are the journal of a zone without changes.
 * NK_DONE; NK_NO_ZONE, and what was kept of this origin is forgotten; NK_BAD_NAME, NK_NO_MEMORY, NK_NO_STEPS or NK_CLOSED, and nothing changes. */
uint32_t nk_steps_recall(nk_steps *steps, nk_zones *zones, const uint8_t *origin, size_t origin_length, const uint8_t *journal, size_t journal_length);

/* Frees the nk_steps, if there is one. Afterwards there is none. */
void nk_steps_free(nk_steps *steps);

/* Reads a file of keys by which updates are signed, as nk_zones_keys reads those for transfers. They replace what is there, which is freed, its
 * secrets wiped; and nobody may change anything until nk_updates_rule says so. The buffer and `written` are as for nk_zones_keys.
 * NK_DONE, NK_BAD_TEXT or NK_NO_MEMORY; after any code but NK_DONE what was there stays. */
uint32_t nk_updates_keys(nk_updates *updates, const uint8_t *text, size_t text_length, uint8_t *buffer, size_t buffer_length, size_t *written);

/* Adds a rule to those of its zone, which needn't be there yet. Of the rules of a zone the first one decides that is about the key of an
 * update, a name and a type; what none is about isn't permitted. Rules stay until keys are read again.
 * NK_DONE, NK_NO_KEY, NK_BAD_SCOPE, NK_BAD_NAME (of any of the three), NK_NO_MEMORY or NK_NO_KEYS. */
uint32_t nk_updates_rule(nk_updates *updates, const nk_rule *rule);

/* Frees the keys and rules, and wipes the secrets. */
void nk_updates_free(nk_updates *updates);

/* Carries out an update of one of the zones (RFC 2136), all of it or nothing, and answers it. A message of another kind gets NK_NO_UPDATE: call
 * this first, and then nk_transfer_begin with the same nk_message. Of this only the octets and the moment are looked at.
 *
 *  - A TSIG that is malformed gets FORMERR; one that is refused NOTAUTH with BADKEY, BADSIG, BADTIME or BADTRUNC (RFC 8945 section 5.3.2). The
 *    response to a message that is rightly signed is signed.
 *  - NOTAUTH if there is no zone of the name. SERVFAIL if it has expired. REFUSED without a TSIG; if a change isn't permitted; and if the zone is
 *    signed, with NSEC or NSEC3, or with DNSKEY records at its origin: nk_update_prepare takes updates of those. Otherwise the code is that of
 *    RFC 2136 section 2.2, with SERVFAIL if there isn't enough memory.
 *  - An update that is carried out gets NOERROR. If it changes anything, the zone after it has replaced the one before, its serial is another
 *    (section 3.6), and `changed` is 1. If it changes nothing, or with any other response, no zone has changed, and `changed` is 0; so it is with
 *    any code but NK_DONE.
 *
 * An update that changed a zone is to outlast the process before its response is sent (section 3.5): use nk_update_begin, which has the journal of
 * the zone. If threads answer from copies of the zones, update a copy, and put that in place as after a reload ("Threads", above).
 * nk_zones_prepare and nk_steps_note are to be called again.
 *
 * After NK_DONE the response is in the buffer, and `written` has its length. 512 octets are always enough where a zone changes, and 1232 elsewhere,
 * unless a TSIG is refused whose message names several zones: that response repeats them. After NK_NO_ROOM `written` says how many are needed, and
 * with any other code it is 0. Whoever resends an update that was carried out has it carried out again, as long as the moment is within the fudge
 * of its TSIG, mostly 300 seconds: prerequisites guard against that (section 2.4).
 * NK_DONE, NK_NO_UPDATE, NK_NO_ROOM, NK_NO_MEMORY, NK_NO_KEYS or NK_CLOSED. */
uint32_t nk_zones_update(nk_zones *zones, nk_updates *updates, const nk_message *message, uint8_t *buffer, size_t buffer_length, size_t *written,
                         uint32_t *changed);

/* The same in two calls, with a journal of the zone's own between them: a file that only grows, so that no update is lost that was answered, and none
 * is half there, whenever the process ends.
 *
 *     nk_update_begin(&update, ..)     the response is in the buffer; the frame for the journal of the zone, in the room for it
 *     append the frame to the file, and fsync it                                                    only if `frame_written` isn't 0
 *     nk_update_commit(&update, ..)    the zone after the update has replaced the one before        only then
 *     send the response
 *
 * If `frame_written` is 0, there is no update to commit: it is refused, or changes nothing, and its response can be sent. If the file can't be
 * written, or the commit gives any code but NK_DONE, cut the file off where the frame began, and answer SERVFAIL or begin the message again: no
 * zone has changed. What was begun before in this nk_update is freed first. Its zone is named in the message (RFC 2136 section 2.3).
 *
 * After NK_DONE `written` and `frame_written` have the lengths of both. After NK_NO_ROOM, if either finds no room, they say how many octets are
 * needed; with any other code they are 0. The frame has the RRsets that changed, before and after.
 * NK_DONE, NK_NO_UPDATE, NK_NO_ROOM, NK_NO_MEMORY, NK_NO_KEYS or NK_CLOSED. */
uint32_t nk_update_begin(nk_update *update, nk_zones *zones, nk_updates *updates, const nk_message *message, uint8_t *buffer, size_t buffer_length,
                         size_t *written, uint8_t *frame, size_t frame_length, size_t *frame_written);

/* Puts the zone after the update in place of the one that was updated, if that is still there, which its serial tells. Whatever the code, there is no
 * update then: one that is to be tried again is begun again.
 * NK_DONE; NK_ZONE_CHANGED, NK_NO_PLAN, NK_NO_MEMORY or NK_CLOSED, and no zone changes. */
uint32_t nk_update_commit(nk_update *update, nk_zones *zones);

/* Frees the update that was begun, if there is one. Afterwards there is none. */
void nk_update_free(nk_update *update);

/* Puts the zone that its journal leads to in place of the zone with this origin, which was loaded from its file: that may have been written anew since
 * the journal was begun. Frames behind the last whole one count for nothing. `intact` says how many octets the whole ones have: cut the file of the
 * journal off there before the next frame is appended.
 * NK_DONE, NK_NO_ZONE, NK_NO_ENTRY, NK_MISFIT, NK_BAD_NAME, NK_NO_MEMORY or NK_CLOSED; after any code but NK_DONE the zones are as they were. */
uint32_t nk_zones_replay(nk_zones *zones, const uint8_t *origin, size_t origin_length, const uint8_t *journal, size_t journal_length, size_t *intact);

/* Writes the NOTIFY that tells a secondary of the zone with this origin that it has changed (RFC 1996 section 3), to be sent to the secondary by
 * UDP. It is at the beginning of the buffer, and `written` has its length, at most 271 octets; after NK_NO_ROOM `written` says how many octets are
 * needed, and with any other code but NK_DONE it is 0. The lowest 16 bits of `id` are its identifier, which nobody should be able to guess. It
 * is sent again until a response comes: RFC 1996 section 3.6 recommends every 60 seconds, five times.
 * NK_DONE, NK_BAD_NAME, NK_NO_ROOM or NK_NO_MEMORY. */
uint32_t nk_notify_write(uint32_t id, const uint8_t *origin, size_t origin_length, uint8_t *buffer, size_t buffer_length, size_t *written);

/* Reads the response to a NOTIFY: its identifier, and the lowest four bits of its response code, which are 0 if the NOTIFY was taken. If the
 * message is no such response, the code is NK_IGNORED, and both numbers stay as they were. Whether it comes from the secondary is the caller's
 * to see (RFC 1996 section 4.8).
 * NK_DONE or NK_IGNORED. */
uint32_t nk_notify_read(const uint8_t *message, size_t message_length, uint32_t *id, uint32_t *code);

/* Plans the zone with this origin, to be signed by keys that the library never sees: what the zone will have but for the signatures. It gets
 * the DNSKEY records of these keys, NSEC or NSEC3 records and the next serial (RFC 4035 section 2). Signatures, denials and DNSKEY records
 * that it has are left out, so a signed zone can be signed again. The plan replaces what is there, which is freed. No zone changes.
 *
 *   keys       the data of a DNSKEY record for each key (RFC 4034 section 2.1), each preceded by its length in two octets, the high one first.
 *              A key with the SEP flag (257) signs DNSKEY, CDS and CDNSKEY, one without it (256) everything else, and a key both where its
 *              algorithm has none of the other kind (RFC 6781 section 3.1).
 *   how        see nk_signing. The moments may be less than 2^31 seconds apart.
 *   salt       of NSEC3, at most 255 octets. RFC 9276 section 3.1 recommends none.
 *
 * NK_DONE, NK_BAD_NAME, NK_NO_ZONE, NK_BAD_KEYS, NK_MISSING_KEYS, NK_BAD_MOMENTS, NK_BAD_DENIAL, NK_BAD_ZONE, NK_LONG_NAMES, NK_NO_MEMORY or
 * NK_CLOSED; after any code but NK_DONE the plan is as it was. */
uint32_t nk_plan_begin(nk_plan *plan, nk_zones *zones, const uint8_t *origin, size_t origin_length, const uint8_t *keys, size_t keys_length,
                       const nk_signing *how, const uint8_t *salt, size_t salt_length);

/* Hands out what is to be signed next (RFC 4034 section 3.1.8.1): the octets are at the beginning of the buffer, `written` has their number,
 * and `number` that of the key, from 0, in the order in which nk_plan_begin had them. Each signature is asked for once, in the order of the
 * names. After NK_NO_ROOM `written` says how many octets are needed, and the same is handed out again; with any other code but NK_DONE it is
 * 0. With any code but NK_DONE `number` and the buffer are as they were.
 * NK_DONE, NK_NO_MORE, NK_NO_ROOM or NK_NO_PLAN. */
uint32_t nk_plan_next(nk_plan *plan, uint32_t *number, uint8_t *buffer, size_t buffer_length, size_t *written);

/* Takes the next signature, as a RRSIG record has it (for ECDSA r and s, RFC 6605 section 4). The signatures come in the order in which they
 * were asked for; any number may be asked for before. Whether they are right isn't checked: that takes the keys' cryptography.
 * NK_DONE, NK_NO_MEMORY or NK_NO_PLAN. */
uint32_t nk_plan_sign(nk_plan *plan, const uint8_t *signature, size_t signature_length);

/* Puts the signed zone in place of the one that was planned, and frees the plan. If threads answer from copies of the zones, do this to a copy
 * and hand that out, as for a reload ("Threads", above).
 * NK_DONE, NK_TOO_FEW, NK_TOO_MANY, NK_BAD_SIGNATURE, NK_NO_ZONE, NK_ZONE_CHANGED, NK_NO_MEMORY, NK_NO_PLAN or NK_CLOSED, and NK_BAD_ZONE as from
 * nk_update_sign; after any code but NK_DONE the zones and the plan are as they were, but for plans that nk_update_sign may free. */
uint32_t nk_plan_finish(nk_plan *plan, nk_zones *zones);

/* Frees the plan, if there is one. Afterwards there is none. */
void nk_plan_free(nk_plan *plan);

/* The same as nk_update_begin, but an update of the signed zone that `zone` names isn't refused: its denials are made anew, and what changed is signed
 * by keys that the library never sees, as the zone of a plan is.
 *
 *     nk_update_prepare(&update, &plan, ..)    the response is in the buffer
 *     while (nk_plan_next(&plan, ..) == NK_DONE) sign the octets, nk_plan_sign(&plan, ..)           none where there is nothing to sign
 *     nk_update_sign(&update, &plan, ..)       the frame for the journal is in the room for it      NK_NO_PLAN: there was nothing to sign
 *     append the frame to the file, and fsync it                                                    only if `frame_written` isn't 0
 *     nk_update_commit(&update, ..)            the zone after the update has replaced the one before        only then
 *     send the response
 *
 * `keys`, `salt` and `how` are as for nk_plan_begin: the zone after the update has the DNSKEY records of these keys, these denials and the next
 * serial. Signatures of the zone stay that are made of the same octets and hold from `held_from` until `held_until`; the others are asked for, that
 * of the SOA always. If the zone after the update can't be signed so, the response is SERVFAIL, and there is nothing to sign. Where a call but the
 * first gives a code that isn't named here, or the file can't be written, no zone has changed: answer SERVFAIL, or prepare the message again.
 * Where no journals are kept, nk_plan_finish may stand for the last two calls.
 *
 * With NSEC this call and nk_update_sign take time by what the update changes, whatever else the zone has. But the first one copies the zone, as does
 * one after an update that was prepared and given up, or while a copy (nk_zones_copy) has the version before. The plan has what changes alone, and
 * signatures of other sets stay, whenever they end and whichever key made them: nk_plan_begin signs the zone anew. Both take time by the size of the
 * zone with NSEC3; where the zone isn't signed so yet, by these keys and with NSEC; where the keys at its origin change, or the TTL of denials; and
 * for a new DNAME, or what is below one. The update after such a one copies the zone.
 *
 * What was begun before in this nk_update and this nk_plan is freed first. After NK_DONE `frame_written` is 0 where there is something to sign.
 * The codes are those of nk_update_begin, and NK_BAD_NAME, NK_BAD_KEYS, NK_BAD_DENIAL for what `zone` or `how` has, NK_BAD_ZONE for records that can't
 * be written as octets to sign. After any code but NK_DONE nothing is begun, and both lengths are 0, but after NK_NO_ROOM those that are needed. */
uint32_t nk_update_prepare(nk_update *update, nk_plan *plan, nk_zones *zones, nk_updates *updates, const nk_message *message,
                           const nk_signed_zone *zone, const nk_signing *how, uint8_t *buffer, size_t buffer_length, size_t *written,
                           uint8_t *frame, size_t frame_length, size_t *frame_written);

/* Makes the zone of a plan, with the signatures that were given, the zone after an update, which nk_update_commit puts in place, and writes the frame
 * for the zone's journal into the room for it: `frame_written` has its length. What was begun in this nk_update, and the plan, are freed. No zone
 * changes. NK_NO_ZONE or NK_ZONE_CHANGED if the zone that was updated isn't there any more, which its serial tells.
 * After NK_NO_PLAN everything is as it was: the update of a zone that isn't signed is there to be committed, and its frame is in the room. After any
 * other code but NK_DONE no update is begun, and the plan is as it was, but after NK_NO_MEMORY and NK_BAD_ZONE it may be freed: prepare the message
 * again. After NK_NO_ROOM `frame_written` says how many octets are needed, and else it is 0.
 * NK_DONE, NK_NO_PLAN, NK_TOO_FEW, NK_TOO_MANY, NK_BAD_SIGNATURE, NK_NO_ZONE, NK_ZONE_CHANGED, NK_BAD_ZONE, NK_NO_ROOM, NK_NO_MEMORY or NK_CLOSED. */
uint32_t nk_update_sign(nk_update *update, nk_plan *plan, nk_zones *zones, uint8_t *frame, size_t frame_length, size_t *frame_written);

/* Keeps the text of the file with this name, copied, in place of what is kept of it. The first call makes an nk_files that has none.
 * NK_DONE, NK_BAD_FILE_NAME or NK_NO_MEMORY; after any code but NK_DONE what is kept is as it was. */
uint32_t nk_files_put(nk_files *files, const uint8_t *name, size_t name_length, const uint8_t *text, size_t text_length);

/* Keeps that the file with this name can't be read, in place of what is kept of it: an $INCLUDE of it is a fault, which says why: by
 * NK_LACKS_FILE and so on; any other number is another reason. The codes are those of nk_files_put. */
uint32_t nk_files_lack(nk_files *files, const uint8_t *name, size_t name_length, uint32_t why);

/* Hands out the next name of those that nk_zones_load_files wants: it is at the beginning of the buffer, and `written` has its length. Each is
 * handed out once. After NK_NO_ROOM `written` says how many octets are needed, and the same is handed out again; with NK_NO_FILE it is 0.
 * NK_DONE, NK_NO_ROOM or NK_NO_FILE. */
uint32_t nk_files_next(nk_files *files, uint8_t *buffer, size_t buffer_length, size_t *written);

/* Frees the texts, if there are any. Afterwards there are none. */
void nk_files_free(nk_files *files);

/* As nk_zones_load, of a file that may include others ($INCLUDE) and may have $GENERATE. `file` is its name: before what is told about it, and
 * where the names begin of those that it includes, which are relative to the folder of the file in which they stand ("." and ".." are
 * resolved by the names alone). With NK_WANTS_FILES nothing changed: hand out the names of the files that are wanted (nk_files_next), put the
 * text of each, or say that it can't be read, and make the same call again, at most ten times in all, since files are included at most nine
 * within one another. One nk_files may serve several zones; a file that changes is put again.
 * The buffer gets the warnings, or after NK_BAD_TEXT the first 20 faults, as nk_zones_load tells them, each with the name of its file and by
 * which entries that is included; `written` is 0 with any other code. What is kept of files stays.
 * NK_DONE, NK_WANTS_FILES, NK_BAD_TEXT, NK_BAD_NAME, NK_BAD_FILE_NAME, NK_NO_MEMORY or NK_CLOSED. */
uint32_t nk_zones_load_files(nk_zones *zones, nk_files *files, const uint8_t *origin, size_t origin_length, const uint8_t *file,
                             size_t file_length, const uint8_t *text, size_t text_length, uint8_t *buffer, size_t buffer_length,
                             size_t *written);

/* Writes the zone with this origin as a zone file into the buffer: the SOA first, then all other sets in canonical order, each followed by its
 * signatures; names are absolute. So what updates made of a zone is kept: once the file is on the disk, its journal can begin anew. `written`
 * has the length; after NK_NO_ROOM it says how many octets are needed, and the buffer is as it was; with any other code it is 0. A zone that has
 * expired has no records.
 * NK_DONE, NK_NO_ROOM, NK_NO_ZONE, NK_BAD_NAME, NK_NO_MEMORY or NK_CLOSED. */
uint32_t nk_zones_write(nk_zones *zones, const uint8_t *origin, size_t origin_length, uint8_t *buffer, size_t buffer_length, size_t *written);

#ifdef __cplusplus
}
#endif
#endif
