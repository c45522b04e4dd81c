/* The configuration of ningkraetd: one file, a directive on each line. */
#pragma once

/* what all files use of the system and of the library */
#include <arpa/inet.h>
#include <ctype.h>
#include <errno.h>
#include <fcntl.h>
#include <netinet/in.h>
#include <ningkraet.h>
#include <pthread.h>
#include <stdarg.h>
#include <stdatomic.h>
#include <stddef.h>
#include <stdint.h>
#include <stdio.h>
#include <stdlib.h>
#include <string.h>
#include <sys/epoll.h>
#include <sys/random.h>
#include <sys/socket.h>
#include <sys/stat.h>
#include <sys/un.h>
#include <time.h>
#include <unistd.h>

enum { SECRET = 16 };              /* octets of a secret */

struct address {
    struct sockaddr_storage socket;
    socklen_t length;
    char text[64];                 /* as "192.0.2.1 port 53" */
};

/* The values of lines: the origin of a zone and its file, or the name of the key that it is sent under ("" sends it to anybody); or a folder. */
struct pairs {
    struct pair { char *name, *of; } *list;
    size_t count;
};

/* The octets of a text, and how many they are, as the library takes them. */
#define OCTETS(text) (const uint8_t *)(text), strlen(text)

struct config {
    struct address *listen;        /* the addresses at which queries are answered, by UDP and TCP */
    struct pairs zones, transfers, folders;   /* (each file NAME.zone of a folder is the zone NAME) */
    nk_rule *rules;                /* who may change what */
    size_t listen_count, keys_length, rule_count;
    char *user, *chroot, *control, *log, *query_log, *nsid, *keys, *journals;   /* NULL where there is none */
    uint8_t *keys_text;            /* the octets of the file of keys, NULL without one */
    unsigned workers, udp_size;    /* threads that answer, 0: one for each processor; octets of a response by UDP, at most */
    unsigned tcp_connections, tcp_client_connections, tcp_idle;   /* in all, of one client, seconds */
    unsigned rate_limit, rate_slip, rate_prefix_v4, rate_prefix_v6;   /* responses a second, one in so many cut, bits */
    unsigned query_log_every;      /* one query in so many is logged */
    unsigned watch, ready_answers, has_cookies;   /* whether zones are read again when their files change, answers are kept as octets, cookies are answered */
    uint8_t secrets[2 * SECRET];   /* those for cookies: the current one, and the one before it if there is one */
    nk_settings settings;          /* what the library answers by options */
};

/* Reads a configuration. Returns 0, or -1 once the first fault is printed on standard error, with its file and line. In both cases config_free frees it. */
int config_read(struct config *config, const char *path);
void config_free(struct config *config);
/* Makes the keys, with who may have zones and who may change them, where a configuration has any. Returns 0, or -1 once it is printed why not. */
int config_access(const struct config *config, nk_access *access, nk_updates *updates);
/* Turns an origin into lower case, without its final dot: so origins are compared here. */
void lower(char *origin);
/* The octets of a file, of which `read_as` tells how many there are, and a 0 behind them; or NULL with errno, and `read_as` all 0. What is no
 * file is refused: a folder by EISDIR, a pipe or a device by ESPIPE. */
uint8_t *octets_of(const char *path, struct stat *read_as);
