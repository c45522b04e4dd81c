/* Reads the configuration file. */
#include "config.h"

enum { TYPES = 24, WORDS = 6 + TYPES };   /* of a line `update`, at most; of any */
#define BLANKS " \t\r\n"
#define PLAIN "abcdefghijklmnopqrstuvwxyzABCDEFGHIJKLMNOPQRSTUVWXYZ0123456789-_."

static const char *file_path;      /* what is read, and which line of it: the place of a fault */
static unsigned line_number;

#define fault(...) (fprintf(stderr, "%s:%u: ", file_path, line_number), fprintf(stderr, __VA_ARGS__), fputc('\n', stderr), -1)

/* Cuts a line into words, which blanks separate; a word in double quotes may have blanks. What follows # is a comment. Returns how many
 * there are, WORDS + 1 where there are more than WORDS, or -1 where a quote isn't closed. */
static int cut(char *line, char *words[WORDS]) {
    int count = 0;
    for (char *at = line + strspn(line, BLANKS); *at && *at != '#'; at += strspn(at, BLANKS)) {
        if (count == WORDS) return WORDS + 1;
        int is_quoted = *at == '"';
        words[count++] = at += is_quoted;
        at += strcspn(at, is_quoted ? "\"" : BLANKS "#");
        if (is_quoted && *at != '"') return -1;
        int is_comment = *at == '#';
        if (*at) *at++ = 0;
        if (is_comment) break;
    }
    return count;
}

/* One more element at the end of an array, or NULL. */
static void *one_more(void *array, size_t *count, size_t size) {
    void **start = array;
    char *grown = realloc(*start, (*count + 1) * size);
    if (!grown) return NULL;
    *start = grown;
    return memset(grown + (*count)++ * size, 0, size);
}

static int set_text(char **to, const char *word) {
    free(*to);
    return (*to = strdup(word)) ? 0 : fault("out of memory");
}

static int set_number(unsigned *to, const char *word, unsigned least, unsigned most) {
    char *end;
    errno = 0;
    unsigned long value = strtoul(word, &end, 10);
    if (*word < '0' || *word > '9' || *end || errno || value < least || value > most)
        return fault("'%s' isn't a number from %u to %u", word, least, most);
    *to = value;
    return 0;
}

static int set_switch(unsigned *to, const char *word) {
    *to = !strcmp(word, "on");
    return *to || !strcmp(word, "off") ? 0 : fault("'%s' is neither on nor off", word);
}

static int add_address(struct config *config, const char *host, const char *port_word) {
    unsigned port = 53;
    if (port_word && set_number(&port, port_word, 1, 65535)) return -1;
    struct address *address = one_more(&config->listen, &config->listen_count, sizeof *address);
    if (!address) return fault("out of memory");
    struct sockaddr_in *v4 = (void *)&address->socket;
    struct sockaddr_in6 *v6 = (void *)&address->socket;
    int is_v4 = inet_pton(AF_INET, host, &v4->sin_addr) == 1;
    if (!is_v4 && inet_pton(AF_INET6, host, &v6->sin6_addr) != 1) return fault("'%s' isn't an IPv4 or IPv6 address", host);
    address->socket.ss_family = is_v4 ? AF_INET : AF_INET6;
    *(is_v4 ? &v4->sin_port : &v6->sin6_port) = htons(port);
    address->length = is_v4 ? sizeof *v4 : sizeof *v6;
    snprintf(address->text, sizeof address->text, "%.46s port %u", host, port);
    return 0;
}

/* The number of a type that has this mnemonic, or is written as TYPE65280 (RFC 3597 section 5). 0: it isn't known. */
static uint16_t type_of(const char *word) {
    static const struct { const char *name; uint16_t number; } types[] = {
        {"A", 1}, {"NS", 2}, {"CNAME", 5}, {"SOA", 6}, {"PTR", 12}, {"MX", 15}, {"TXT", 16}, {"AAAA", 28}, {"LOC", 29}, {"SRV", 33}, {"NAPTR", 35}, {"DNAME", 39}, {"DS", 43}, {"SSHFP", 44},
        {"DHCID", 49}, {"TLSA", 52}, {"SMIMEA", 53}, {"OPENPGPKEY", 61}, {"SVCB", 64}, {"HTTPS", 65}, {"ANY", 255}, {"URI", 256}, {"CAA", 257}};
    for (size_t i = 0; i < sizeof types / sizeof *types; i++)
        if (!strcasecmp(word, types[i].name)) return types[i].number;
    return strncasecmp(word, "TYPE", 4) || strlen(word) > 9 || strspn(word + 4, "0123456789") != strlen(word + 4) || atoi(word + 4) > 65535 ? 0 : atoi(word + 4);
}

/* Takes ORIGIN grant|deny KEY name|subdomain NAME [TYPE..], or ORIGIN grant|deny KEY self|selfsub [TYPE..]. */
static int add_rule(struct config *config, char **words, int count) {
    static const char *const scopes[] = {"name", "subdomain", "self", "selfsub"};   /* NK_NAME to NK_OWN_SUBDOMAIN */
    uint32_t scope = 0, denies = !strcmp(words[1], "deny");
    while (scope <= NK_OWN_SUBDOMAIN && strcmp(scopes[scope], words[3])) scope++;
    int next = scope <= NK_SUBDOMAIN ? 5 : 4;
    if (!denies && strcmp(words[1], "grant")) return fault("'%s' is neither grant nor deny", words[1]);
    if (scope > NK_OWN_SUBDOMAIN) return fault("'%s' is none of name, subdomain, self and selfsub", words[3]);
    if (count < next) return fault("update needs a value more");
    if (strspn(words[0], PLAIN) != strlen(words[0])) return fault("'%s' can't be the name of a journal: an origin of letters, digits, - and _ can", words[0]);
    if (count - next > TYPES) return fault("update has a value too many");
    nk_rule *rule = one_more(&config->rules, &config->rule_count, sizeof *rule);
    uint16_t *types = calloc(TYPES, sizeof *types);
    char *origin = strdup(words[0]), *key = strdup(words[2]), *name = strdup(next == 5 ? words[4] : ".");
    if (!rule || !types || !origin || !key || !name) return fault("out of memory");
    lower(origin);
    *rule = (nk_rule){OCTETS(origin), OCTETS(key), OCTETS(name), types, count - next, scope, denies};
    for (int i = 0; next < count; i++, next++)
        if (!(types[i] = type_of(words[next]))) return fault("'%s' isn't a type of records", words[next]);
    return 0;
}

static int add_pair(struct pairs *to, const char *name, const char *of) {
    struct pair *pair = one_more(&to->list, &to->count, sizeof *pair);
    return pair && (pair->name = strdup(name)) && (pair->of = strdup(of)) ? 0 : fault("out of memory");
}

/* Takes the hexadecimal digits of a secret. */
static int add_secret(struct config *config, const char *word) {
    uint8_t *to = config->secrets + config->settings.secrets_length;
    for (int i = 0; i < SECRET; i++)
        if (strspn(word, "0123456789abcdefABCDEF") != 2 * SECRET || word[2 * SECRET] || sscanf(word + 2 * i, "%2hhx", &to[i]) != 1)
            return fault("a secret has %d hexadecimal digits", 2 * SECRET);
    config->settings.secrets_length += SECRET;
    return 0;
}

#define AT(member) offsetof(struct config, member)
static const struct directive {
    const char *name;
    int least, most;          /* values */
    enum { LISTEN, PAIR, RULE, TEXT, NUMBER, SWITCH, QUERY_LOG, PREFIXES, SECRETS } way;
    size_t to;
    unsigned from, until;     /* of a number */
} directives[] = {
    {"listen", 1, 2, LISTEN, 0, 0, 0}, {"zone", 2, 2, PAIR, AT(zones), 0, 0}, {"zones", 1, 1, PAIR, AT(folders), 0, 0},
    {"keys", 1, 1, TEXT, AT(keys), 0, 0}, {"transfer", 1, 2, PAIR, AT(transfers), 0, 0},
    {"update", 4, WORDS - 1, RULE, 0, 0, 0}, {"journals", 1, 1, TEXT, AT(journals), 0, 0},
    {"user", 1, 1, TEXT, AT(user), 0, 0}, {"chroot", 1, 1, TEXT, AT(chroot), 0, 0}, {"control", 1, 1, TEXT, AT(control), 0, 0},
    {"log", 1, 1, TEXT, AT(log), 0, 0}, {"nsid", 1, 1, TEXT, AT(nsid), 0, 0}, {"query-log", 2, 2, QUERY_LOG, 0, 0, 0},
    {"watch", 1, 1, SWITCH, AT(watch), 0, 0}, {"ready-answers", 1, 1, SWITCH, AT(ready_answers), 0, 0},
    {"workers", 1, 1, NUMBER, AT(workers), 0, 256}, {"udp-size", 1, 1, NUMBER, AT(udp_size), 512, 1232},
    {"tcp-connections", 1, 1, NUMBER, AT(tcp_connections), 1, 1000000},
    {"tcp-client-connections", 1, 1, NUMBER, AT(tcp_client_connections), 1, 1000000}, {"tcp-idle", 1, 1, NUMBER, AT(tcp_idle), 1, 3600},
    {"rate-limit", 1, 1, NUMBER, AT(rate_limit), 0, 60000}, {"rate-slip", 1, 1, NUMBER, AT(rate_slip), 0, 1000},
    {"rate-prefixes", 2, 2, PREFIXES, 0, 0, 0}, {"cookies", 1, 1, SWITCH, AT(has_cookies), 0, 0},
    {"cookies-required", 1, 1, SWITCH, AT(settings.cookies_required), 0, 0}, {"cookie-secret", 1, 2, SECRETS, 0, 0, 0}};

/* Takes a directive with its values. */
static int take(struct config *config, char **words, int count) {
    const struct directive *it = directives, *end = it + sizeof directives / sizeof *it;
    const char *value = words[1], *second = count > 2 ? words[2] : NULL;
    while (it < end && strcmp(it->name, words[0])) it++;
    if (it == end) return fault("'%s' isn't a directive", words[0]);
    if (count - 1 < it->least) return fault("%s needs a value more", it->name);
    if (count - 1 > it->most) return fault("%s has a value too many", it->name);
    void *to = (char *)config + it->to;
    switch (it->way) {
    case LISTEN: return add_address(config, value, second);
    case PAIR: return add_pair(to, value, second ? second : "");
    case RULE: return add_rule(config, words + 1, count - 1);
    case TEXT: return set_text(to, value);
    case NUMBER: return set_number(to, value, it->from, it->until);
    case SWITCH: return set_switch(to, value);
    case QUERY_LOG: return set_text(&config->query_log, value) || set_number(&config->query_log_every, second, 1, 1000000000) ? -1 : 0;
    case PREFIXES: return set_number(&config->rate_prefix_v4, value, 1, 32) || set_number(&config->rate_prefix_v6, second, 1, 64) ? -1 : 0;
    case SECRETS: config->settings.secrets_length = 0; return add_secret(config, value) || (second && add_secret(config, second)) ? -1 : 0;
    }
    return -1;
}

uint8_t *octets_of(const char *path, struct stat *read_as) {
    *read_as = (struct stat){0};
    int fd = open(path, O_RDONLY | O_NONBLOCK | O_CLOEXEC), is_there = fd >= 0 && !fstat(fd, read_as), is_file = S_ISREG(read_as->st_mode);
    uint8_t *octets = is_file ? malloc(read_as->st_size + 1) : NULL;
    ssize_t have = 0, more = 0;
    while (octets && (more = read(fd, octets + have, read_as->st_size - have)) > 0) have += more;
    if (is_there && !is_file) errno = S_ISDIR(read_as->st_mode) ? EISDIR : ESPIPE;
    if (fd >= 0) close(fd);
    if (more < 0) free(octets), octets = NULL;
    if (!octets) *read_as = (struct stat){0};
    else octets[read_as->st_size = have] = 0;
    return octets;
}

void lower(char *origin) {
    size_t length = strlen(origin);
    for (char *at = origin; *at; at++) *at = tolower((unsigned char)*at);
    if (length > 1 && origin[length - 1] == '.' && origin[length - 2] != '\\') origin[length - 1] = 0;
}

/* Prints why a line isn't taken, if it isn't. Tells whether it is. */
static int is_taken(uint32_t code, const char *directive, const char *origin, const char *key) {
    const char *why = code == NK_NO_KEY ? "there is no such key" : code == NK_BAD_NAME ? "one of its names isn't a domain name" : "out of memory";
    if (code != NK_DONE) fprintf(stderr, "%s %s %s: %s\n", directive, origin, key, why);
    return code == NK_DONE;
}

int config_access(const struct config *config, nk_access *access, nk_updates *updates) {
    char told[256];
    size_t written = 0;
    const uint8_t *text = config->keys_text ? config->keys_text : (const uint8_t *)"";
    if (!config->keys_text && !config->transfers.count && !config->rule_count) return 0;
    uint32_t code = nk_zones_keys(access, text, config->keys_length, (uint8_t *)told, sizeof told, &written);
    if (code == NK_DONE) code = nk_updates_keys(updates, text, config->keys_length, (uint8_t *)told, sizeof told, &written);
    if (code != NK_DONE) fprintf(stderr, "%s:%.*s", config->keys ? config->keys : "", (int)written, code == NK_BAD_TEXT ? told : "out of memory\n");
    int is_good = code == NK_DONE;
    for (size_t i = 0; i < config->transfers.count && is_good; i++) {
        const struct pair *it = &config->transfers.list[i];
        is_good = is_taken(nk_zones_allow(access, OCTETS(it->name), OCTETS(it->of)), "transfer", it->name, it->of);
    }
    for (size_t i = 0; i < config->rule_count && is_good; i++) {
        const nk_rule *it = &config->rules[i];
        is_good = is_taken(nk_updates_rule(updates, it), "update", (const char *)it->origin, (const char *)it->key);
    }
    return is_good ? 0 : -1;
}

int config_read(struct config *config, const char *path) {
    *config = (struct config){.udp_size = 1232, .tcp_connections = 1000, .tcp_client_connections = 100, .tcp_idle = 10, .rate_slip = 2,
                              .rate_prefix_v4 = 24, .rate_prefix_v6 = 56, .watch = 1, .ready_answers = 1, .has_cookies = 1};
    nk_settings *settings = &config->settings;
    struct stat found;
    char *text = (char *)octets_of(path, &found), *rest = text, *words[WORDS];
    if (!text) return fprintf(stderr, "%s: %s\n", path, strerror(errno)), -1;
    file_path = path;
    int is_bad = 0;
    while (!is_bad && rest && *rest) {
        line_number++;
        int count = cut(strsep(&rest, "\n"), words);
        is_bad = count < 0 ? fault("a quote isn't closed") : count ? take(config, words, count) : 0;
    }
    free(text);
    line_number += !line_number;
    if (!is_bad && !config->zones.count && !config->folders.count) is_bad = fault("there is neither a zone nor a folder of zones");
    if (!is_bad && config->rule_count && !config->journals) is_bad = fault("updates need journals: there is no folder of them");
    nk_access access = NK_ACCESS_NONE;
    nk_updates updates = NK_UPDATES_NONE;
    found.st_size = 0;
    if (!is_bad && config->keys && !(config->keys_text = octets_of(config->keys, &found))) is_bad = fault("%s: %s", config->keys, strerror(errno));
    config->keys_length = found.st_size;
    if (!is_bad) is_bad = config_access(config, &access, &updates);   /* so that a fault is told at the start */
    nk_access_free(&access);
    nk_updates_free(&updates);
    settings->secrets = config->secrets;
    if (!config->has_cookies) settings->secrets_length = 0;
    else if (!settings->secrets_length) settings->secrets_length = getrandom(config->secrets, SECRET, 0) == SECRET ? SECRET : 0;   /* one for this run */
    settings->nsid = (const uint8_t *)(config->nsid ? config->nsid : "");
    settings->nsid_length = strlen((const char *)settings->nsid);
    return is_bad;
}

void config_free(struct config *config) {
    struct pairs *pairs[] = {&config->zones, &config->transfers, &config->folders};
    for (size_t k = 0; k < sizeof pairs / sizeof *pairs; free(pairs[k++]->list))
        for (size_t i = pairs[k]->count; i--; free(pairs[k]->list[i].of)) free(pairs[k]->list[i].name);
    char *texts[] = {config->user, config->chroot, config->control, config->log, config->query_log, config->nsid, config->keys, config->journals};
    for (size_t i = 0; i < sizeof texts / sizeof *texts; i++) free(texts[i]);
    if (config->keys_text) explicit_bzero(config->keys_text, config->keys_length);
    free(config->keys_text);
    for (const nk_rule *it = config->rules; it < config->rules + config->rule_count; it++)
        for (int i = 0; i < 4; i++) free((void *)(const void *[]){it->origin, it->key, it->name, it->types}[i]);
    free(config->rules);
    free(config->listen);
    *config = (struct config){0};
}
