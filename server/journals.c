/* Keeps journals. */
#include <sys/file.h>

#include "log.h"
#include "zones.h"

static struct journal *journals;   /* by origin */
static size_t journal_count;
static const char *folder;
static int folder_fd = -1;

static int by_origin(const void *one, const void *other) { return strcmp(((const struct journal *)one)->origin, ((const struct journal *)other)->origin); }

struct journal *journal_of(const char *origin) {
    return journal_count ? bsearch(&(struct journal){.origin = origin}, journals, journal_count, sizeof *journals, by_origin) : NULL;
}

int journals_begin(const struct config *config) {
    if (!config->rule_count) return 0;
    folder = config->journals;
    folder_fd = open(folder, O_RDONLY | O_DIRECTORY | O_CLOEXEC);
    if (folder_fd < 0 || flock(folder_fd, LOCK_EX | LOCK_NB)) return log_line("%s: %s", folder, errno == EWOULDBLOCK ? "another server has its journals there" : strerror(errno));
    if (!(journals = calloc(config->rule_count, sizeof *journals))) return log_line("out of memory");
    for (size_t i = 0; i < config->rule_count; i++) {
        const char *origin = (const char *)config->rules[i].origin;
        if (journal_of(origin)) continue;
        journals[journal_count++].origin = origin;
        qsort(journals, journal_count, sizeof *journals, by_origin);
    }
    return 0;
}

void journals_free(void) { free(journals); }

/* The path of a journal, or of what is put aside of it, until the next call of this thread. */
static const char *path_of(const struct journal *journal, int is_aside) {
    static _Thread_local char paths[2][4096];
    snprintf(paths[is_aside], sizeof paths[0], "%s/%s.journal%s", folder, journal->origin, is_aside ? ".old" : "");
    return paths[is_aside];
}

int journal_is_readable(const struct journal *journal) { return !access(path_of(journal, 0), R_OK) || errno == ENOENT; }

static int write_all(int fd, const uint8_t *octets, size_t length) {
    for (ssize_t more; length && (more = write(fd, octets, length)) > 0; length -= more) octets += more;
    return length ? -1 : 0;
}

/* Has a journal end behind its last whole frame, so that what is appended is found. */
static void cut(struct journal *journal, int fd, off_t length) {
    if ((journal->is_closed = fd < 0 || ftruncate(fd, length) || fdatasync(fd)))
        log_line("%s: its journal can't be cut to %lld octets: %s; no update is taken until the next start", journal->origin, (long long)length, strerror(errno));
}

int write_file(const char *path, const uint8_t *octets, size_t length, mode_t mode) {
    int fd = open(path, O_WRONLY | O_CREAT | O_TRUNC | O_CLOEXEC, mode), is_bad = fd < 0 || write_all(fd, octets, length) || fsync(fd);
    int why = errno;   /* which the caller may tell */
    if (is_bad) log_line("%s: %s", path, strerror(why));
    if (fd >= 0) close(fd);
    errno = why;
    return is_bad ? -1 : 0;
}

/* The same at the start, once all of it is put aside. */
static void cut_torn(struct journal *journal, const uint8_t *octets, size_t length, size_t intact) {
    int fd = open(path_of(journal, 0), O_WRONLY | O_CLOEXEC);
    log_line("%s: the last %zu octets of its journal are no whole update, and are cut off; %s has all", journal->origin, length - intact, path_of(journal, 1));
    write_file(path_of(journal, 1), octets, length, 0600);
    cut(journal, fd, intact);
    if (fd >= 0) close(fd);
}

uint32_t journal_replay(struct journal *journal, nk_zones *zones, nk_steps *steps) {
    const char *path = path_of(journal, 0), *aside = path_of(journal, 1);
    struct stat found;
    size_t intact = 0;
    uint32_t before = 0, after = 0;
    uint8_t *octets = octets_of(path, &found), none[1] = {0};
    if (!octets && errno != ENOENT) return log_line("%s: %s", path, strerror(errno)), NK_NO_MEMORY;
    nk_zones_serial(zones, OCTETS(journal->origin), &before);
    uint32_t code = nk_zones_replay(zones, OCTETS(journal->origin), octets ? octets : none, found.st_size, &intact);
    nk_zones_serial(zones, OCTETS(journal->origin), &after);
    const char *why = code == NK_NO_ENTRY ? "isn't a journal" : code == NK_MISFIT ? "doesn't fit its zone file" : code == NK_DONE && intact && before == after ? "has nothing that its zone file lacks" : NULL;
    if (why) sync();   /* the zone file may be new, and outlasts the journal then */
    if (why && !rename(path, aside)) log_line("%s: its journal %s, and is put aside as %s", journal->origin, why, aside), code = NK_DONE;
    else if (code == NK_MISFIT || code == NK_NO_ENTRY) log_line("%s: %s, and can't be put aside: %s", path, why, strerror(errno)), code = NK_NO_MEMORY;
    else if (code == NK_DONE && intact < (size_t)found.st_size) cut_torn(journal, octets, found.st_size, intact);
    if (!journal->is_recalled && code == NK_DONE && nk_steps_recall(steps, zones, OCTETS(journal->origin), octets ? octets : none, intact) == NK_DONE) journal->is_recalled = 1;
    free(octets);
    return code;
}

int journal_append(struct journal *journal, const uint8_t *frame, size_t length) {
    struct stat before;
    int fd = open(path_of(journal, 0), O_WRONLY | O_APPEND | O_CREAT | O_CLOEXEC, 0600), is_open = fd >= 0 && !fstat(fd, &before) && !journal->is_closed;
    int is_bad = !is_open || write_all(fd, frame, length) || fdatasync(fd) || (!before.st_size && fsync(folder_fd));
    if (is_bad) log_line("%s: an update isn't taken: %s", path_of(journal, 0), journal->is_closed ? "the journal couldn't be cut" : strerror(errno));
    if (is_open && is_bad) cut(journal, fd, before.st_size);
    if (fd >= 0) close(fd);
    return is_bad ? -1 : 0;
}
