/* Zones and their files. */
#include <dirent.h>

#include "log.h"
#include "zones.h"

enum { TOLD = 1 << 16, TRIES = 100, PATIENCE = 1000, KEPT = 20000 };   /* PATIENCE: milliseconds that an update waits for another; KEPT: records of changes */

struct file {
    char *path;
    struct stat read;                 /* what it was when it was read last; all 0 where it couldn't be */
};

struct zone {
    char *origin, *fault;             /* the origin in lower case and without its final dot */
    struct file file, *included;      /* its file, and those that are read with it ($INCLUDE) */
    size_t included_count;
    struct journal *journal;          /* NULL where it takes no updates */
    unsigned is_served : 1, is_of_folder : 1, is_there : 1, is_gone : 1, is_expired : 1, is_loaded : 1;   /* `is_loaded`: from its file, in this renewal */
};

static const struct config *config;
static void (*watch)(const char *folder);
static struct zone **zones;           /* by origin */
static size_t zone_count;
static nk_zones loaded = NK_ZONES_NONE;
static nk_steps steps = NK_STEPS_NONE; /* what changed in zones from version to version */
static pthread_mutex_t lock = PTHREAD_MUTEX_INITIALIZER, noting = PTHREAD_MUTEX_INITIALIZER;   /* of `loaded`; of `steps` */
static pthread_mutex_t updating = PTHREAD_MUTEX_INITIALIZER;   /* of the journals, and so of who puts zones that take updates in place of others */
static atomic_ulong renewed;
static atomic_int holders, behind;    /* workers that have zones, and those of them that have yet to take the new ones */

/* The place of an origin in the list: that of its zone, or where it would stand. */
static size_t place_of(const char *origin) {
    size_t low = 0, high = zone_count;
    while (low < high) {
        size_t middle = (low + high) / 2;
        if (strcmp(zones[middle]->origin, origin) < 0) low = middle + 1;
        else high = middle;
    }
    return low;
}

static struct zone *find(const char *origin) {
    size_t at = place_of(origin);
    return at < zone_count && !strcmp(zones[at]->origin, origin) ? zones[at] : NULL;
}

static void drop_included(struct zone *zone) { while (zone->included_count) free(zone->included[--zone->included_count].path); }

static void free_zone(struct zone *zone) {
    drop_included(zone);
    free(zone->included);
    free(zone->origin);
    free(zone->file.path);
    free(zone->fault);
    free(zone);
}

/* Puts a zone that isn't there yet into the list, with no file read. NULL: no memory. */
static struct zone *put_zone(const char *origin, const char *path, int is_of_folder) {
    struct zone *zone = calloc(1, sizeof *zone), **grown = realloc(zones, (zone_count + 1) * sizeof *zones);
    if (grown) zones = grown;
    if (!zone || !grown || !(zone->origin = strdup(origin)) || !(zone->file.path = strdup(path))) {
        if (zone) free_zone(zone);
        log_line("%s: out of memory", origin);
        return NULL;
    }
    zone->journal = journal_of(origin);
    zone->is_of_folder = is_of_folder;
    zone->is_there = 1;
    size_t at = place_of(origin);
    memmove(zones + at + 1, zones + at, (zone_count++ - at) * sizeof *zones);
    return zones[at] = zone;
}

static void set_fault(struct zone *zone, const char *text) {
    free(zone->fault);
    zone->fault = text ? strdup(text) : NULL;
    if (text) log_line("%s: %s%s", zone->origin, text, zone->is_served ? "; the zone stays as it was" : "");
}

/* Has changes of a file told, by its folder. */
static void watch_beside(const char *path) {
    char folder[4096];
    const char *slash = strrchr(path, '/');
    snprintf(folder, sizeof folder, "%.*s", slash ? (int)(slash - path) + (slash == path) : 1, slash ? path : ".");
    watch(folder);
}

/* Gives the library the text of a file that a zone includes, or says why there is none. No name with an octet 0 is one of a file. */
static uint32_t put_file(nk_files *files, struct zone *zone, const char *path, size_t length) {
    struct file *grown = realloc(zone->included, (zone->included_count + 1) * sizeof *grown);
    if (grown) zone->included = grown;
    char *kept = grown ? strdup(path) : NULL;
    if (!kept) return NK_NO_MEMORY;
    struct file *file = &grown[zone->included_count++];
    *file = (struct file){.path = kept};
    watch_beside(path);
    errno = ENOENT;
    uint8_t *text = strlen(path) == length ? octets_of(path, &file->read) : NULL;
    uint32_t why = errno == ENOENT ? NK_LACKS_FILE : errno == EISDIR ? NK_LACKS_FOLDER : errno == ESPIPE ? NK_LACKS_STREAM : errno == EACCES ? NK_LACKS_PERMISSION : NK_LACKS_OTHER;
    uint32_t code = text ? nk_files_put(files, (uint8_t *)path, length, text, file->read.st_size) : nk_files_lack(files, (uint8_t *)path, length, why);
    free(text);
    return code;
}

/* Loads a zone from the text of its file and those of the files that are included, which the library names until it has all. */
static uint32_t load_text(nk_zones *into, struct zone *zone, const uint8_t *text, char *told, size_t *written) {
    static char path[1 << 17];
    nk_files files = NK_FILES_NONE;
    uint32_t code;
    size_t length;
    do {
        code = nk_zones_load_files(into, &files, OCTETS(zone->origin), OCTETS(zone->file.path), text, zone->file.read.st_size, (uint8_t *)told, TOLD, written);
        if (code != NK_WANTS_FILES) break;
        while ((code = nk_files_next(&files, (uint8_t *)path, sizeof path - 1, &length)) == NK_DONE) {
            path[length] = 0;
            if ((code = put_file(&files, zone, path, length)) != NK_DONE) break;
        }
    } while (code == NK_NO_FILE);
    nk_files_free(&files);
    return code;
}

/* Keeps what changed in a zone, which these have or haven't any more. Where memory is short nothing is kept: no version is to be left out. */
static void note(nk_zones *from, const char *origin) {
    pthread_mutex_lock(&noting);
    if (nk_steps_note(&steps, from, OCTETS(origin)) == NK_NO_MEMORY) {
        log_line("%s: no memory to keep what changed", origin);
        nk_steps_free(&steps);
        nk_steps_new(&steps, KEPT);
    }
    pthread_mutex_unlock(&noting);
}

/* Takes a lock that another thread has for some milliseconds, or longer for a large zone. Tells whether it has it, within a time. */
static int lock_soon(pthread_mutex_t *it, int tries) {
    for (; pthread_mutex_trylock(it); tries--)
        if (!tries || nanosleep(&(struct timespec){0, 1000000}, NULL)) return 0;
    return 1;
}

void zones_shorten(nk_transfer *transfer, const uint8_t *query, size_t length) {
    if (!lock_soon(&noting, TRIES)) return;
    nk_transfer_steps(transfer, &steps, query, length);
    pthread_mutex_unlock(&noting);
}

/* Ends the loading of a zone: by what its journal has, if it takes updates, or else by its answers that are kept. */
static uint32_t settle(nk_zones *into, struct zone *zone) {
    int is_first = zone->journal && !zone->journal->is_recalled;
    if (is_first) pthread_mutex_lock(&noting);
    uint32_t code = zone->journal ? journal_replay(zone->journal, into, &steps) : NK_DONE;
    if (is_first) pthread_mutex_unlock(&noting);
    else if (code == NK_DONE) note(into, zone->origin);
    if (!zone->journal && config->ready_answers && nk_zones_prepare(into, OCTETS(zone->origin)) == NK_NO_MEMORY)
        log_line("%s: no memory to keep its answers", zone->origin);
    return code;
}

/* Reads the file of a zone, and loads it. Tells whether it is served now as the file has it. */
static int load(nk_zones *into, struct zone *zone) {
    static char told[TOLD + 1];
    size_t written = 0;
    drop_included(zone);
    if (zone->journal && !journal_is_readable(zone->journal)) return set_fault(zone, "its journal can't be read"), 0;
    uint8_t *text = octets_of(zone->file.path, &zone->file.read);
    if (!text) return set_fault(zone, strerror(errno)), 0;
    uint32_t code = load_text(into, zone, text, told, &written);
    free(text);
    told[written] = 0;
    char *more = told, *first = code == NK_DONE ? NULL : strsep(&more, "\n");
    set_fault(zone, code == NK_DONE || code == NK_BAD_TEXT ? first : code == NK_BAD_NAME ? "its origin isn't a domain name" : code == NK_NO_MEMORY ? "out of memory" : code == NK_NO_ROOM ? "it includes a file whose name is too long" : "the name of its file isn't UTF-8");
    for (char *line; (line = strsep(&more, "\n")) && *line;) log_line("%s", line);   /* each begins with the name of a file */
    if (code == NK_NO_MEMORY) zone->file.read = (struct stat){0};   /* it is tried again, also if it doesn't change */
    if (code != NK_DONE) return 0;
    zone->is_served = zone->is_loaded = 1;
    if (!zone->journal) settle(into, zone);   /* the others once no update can come meanwhile */
    return 1;
}

static int is_changed(const struct file *file) {
    struct stat now;
    const struct stat *old = &file->read;
    watch_beside(file->path);
    if (stat(file->path, &now)) now = (struct stat){0};
    return old->st_mtim.tv_sec != now.st_mtim.tv_sec || old->st_mtim.tv_nsec != now.st_mtim.tv_nsec || old->st_size != now.st_size || old->st_ino != now.st_ino;
}

/* Whether FILE.expired is beside the file of a zone: a secondary has it there while the zone has expired (RFC 1034 section 4.3.5). */
static int is_marked(const struct zone *zone) {
    char path[4096];
    snprintf(path, sizeof path, "%s.expired", zone->file.path);
    return !access(path, F_OK);
}

/* Loads a zone, and has it expire where its file is marked so. Tells whether what is served changes. */
static int load_or_expire(nk_zones *into, struct zone *zone) {
    int is_new = load(into, zone);
    uint32_t code = is_marked(zone) ? nk_zones_expire(into, OCTETS(zone->origin)) : (uint32_t)NK_NO_ZONE;
    if (is_new || code == NK_DONE) zone->is_expired = code == NK_DONE;
    if (code == NK_DONE) log_line("%s has expired: it is answered with SERVFAIL", zone->origin);
    if (code == NK_NO_MEMORY) set_fault(zone, "out of memory");   /* it is tried again, since the mark tells otherwise */
    return is_new || code == NK_DONE;
}

/* Whether a file of a zone has changed since it was read, or its own couldn't be, or the zone has expired since or no longer. */
static int has_changed(const struct zone *zone) {
    int changed = is_changed(&zone->file) || !zone->file.read.st_ino || is_marked(zone) != zone->is_expired;
    for (size_t i = 0; i < zone->included_count; i++) changed |= is_changed(&zone->included[i]);
    return changed;
}

/* Takes the files of a folder into the list: NAME.zone is that of the zone NAME. Returns 0, or -1 where it can't be read. */
static int look_into(const char *folder) {
    watch(folder);   /* before it is read, so that no change goes unseen */
    DIR *opened = opendir(folder);
    if (!opened) return log_line("%s: %s", folder, strerror(errno));
    for (struct dirent *entry; (entry = readdir(opened));) {
        size_t length = strlen(entry->d_name);
        if (entry->d_name[0] == '.' || length < 6 || strcmp(entry->d_name + length - 5, ".zone")) continue;
        char path[4096];
        snprintf(path, sizeof path, "%s/%s", folder, entry->d_name);
        entry->d_name[length - 5] = 0;
        lower(entry->d_name);
        struct zone *zone = find(entry->d_name);
        if (zone) zone->is_there = 1;
        else put_zone(entry->d_name, path, 1);
    }
    closedir(opened);
    return 0;
}

/* Has these zones served, and gives those that were. */
static void publish(nk_zones *fresh) {
    pthread_mutex_lock(&lock);
    nk_zones old = loaded;
    loaded = *fresh, *fresh = old;
    atomic_store(&behind, atomic_load(&holders));
    atomic_fetch_add(&renewed, 1);
    pthread_mutex_unlock(&lock);
}

/* Has zones served that were made of those with this number, with all updates that were answered meanwhile; while none is taken. */
static uint32_t publish_updated(nk_zones *fresh, unsigned long number) {
    uint32_t code = NK_DONE;
    pthread_mutex_lock(&updating);
    for (size_t i = 0; i < zone_count && code == NK_DONE; i++) {
        struct zone *zone = zones[i];
        if (zone->journal && !zone->is_gone && !zone->is_expired && (zone->is_loaded || zone->journal->changed > number)) code = settle(fresh, zone);
    }
    if (code == NK_DONE) publish(fresh);
    pthread_mutex_unlock(&updating);
    return code;
}

/* A copy of the zones that are served, and their number. */
static uint32_t copy_loaded(nk_zones *copy, unsigned long *number) {
    pthread_mutex_lock(&lock);
    *number = atomic_load(&renewed);
    uint32_t code = nk_zones_copy(&loaded, copy);
    pthread_mutex_unlock(&lock);
    return code;
}

size_t zones_renew(int all) {
    nk_zones fresh = NK_ZONES_NONE;
    unsigned long number;
    uint32_t code = copy_loaded(&fresh, &number);
    size_t changes = 0, faults = 0, kept = 0;
    int can_see = 1;
    for (size_t i = 0; i < zone_count; i++) zones[i]->is_there = !zones[i]->is_of_folder, zones[i]->is_loaded = 0;
    for (size_t i = 0; i < config->folders.count; i++) can_see &= !look_into(config->folders.list[i].name);
    for (size_t i = 0; i < zone_count && code == NK_DONE; i++) {
        struct zone *zone = zones[i];
        uint32_t dropped = zone->is_there || !can_see ? (uint32_t)NK_NO_MEMORY : zone->is_served ? nk_zones_drop(&fresh, OCTETS(zone->origin)) : (uint32_t)NK_NO_ZONE;
        if ((zone->is_gone = dropped != NK_NO_MEMORY)) {
            note(&fresh, zone->origin);
            changes += dropped == NK_DONE;
            continue;
        }
        if (has_changed(zone) || all) changes += load_or_expire(&fresh, zone);
        faults += zone->fault != NULL;
    }
    if (code == NK_DONE && changes) code = publish_updated(&fresh, number);
    if (code != NK_DONE) log_line("zones can't be read: out of memory, or a journal can't be read");
    for (size_t i = 0; i < zone_count; i++) {
        struct zone *zone = zones[i];
        if (code != NK_DONE) zone->file.read = (struct stat){0};   /* it is tried again */
        if (code == NK_DONE && zone->is_gone) {
            log_line("%s isn't served any more", zone->origin);
            free_zone(zone);
        } else zones[kept++] = zone;
    }
    zone_count = kept;
    /* The last to let go of a large zone takes a while to free it: rather this thread than a worker. */
    for (int i = 0; changes && i < TRIES && atomic_load(&behind) > 0; i++) nanosleep(&(struct timespec){0, 10000000}, NULL);
    nk_zones_free(&fresh);
    return code == NK_DONE ? faults : zone_count;
}

/* Answers an update that can't be taken now: by SERVFAIL, as of a zone that has expired, and so signed as any other response. */
static uint32_t fail(nk_zones *own, nk_updates *rules, const nk_message *message, const char *origin, uint8_t *response, size_t size, size_t *written) {
    nk_zones expired = NK_ZONES_NONE;
    nk_update none = NK_UPDATE_NONE;
    size_t framed;
    if (nk_zones_copy(own, &expired) == NK_DONE) nk_zones_expire(&expired, OCTETS(origin));
    uint32_t code = nk_update_begin(&none, &expired, rules, message, response, size, written, (uint8_t[1]){0}, 0, &framed);
    nk_update_free(&none);
    nk_zones_free(&expired);
    return code;
}

/* Writes an update into the journal of its zone, and then has it served. Tells whether it did. */
static int serve_updated(nk_zones *own, nk_update *update, const char *origin, const uint8_t *frame, size_t length, const nk_message *message) {
    nk_zones fresh = NK_ZONES_NONE;
    struct journal *journal = journal_of(origin);
    int is_done = journal && nk_zones_copy(own, &fresh) == NK_DONE && nk_update_commit(update, &fresh) == NK_DONE && !journal_append(journal, frame, length);
    if (is_done) {
        uint32_t serial = 0;
        char client[INET6_ADDRSTRLEN] = "";
        note(&fresh, origin);
        nk_zones_serial(&fresh, OCTETS(origin), &serial);
        journal->changed = atomic_load(&renewed) + 1;
        publish(&fresh);
        log_line("%s is updated to serial %u by %s", origin, serial, inet_ntop(message->address_length == 4 ? AF_INET : AF_INET6, message->address, client, sizeof client));
    }
    nk_zones_free(&fresh);
    return is_done;
}

uint32_t zones_update(nk_zones *own, unsigned long *seen, nk_updates *rules, const nk_message *message, uint8_t *response, size_t size, size_t *written) {
    nk_update update = NK_UPDATE_NONE;
    char origin[NAME_TEXT];
    uint8_t small[4096] = {0}, *frame = small;
    size_t framed = 0, end;
    uint32_t code = NK_DONE;
    name_text(origin, message->octets, message->octets_length, &end);
    lower(origin);
    int is_held = lock_soon(&updating, PATIENCE), is_good = 0;
    zones_take(own, seen);
    if (is_held && *seen == atomic_load(&renewed)) {
        code = nk_update_begin(&update, own, rules, message, response, size, written, frame, sizeof small, &framed);
        if (code == NK_NO_ROOM && framed > sizeof small && (frame = calloc(1, framed)))
            code = nk_update_begin(&update, own, rules, message, response, size, written, frame, framed, &framed);
        is_good = code != NK_DONE || !framed || serve_updated(own, &update, origin, frame, framed, message);
    }
    if (is_held) pthread_mutex_unlock(&updating);
    if (!is_good) code = fail(own, rules, message, origin, response, size, written);
    nk_update_free(&update);
    if (frame != small) free(frame);
    return code;
}

int zones_begin(const struct config *given, void (*watch_folder)(const char *folder)) {
    config = given;
    watch = watch_folder;
    if (nk_interface() != NK_INTERFACE || nk_zones_new(&loaded) != NK_DONE || nk_steps_new(&steps, KEPT) != NK_DONE) return log_line("no memory, or a library of another interface than %d", NK_INTERFACE);
    for (size_t i = 0; i < config->zones.count; i++) {
        const char *why = zones_add(config->zones.list[i].name, config->zones.list[i].of);
        if (why) return log_line("%s: %s", config->zones.list[i].name, why);
    }
    return 0;
}

const char *zones_add(char *origin, const char *path) {
    lower(origin);
    return find(origin) ? "there is a zone of this origin" : put_zone(origin, path, 0) ? NULL : "out of memory";
}

const char *zones_drop(char *origin) {
    lower(origin);
    struct zone *zone = find(origin);
    if (!zone) return "there is no zone of this origin";
    if (zone->is_of_folder) return "its file is in a folder of zones: take the file away";
    zone->is_of_folder = 1;   /* as one that has left its folder */
    zones_renew(0);
    return NULL;
}

const char *zones_write(char *origin) {
    static uint8_t none[1];
    lower(origin);
    struct zone *zone = find(origin);
    if (!zone || !zone->journal || zone->is_expired) return !zone ? "there is no zone of this origin" : !zone->journal ? "it takes no updates: its file has all of it" : "it has expired";
    nk_zones served = NK_ZONES_NONE;
    uint8_t *text = none;
    unsigned long number;
    size_t length = 0;
    char path[4096];
    uint32_t code = copy_loaded(&served, &number);
    if (code == NK_DONE) code = nk_zones_write(&served, OCTETS(origin), none, 0, &length);
    if (code == NK_NO_ROOM && (text = malloc(length))) code = nk_zones_write(&served, OCTETS(origin), text, length, &length);
    struct stat found = {0};
    stat(zone->file.path, &found);
    int is_long = snprintf(path, sizeof path, "%s.new", zone->file.path) >= (int)sizeof path;
    const char *why = code == NK_NO_ZONE ? "it isn't served" : code != NK_DONE ? "out of memory" : is_long ? "the path of its file is too long" : NULL;
    if (!why && (write_file(path, text, length, (found.st_mode & 0777) | 0600) || rename(path, zone->file.path))) why = strerror(errno), unlink(path);
    if (text != none) free(text);
    nk_zones_free(&served);
    if (!why) zones_renew(0);   /* so that its journal begins anew */
    return why;
}

size_t zones_print(char *text, size_t size) {
    size_t length = 0;
    for (size_t i = 0; i < zone_count; i++) {
        struct zone *zone = zones[i];
        char serial[16] = "-";
        uint32_t number;
        pthread_mutex_lock(&lock);
        if (!zone->is_expired && nk_zones_serial(&loaded, OCTETS(zone->origin), &number) == NK_DONE) snprintf(serial, sizeof serial, "%u", number);
        pthread_mutex_unlock(&lock);
        length += put(text + length, size - length, "%s %s %s%s%s%s\n", zone->origin, serial, zone->file.path, zone->is_expired ? " EXPIRED" : "", zone->fault ? " FAULT " : "", zone->fault ? zone->fault : "");
    }
    return length;
}

size_t zones_count(void) { return zone_count; }

void zones_take(nk_zones *own, unsigned long *seen) {
    nk_zones fresh = NK_ZONES_NONE, old = *own;
    if (atomic_load(&renewed) == *seen) return;
    pthread_mutex_lock(&lock);
    unsigned long now = atomic_load(&renewed);
    uint32_t code = nk_zones_copy(&loaded, &fresh);
    if (code == NK_DONE && *seen == -1ul) atomic_fetch_add(&holders, 1);
    pthread_mutex_unlock(&lock);
    if (code != NK_DONE) return;
    *own = fresh;
    nk_zones_free(&old);
    if (*seen != -1ul) atomic_fetch_sub(&behind, 1);
    *seen = now;
}

void zones_free(void) {
    for (size_t i = 0; i < zone_count; i++) free_zone(zones[i]);
    free(zones);
    nk_steps_free(&steps);
    nk_zones_free(&loaded);
}
