/* The zones that are served: loaded from files by one thread, and handed to the workers as copies. */
#pragma once

#include "config.h"

/* Makes the list of zones; `watch` is called with each folder that has a zone file, before it is read. Returns 0, or -1 once it is logged why not. */
int zones_begin(const struct config *config, void (*watch)(const char *folder));
/* Reads each zone of which a file is new or has changed, and all of them where `all` is set; takes in zones that came into a folder, and lets go those
 * that left it. A file that is bad leaves its old zone as it is; a zone beside whose file FILE.expired is expires. What is served changes in one step, at
 * the end. Returns how many zones have a file that is bad. */
size_t zones_renew(int all);
/* Adds a zone, or drops one, until the next start. Returns NULL, or what was wrong. */
const char *zones_add(char *origin, const char *path);
const char *zones_drop(char *origin);
/* Writes the file of a zone that takes updates from what is served, in one step, and has its journal begin anew. Returns NULL, or what was wrong. */
const char *zones_write(char *origin);
/* Writes a line for each zone, as many as there is room for: its origin, serial and file, whether it has expired, and what is wrong with the file. */
size_t zones_print(char *text, size_t size);
size_t zones_count(void);
/* Gives a worker the zones that are served now, where that aren't those that it has, of which the number is `seen`; -1: it has none. */
void zones_take(nk_zones *own, unsigned long *seen);
/* Has what changed go out in place of a zone whose transfer this query began, if that is what it asks for, and it is kept. */
void zones_shorten(nk_transfer *transfer, const uint8_t *query, size_t length);
/* Carries out an update with a worker's zones and rules: once it is in the zone's journal it is served, and then this gives its response. Any other
 * gets one that says why not; SERVFAIL where it can't be written. The codes are those of nk_update_begin. */
uint32_t zones_update(nk_zones *own, unsigned long *seen, nk_updates *rules, const nk_message *message, uint8_t *response, size_t size, size_t *written);
void zones_free(void);

/* ---- journals.c: journals of zones that take updates (RFC 2136 section 3.5); in the file ORIGIN.journal is each update that was answered */

struct journal {
    const char *origin;
    int is_closed;             /* whether no update may be taken, since what stands behind the last one couldn't be cut off */
    int is_recalled;           /* whether what changed before this start is kept */
    unsigned long changed;     /* the number of the zones that were served first with its last update */
};

/* Makes a journal for each zone that lines `update` name, in a folder that no other server may have. Returns 0, or -1 once it is logged why not. */
int journals_begin(const struct config *config);
void journals_free(void);
/* The journal of a zone, or NULL where it takes no updates; and whether it can be read, or hasn't begun. */
struct journal *journal_of(const char *origin);
int journal_is_readable(const struct journal *journal);
/* Puts the zone that the journal leads to in place of the one that was loaded from its file, which may have been written anew; the first time it keeps what
 * changed before. A last frame that isn't whole is cut off; a journal that doesn't fit the file, or of which the file has all, is put aside as
 * ORIGIN.journal.old. Returns NK_DONE or NK_NO_MEMORY. */
uint32_t journal_replay(struct journal *journal, nk_zones *zones, nk_steps *steps);
/* Writes a file that outlasts whatever happens. Returns 0, or -1 with errno once it is logged why not. */
int write_file(const char *path, const uint8_t *octets, size_t length, mode_t mode);
/* Has a frame outlast whatever happens. Returns 0, or -1 once it is logged why not: then the journal is what it was, or closed. */
int journal_append(struct journal *journal, const uint8_t *frame, size_t length);
