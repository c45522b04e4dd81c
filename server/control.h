/* The commands that ningkraetctl sends over a local socket, a line each. */
#pragma once

#include "worker.h"

/* Listens at a path, which only the server's own user may use. Returns the descriptor, or -1 once it is logged why. */
int control_listen(const char *path);
/* Takes one connection, carries out its command and answers. Returns 1 where the command is to stop, else 0. */
int control_take(int listener, struct worker *workers, size_t worker_count);

/* ---- sockets.c: the sockets at which queries come */
/* Opens the sockets of a worker at these addresses: of each one for datagrams, and one that listens. `is_shared`: other workers open
 * theirs at the same addresses (SO_REUSEPORT). Returns 0, or -1 once it is logged why. */
int sockets_open(const struct config *config, int is_shared, int *sockets);
/* The sockets that a service manager opened and handed over (systemd's LISTEN_FDS): datagrams and listeners in pairs, by address. Returns how
 * many pairs there are, 0 where none were handed over, or -1 once it is logged why. */
int sockets_inherited(int *sockets, size_t most);
/* Tells the service manager something (systemd's NOTIFY_SOCKET), where it asked for that. */
void sockets_notify(const char *state);
