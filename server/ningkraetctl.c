/* ningkraetctl [-s SOCKET] COMMAND..: sends a command to a running ningkraetd, and prints its reply. */
#include <err.h>
#include <stdio.h>
#include <string.h>
#include <sys/socket.h>
#include <sys/un.h>
#include <unistd.h>

int main(int argc, char **argv) {
    int first = argc > 2 && !strcmp(argv[1], "-s") ? 3 : 1;
    const char *path = first == 3 ? argv[2] : "/run/ningkraetd/control";
    if (argc <= first) errx(2, "usage: ningkraetctl [-s SOCKET] status | metrics | zones | reload | add ORIGIN FILE | drop ORIGIN | write ORIGIN | stop");
    struct sockaddr_un address = {.sun_family = AF_UNIX};
    strncpy(address.sun_path, path, sizeof address.sun_path - 1);
    int fd = socket(AF_UNIX, SOCK_STREAM, 0);
    if (fd < 0 || connect(fd, (struct sockaddr *)&address, sizeof address)) err(2, "%s", path);
    char line[8192];
    size_t length = 0;
    for (int i = first; i < argc; i++) {
        int more = snprintf(line + length, sizeof line - length, "%s%c", argv[i], i + 1 < argc ? ' ' : '\n');
        if (more < 0 || (size_t)more >= sizeof line - length) errx(2, "the command is too long");
        length += more;
    }
    FILE *reply = fdopen(fd, "r");
    if (!reply || write(fd, line, length) != (ssize_t)length) err(2, "%s", path);
    if (!fgets(line, sizeof line, reply)) errx(2, "the server gave no reply");
    int is_ok = !strcmp(line, "ok\n");
    while (fgets(line, sizeof line, reply)) fputs(line, is_ok ? stdout : stderr);
    return !is_ok;
}
