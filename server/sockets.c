/* Opens sockets. */
#include "control.h"

enum { FIRST_INHERITED = 3 };

static void set(int fd, int level, int name, int value) { setsockopt(fd, level, name, &value, sizeof value); }

/* Datagrams come with the address that they were sent to, and answers are never fragmented by what ICMP says (RFC 9715). */
static void prepare_datagrams(int fd, int family) {
    set(fd, SOL_SOCKET, SO_RCVBUF, 1 << 22);
    set(fd, SOL_SOCKET, SO_RCVBUFFORCE, 1 << 22);   /* beyond net.core.rmem_max, if it has CAP_NET_ADMIN */
    set(fd, SOL_SOCKET, SO_SNDBUF, 1 << 22);
    int is_v4 = family == AF_INET, level = is_v4 ? IPPROTO_IP : IPPROTO_IPV6;
    set(fd, level, is_v4 ? IP_PKTINFO : IPV6_RECVPKTINFO, 1);
    set(fd, level, is_v4 ? IP_MTU_DISCOVER : IPV6_MTU_DISCOVER, is_v4 ? IP_PMTUDISC_OMIT : IPV6_PMTUDISC_OMIT);
}

static int open_one(const struct address *address, int kind, int is_shared) {
    int fd = socket(address->socket.ss_family, kind | SOCK_NONBLOCK | SOCK_CLOEXEC, 0);
    if (fd >= 0) {
        if (kind == SOCK_STREAM) set(fd, SOL_SOCKET, SO_REUSEADDR, 1);
        if (is_shared) set(fd, SOL_SOCKET, SO_REUSEPORT, 1);
        if (address->socket.ss_family == AF_INET6) set(fd, IPPROTO_IPV6, IPV6_V6ONLY, 1);
        if (kind == SOCK_DGRAM) prepare_datagrams(fd, address->socket.ss_family);
        if (!bind(fd, (const struct sockaddr *)&address->socket, address->length) && (kind == SOCK_DGRAM || !listen(fd, SOMAXCONN))) return fd;
    }
    log_line("%s, %s: %s", address->text, kind == SOCK_DGRAM ? "UDP" : "TCP", strerror(errno));
    if (fd >= 0) close(fd);
    return -1;
}

int sockets_open(const struct config *config, int is_shared, int *sockets) {
    for (size_t i = 0; i < 2 * config->listen_count; i++)
        if ((sockets[i] = open_one(&config->listen[i / 2], i % 2 ? SOCK_STREAM : SOCK_DGRAM, is_shared)) < 0) return -1;
    return 0;
}

int sockets_inherited(int *sockets, size_t most) {
    const char *count_text = getenv("LISTEN_FDS"), *pid = getenv("LISTEN_PID");
    if (!count_text || !pid || atol(pid) != (long)getpid()) return 0;
    size_t datagrams = 0, listeners = 0;
    for (int fd = FIRST_INHERITED; fd < FIRST_INHERITED + atoi(count_text); fd++) {
        int kind = 0, family = 0, is_alone = 1;
        socklen_t length = sizeof kind;
        getsockopt(fd, SOL_SOCKET, SO_TYPE, &kind, &length);
        getsockopt(fd, SOL_SOCKET, SO_DOMAIN, &family, &length);
        if (family == AF_INET6) getsockopt(fd, IPPROTO_IPV6, IPV6_V6ONLY, &is_alone, &length);
        if ((kind != SOCK_DGRAM && kind != SOCK_STREAM) || (family != AF_INET && family != AF_INET6) || !is_alone || (kind == SOCK_DGRAM ? datagrams : listeners) == most)
            /* (by one of IPv6 that takes IPv4, all clients of IPv4 would be one client) */
            return log_line("the service manager handed over a socket that is neither UDP nor TCP, of IPv6 and takes IPv4 too (BindIPv6Only), or too many");
        fcntl(fd, F_SETFL, O_NONBLOCK);   /* several workers are woken for a client that one of them takes */
        fcntl(fd, F_SETFD, FD_CLOEXEC);
        if (kind == SOCK_DGRAM) prepare_datagrams(fd, family);
        sockets[kind == SOCK_DGRAM ? 2 * datagrams++ : 2 * listeners++ + 1] = fd;
    }
    if (datagrams == listeners) return datagrams;
    return log_line("the service manager handed over %zu sockets for UDP and %zu for TCP: there has to be one of each for every address", datagrams, listeners);
}

void sockets_notify(const char *state) {
    const char *path = getenv("NOTIFY_SOCKET");
    struct sockaddr_un address = {.sun_family = AF_UNIX};
    if (!path || (*path != '/' && *path != '@') || strlen(path) >= sizeof address.sun_path) return;
    memcpy(address.sun_path, path, strlen(path));
    if (*path == '@') address.sun_path[0] = 0;
    int fd = socket(AF_UNIX, SOCK_DGRAM | SOCK_CLOEXEC, 0);
    if (fd < 0) return;
    sendto(fd, state, strlen(state), MSG_NOSIGNAL, (struct sockaddr *)&address, offsetof(struct sockaddr_un, sun_path) + strlen(path));
    close(fd);
}
