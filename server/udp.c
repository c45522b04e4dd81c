/* Queries by UDP: read and answered in batches, each answer from the address that its query was sent to. */
#include "worker.h"

static void read_datagrams(struct udp *udp) {
    for (int i = 0; i < BATCH; i++) {
        udp->rooms[i] = (struct iovec){udp->octets[i], DATAGRAM};
        udp->read[i].msg_hdr = (struct msghdr){.msg_name = &udp->clients[i], .msg_namelen = sizeof udp->clients[i], .msg_iov = &udp->rooms[i],
                                               .msg_iovlen = 1, .msg_control = udp->controls[i], .msg_controllen = sizeof udp->controls[i]};
    }
    int count = recvmmsg(udp->source.fd, udp->read, BATCH, MSG_DONTWAIT, NULL);
    udp->count = count < 0 ? 0 : count;   /* (an error of an earlier response, as ICMP brings it, is one of the kernel's calls) */
    udp->at = 0;
}

/* Has a response go out from the address that its query was sent to, by whichever way leads to the client. */
static void keep_address(struct msghdr *message) {
    for (struct cmsghdr *control = CMSG_FIRSTHDR(message); control; control = CMSG_NXTHDR(message, control)) {
        if (control->cmsg_level == IPPROTO_IP && control->cmsg_type == IP_PKTINFO) {
            struct in_pktinfo *info = (void *)CMSG_DATA(control);
            *info = (struct in_pktinfo){.ipi_spec_dst = info->ipi_addr};
        } else if (control->cmsg_level == IPPROTO_IPV6 && control->cmsg_type == IPV6_PKTINFO) {
            struct in6_pktinfo *info = (void *)CMSG_DATA(control);
            if (!IN6_IS_ADDR_LINKLOCAL(&info->ipi6_addr)) info->ipi6_ifindex = 0;
        }
    }
}

/* Cuts a response to its header and question, with TC, so that an honest client asks again by TCP. */
static size_t cut(uint8_t *response, const uint8_t *query, size_t query_length) {
    size_t end = name_end(query, query_length) + 5;
    if (response[5] != 1 || end > query_length) end = 12;
    response[2] |= 2;
    memset(response + 6, 0, 6);
    return end;
}

/* Answers one datagram. Returns the length of its response, or 0 where none goes out. */
static size_t answer(struct worker *worker, struct udp *udp, int at, uint8_t *response, time_t now) {
    struct mmsghdr *read = &udp->read[at];
    struct sockaddr *client = (void *)&udp->clients[at];
    const uint8_t *query = udp->octets[at];
    size_t length = read->msg_hdr.msg_flags & MSG_TRUNC ? 0 : read->msg_len, written;
    nk_summary summary;
    nk_transfer none = NK_TRANSFER_NONE;   /* none begins by UDP */
    if (answer_message(worker, &none, client, NK_UDP, now, query, length, response, sizeof udp->responses[0], &written, &summary) != NK_DONE) return 0;
    enum verdict verdict = limits_take(client, &summary, query, length);
    if (verdict == WITHHOLD || verdict == CUT) count(verdict == CUT ? &worker->counters.slipped : &worker->counters.limited, 1);
    if (verdict == WITHHOLD) return 0;
    if (verdict == CUT) written = cut(response, query, length), summary.truncated = 1;
    count_response(&worker->counters, written, &summary);
    log_query(client, NK_UDP, query, length, written, &summary);
    return written;
}

void udp_answer(struct worker *worker, struct udp *udp) {
    struct mmsghdr out[BATCH];
    struct iovec to_send[BATCH];
    int answers = 0;
    time_t now = time(NULL);
    udp->source.has_come = 0;
    if (udp->at >= udp->count) read_datagrams(udp);
    for (uint64_t until = microseconds() + SHARE; udp->at < udp->count;) {
        struct msghdr *client = &udp->read[udp->at].msg_hdr;
        size_t written = answer(worker, udp, udp->at++, udp->responses[answers], now);
        if (written) {
            keep_address(client);
            to_send[answers] = (struct iovec){udp->responses[answers], written};
            out[answers].msg_hdr = (struct msghdr){.msg_name = client->msg_name, .msg_namelen = client->msg_namelen, .msg_iov = &to_send[answers], .msg_iovlen = 1,
                                                   .msg_control = client->msg_control, .msg_controllen = client->msg_controllen};
            answers++;
        }
        if (microseconds() >= until) break;
    }
    for (int sent = 0, more; sent < answers; sent += more)
        if ((more = sendmmsg(udp->source.fd, out + sent, answers - sent, MSG_DONTWAIT)) <= 0)
            more = 1, count(&worker->counters.unsent, 1);   /* lost, as by a network */
}
