/* Has the library answer a message. */
#include "worker.h"
#include "zones.h"

uint32_t answer_message(struct worker *worker, nk_transfer *transfer, const struct sockaddr *client, uint32_t transport, time_t now, const uint8_t *query,
                        size_t query_length, uint8_t *response, size_t size, size_t *written, nk_summary *summary) {
    struct counters *counters = &worker->counters;
    nk_message message = {.octets = query, .octets_length = query_length, .moment = now, .limit = worker->config->udp_size, .transport = transport};
    message.address = client_octets(client, &message.address_length);
    count(transport == NK_TCP ? &counters->tcp_queries : &counters->udp_queries, 1);
    count(&counters->octets_in, query_length);
    zones_take(&worker->zones, &worker->seen);   /* what another worker has changed shows once it has said so */
    int may_update = worker->config->rule_count && query_length > 2 && (query[2] >> 3 & 15) == 5;   /* by its opcode (RFC 2136 section 1.3) */
    uint32_t code = may_update ? zones_update(&worker->zones, &worker->seen, &worker->updates, &message, response, size, written) : (uint32_t)NK_NO_UPDATE;
    int is_update = code != NK_NO_UPDATE;
    if (!is_update) code = nk_transfer_begin(transfer, &worker->zones, &worker->access, &message, response, size, written);
    if (code == NK_TRANSFER) zones_shorten(transfer, query, query_length);
    if (code == NK_DONE) {   /* what it was is told by its header: its options are not the library's to tell */
        uint32_t told = response[3] & 15, kind = is_update ? NK_OTHER : told == 0 ? NK_ANSWER : told == 3 ? NK_NAME_ERROR : told == 5 ? NK_REFUSED : NK_FAILED;
        *summary = (nk_summary){told, kind, response[2] >> 1 & 1, NK_COOKIE_ABSENT, 0};
        if (is_update) count(told ? &counters->updates_refused : &counters->updates, 1);
    } else if (code == NK_UNKEYED || (code == NK_NO_KEYS && !is_update))
        code = nk_zones_answer_client(&worker->zones, &worker->config->settings, &message, response, size, written, summary);
    if (code != NK_DONE && code != NK_TRANSFER) count(code == NK_IGNORED ? &counters->ignored : &counters->no_memory, 1);
    return code;
}
