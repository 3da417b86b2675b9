/* The gateway: the protocol between HTTP's rules and a tier as one value, for C11 and C++17. This file is written by tools/dev/interface.py: change its
   template, or embed/interface_gateway.toml.

   A gateway is given bytes and moments and gives bytes to send. It opens no socket, starts no thread and reads no clock. All that goes out on a
   connection is given by it, heads and sizes of chunks too. A program over it moves bytes.

   An EXCHANGE is a client's request and all that is done for it; start gives its number, none twice. Its two sides end apart: the client's, and the
   origin's, which may go on for nobody where what comes is stored.

     call             lawful where                                  it is
     parse_request    always; needs no lock                         the head of the next request: NEED_MORE, or how many bytes it has
     start            always                                        the request begins: an answer, a wait, or a request to the origin
     poll             until the exchange is forgotten               what the client is sent next, and what is due on either side
     request_data     the request's body isn't over                 bytes of the request's body, as they came
     response_head    the origin was asked, no final head came      bytes of the origin's connection, from the response's head on
     response_data    a final head came, the body isn't over        bytes of the response's body, as they came
     origin_closed    the origin was asked, and isn't over          its connection ended, failed, or took too long
     client_closed    the client is not gone                        it went away

   What isn't lawful is WRONG_PHASE or NO_EXCHANGE, and changes nothing.

   A MOVER'S DUTIES
     (1) Of a client's connection one exchange after the other: the next request is parsed once CLIENT_END came.
     (2) Bytes are given as they came, in order, from the first that wasn't `used`; what an out gives for a connection is written to it, in order, all of it.
     (3) SEND_REQUEST: on a new connection, or on one that was REUSABLE and on which nothing came since. What comes on an idle one closes it. What
         origin_closed asks to send again goes on a new one: it is sent again only once.
     (4) Each exchange that an out wakes is polled, its own too, and each whose moment `at` has come. Each out about an exchange says `at` anew.
     (5) Moments are of one clock, each call is given the present one, and none is less than the last.
     (6) CLIENT_CLOSE and CLIENT_TRUNCATED: the client's connection is closed once the pieces are written. CLOSE_ORIGIN: the origin's.
     (7) After BLOCKED nothing is read from the origin until CONTINUE, or until the exchange is polled again.
     (8) A client that goes away before its answer is over: client_closed, once. An end of input behind a whole request isn't its going.
     (9) Keys that `purges` names are purged in the other partitions before the pieces of that out are written: cache_gateways sees to it.
    (10) Nothing else is written on these connections.
    (11) MEMORY: nothing else of the out is obeyed. The exchange that it names, if any, is ended by client_closed and origin_closed, and both its
         connections are closed; after start it is ended already. Whom the call wakes it may not have told: every other exchange of the gateway is polled.

   OWNERSHIP. Every argument is copied. An out owns what it lends until cache_gateway_out_free, also after the gateway's end; a body in the cache is
     lent, and not copied. Fill an out only if it is zero, or was filled by these functions.
   THREADS. One call at a time per gateway: hold a lock of yours around each call that takes a `cache_gateway *`, but cache_gateway_parse_request, which
     reads options that never change. cache_gateway_out_* and cache_gateway_request_free need no lock. An out belongs to one thread at a time. */
#ifndef CACHE_GATEWAY_H
#define CACHE_GATEWAY_H
#include "cache_rules.h"

#ifdef __cplusplus
extern "C" {
#endif

@DECLARATIONS@
/* The text of a status. */
static inline const char *cache_gateway_strerror(uint64_t status) {
    switch (status) {
    case CACHE_GATEWAY_NO_EXCHANGE: return "no exchange with this number is open";
    case CACHE_GATEWAY_DONE: return "done";
    case CACHE_GATEWAY_NEED_MORE: return "the head goes on";
    case CACHE_GATEWAY_BLOCKED: return "blocked";
    default: return cache_tier_strerror(status);
    }
}
@DEFAULTS@
/* ---- a gateway */

/* The options, which never change, and behind them the library's own memory. */
typedef struct cache_gateway {
    cache_rules_options rules;
    void *held;
} cache_gateway;

/* Makes a gateway, in memory of malloc: OK, or MEMORY or BAD_ARGUMENT (limits or options; `secret`: at least 16 random bytes), and then `*gateway` is NULL.
   `started`: the present moment. All arguments are copied. */
static inline int cache_gateway_open(cache_gateway **gateway, cache_tier_moment started, const cache_gateway_limits *limits, const cache_rules_options *options,
                                     const void *secret, size_t secret_len) {
    size_t front = (sizeof(cache_gateway) + options->settings_len + 15) / 16 * 16, size = @SYMBOL@_sizeof();
    cache_gateway_counts counts = {0, 0, 0, 0};
    cache_gateway *g;
    *gateway = NULL;
    if (options->settings_len > SIZE_MAX / 4) return CACHE_TIER_BAD_ARGUMENT;
    if (!(g = (cache_gateway *)malloc(front + size))) return CACHE_TIER_MEMORY;
    g->rules = *options, g->held = (uint8_t *)g + front;
    if (options->settings_len) memcpy(g + 1, options->settings, options->settings_len);
    g->rules.settings = (const char *)(g + 1);
    @SYMBOL@_init(g->held, started.seconds, started.nanoseconds, limits, &g->rules, cache_tier_i_bytes(g->rules.settings), g->rules.settings_len,
                         cache_tier_i_bytes(secret), secret_len, &counts);
    if (counts.status == CACHE_TIER_OK) *gateway = g;
    else @SYMBOL@_end(g->held), free(g);
    return (int)counts.status;
}
/* Ends a gateway, with its exchanges. Outs and requests stay valid. */
static inline void cache_gateway_free(cache_gateway *gateway) {
    if (gateway) @SYMBOL@_end(gateway->held), free(gateway);
}
/* What it holds, in constant time: `weight` is in bytes, and `status` OK. */
static inline cache_gateway_counts cache_gateway_get_counts(cache_gateway *gateway) {
    cache_gateway_counts counts = {0, 0, 0, 0};
    @SYMBOL@_get_counts(gateway->held, &counts);
    return counts;
}
/* How many exchanges are open. */
static inline uint64_t cache_gateway_exchanges(cache_gateway *gateway) { return cache_gateway_get_counts(gateway).exchanges; }

/* ---- requests and outs */

/* Frees what a request holds; does nothing if it holds nothing, or was started. */
static inline void cache_gateway_request_free(cache_gateway_request *request) {
    if (!request->held) return;
    request->held = 0;
    @SYMBOL@_request_free(request->keep);
}
/* Reads the head of the next request, also of one that is rejected. `looked`: so many of these bytes were given before, and answered NEED_MORE. It reads
   options alone, and needs no lock. */
static inline int cache_gateway_parse_request(const cache_gateway *gateway, const void *data, size_t data_len, size_t looked, cache_gateway_request *request) {
    cache_gateway_request_free(request);
    @SYMBOL@_parse_request(&gateway->rules, cache_tier_i_bytes(gateway->rules.settings), gateway->rules.settings_len, cache_tier_i_bytes(data), data_len,
                                  looked, request, request->keep);
    request->held = 1;
    return (int)request->status;
}
/* Frees what an out lends; does nothing if it lends nothing. */
static inline void cache_gateway_out_free(cache_gateway_out *out) {
    if (!out->held) return;
    out->held = 0;
    @SYMBOL@_out_free(out->keep);
}
/* An item of a list of an out, one of cache_gateway_list: ITEM, or NO_ITEM; BAD_ARGUMENT of another list. */
static inline int cache_gateway_out_item(cache_gateway_out *out, uint64_t list, uint64_t index, cache_gateway_item *item) {
    cache_gateway_item none = {CACHE_TIER_NO_ITEM, 0, 0, 0, {NULL, 0}, {0, 0}};
    *item = none;
    if (out->held) @SYMBOL@_out_item(out->keep, list, index, item);
    return (int)item->status;
}
/* Lends pieces for the client, from `start` on, as many as there is room for: how many. */
static inline size_t cache_gateway_out_pieces(cache_gateway_out *out, uint64_t start, cache_tier_slice *pieces, size_t room) {
    cache_gateway_item item;
    size_t n = 0;
    for (; n < room && start + n < out->pieces && cache_gateway_out_item(out, CACHE_GATEWAY_LIST_PIECES, start + n, &item) == CACHE_TIER_ITEM; n++) pieces[n] = item.data;
    return n;
}
/* An exchange to poll, by its place below `wakes`. */
static inline uint64_t cache_gateway_out_wake(cache_gateway_out *out, uint64_t index) {
    cache_gateway_item item;
    cache_gateway_out_item(out, CACHE_GATEWAY_LIST_WAKES, index, &item);
    return item.number;
}

/* ---- calls */

/* Begins the exchange of a request that was parsed: its number is `out->exchange`, and its first poll is in it. The request is gone, whatever is answered;
   one that holds nothing is BAD_ARGUMENT. `peer`: the client's address, for X-Forwarded-For. */
static inline int cache_gateway_start(cache_gateway *gateway, cache_tier_moment now, cache_gateway_request *request, const void *peer, size_t peer_len,
                                      cache_gateway_out *out) {
    cache_gateway_out_free(out);
    if (!request->held) return (int)(out->pieces = out->wakes = out->events = out->purges = out->evicted = 0, out->status = CACHE_TIER_BAD_ARGUMENT);
    request->held = 0;
    @SYMBOL@_start(gateway->held, now.seconds, now.nanoseconds, request->keep, cache_tier_i_bytes(peer), peer_len, out, out->keep);
    out->held = 1;
    return (int)out->status;
}
/* What the client is sent next, and what is due on either side. */
static inline int cache_gateway_poll(cache_gateway *gateway, cache_tier_moment now, uint64_t exchange, cache_gateway_out *out) {
    cache_gateway_out_free(out);
    @SYMBOL@_poll(gateway->held, now.seconds, now.nanoseconds, exchange, out, out->keep);
    out->held = 1;
    return (int)out->status;
}
/* Bytes of the request's body, as they came. */
static inline int cache_gateway_request_data(cache_gateway *gateway, cache_tier_moment now, uint64_t exchange, const void *data, size_t data_len,
                                             cache_gateway_out *out) {
    cache_gateway_out_free(out);
    @SYMBOL@_request_data(gateway->held, now.seconds, now.nanoseconds, exchange, cache_tier_i_bytes(data), data_len, out, out->keep);
    out->held = 1;
    return (int)out->status;
}
/* Bytes of the origin's connection, from the response's head on. The first call of a head is its arrival. */
static inline int cache_gateway_response_head(cache_gateway *gateway, cache_tier_moment now, uint64_t exchange, const void *data, size_t data_len,
                                              cache_gateway_out *out) {
    cache_gateway_out_free(out);
    @SYMBOL@_response_head(gateway->held, now.seconds, now.nanoseconds, exchange, cache_tier_i_bytes(data), data_len, out, out->keep);
    out->held = 1;
    return (int)out->status;
}
/* Bytes of the response's body, as they came. */
static inline int cache_gateway_response_data(cache_gateway *gateway, cache_tier_moment now, uint64_t exchange, const void *data, size_t data_len,
                                              cache_gateway_out *out) {
    cache_gateway_out_free(out);
    @SYMBOL@_response_data(gateway->held, now.seconds, now.nanoseconds, exchange, cache_tier_i_bytes(data), data_len, out, out->keep);
    out->held = 1;
    return (int)out->status;
}
/* The origin's connection ended: one of cache_gateway_closed. */
static inline int cache_gateway_origin_closed(cache_gateway *gateway, cache_tier_moment now, uint64_t exchange, uint64_t closed, cache_gateway_out *out) {
    cache_gateway_out_free(out);
    @SYMBOL@_origin_closed(gateway->held, now.seconds, now.nanoseconds, exchange, closed, out, out->keep);
    out->held = 1;
    return (int)out->status;
}
/* The client went away. */
static inline int cache_gateway_client_closed(cache_gateway *gateway, cache_tier_moment now, uint64_t exchange, cache_gateway_out *out) {
    cache_gateway_out_free(out);
    @SYMBOL@_client_closed(gateway->held, now.seconds, now.nanoseconds, exchange, out, out->keep);
    out->held = 1;
    return (int)out->status;
}
/* Purges a URL as people write it: `found` says whether anything was there. */
static inline int cache_gateway_purge(cache_gateway *gateway, const void *url, size_t url_len, cache_gateway_out *out) {
    cache_gateway_out_free(out);
    @SYMBOL@_purge(gateway->held, cache_tier_i_bytes(url), url_len, out, out->keep);
    out->held = 1;
    return (int)out->status;
}
/* Purges a key that an out of another partition named. */
static inline int cache_gateway_purge_key(cache_gateway *gateway, const void *key, size_t key_len, cache_gateway_out *out) {
    cache_gateway_out_free(out);
    @SYMBOL@_purge_key(gateway->held, cache_tier_i_bytes(key), key_len, out, out->keep);
    out->held = 1;
    return (int)out->status;
}

/* Purges everything: nothing that was asked until now answers who asks from now on, and nothing that is on its way is stored. Who asked before may get what
   is stale in the place of an error. Bodies are freed as their keys are asked for, or go for room. */
static inline int cache_gateway_purge_all(cache_gateway *gateway, cache_tier_moment now, cache_gateway_out *out) {
    cache_gateway_out_free(out);
    @SYMBOL@_purge_all(gateway->held, now.seconds, now.nanoseconds, out, out->keep);
    out->held = 1;
    return (int)out->status;
}
/* Before an end: each exchange that begins from now on says `Connection: close`, and ends by CLIENT_CLOSE. */
static inline void cache_gateway_stop(cache_gateway *gateway) {
    @SYMBOL@_stop(gateway->held);
}

/* ---- partitions: several gateways, each with a lock of the caller's and its share of the limits. A request goes to the partition of its key. */

/* The partition of a request; of none: 0. */
static inline size_t cache_gateway_partition(const cache_gateway_request *request, size_t partitions) {
    return (size_t)((request->place & 0xffffffff) * partitions >> 32);
}
/* The partition of a key. */
static inline size_t cache_gateway_partition_of_key(const void *key, size_t key_len, size_t partitions) {
    uint8_t digest[16];
    cache_tier_digest(key, key_len, digest);
    return cache_tier_partition(digest, partitions);
}

/* A call whose keys are purged in the other partitions: its exchange gives nothing meanwhile. */
typedef struct cache_gateways_purging {
    struct cache_gateways_purging *next;
    uint64_t exchange;
    uint64_t is_polled;
} cache_gateways_purging;

/* Gateways, with locks that the caller gives: `lock(locks, partition)` and `unlock`. No lock is held while another is taken. */
typedef struct cache_gateways {
    cache_gateway **parts;
    cache_gateways_purging **purging; /* as many, NULL at first */
    size_t count;
    void (*lock)(void *locks, size_t partition);
    void (*unlock)(void *locks, size_t partition);
    void *locks;
    /* Told, without a lock, of each exchange to poll: by its partition and number. */
    void (*wake)(void *waker, size_t partition, uint64_t exchange);
    void *waker;
} cache_gateways;
/* An exchange of one of them. */
typedef struct cache_gateways_handle {
    size_t partition;
    uint64_t exchange;
} cache_gateways_handle;

/* Internal: notes, under the lock, that keys are to be purged elsewhere. */
static inline void cache_gateways_i_note(cache_gateways *all, size_t partition, const cache_gateway_out *out, cache_gateways_purging *purging) {
    if (!out->purges) return;
    purging->next = all->purging[partition], purging->exchange = out->exchange, purging->is_polled = 0;
    all->purging[partition] = purging;
}
/* Internal: what an out asks of the other partitions, with no lock held; then its own wakes. */
static inline int cache_gateways_i_after(cache_gateways *all, size_t partition, cache_gateway_out *out, cache_gateways_purging *purging) {
    cache_gateway_item item;
    cache_gateways_purging **at;
    uint64_t i, j;
    for (i = 0; i < out->purges && cache_gateway_out_item(out, CACHE_GATEWAY_LIST_PURGES, i, &item) == CACHE_TIER_ITEM; i++) {
        size_t other = cache_gateway_partition_of_key(item.data.ptr, item.data.len, all->count);
        cache_gateway_out told = CACHE_TIER_RESPONSE_INIT;
        if (other == partition) continue;
        all->lock(all->locks, other);
        cache_gateway_purge_key(all->parts[other], item.data.ptr, item.data.len, &told);
        all->unlock(all->locks, other);
        for (j = 0; j < told.wakes; j++) all->wake(all->waker, other, cache_gateway_out_wake(&told, j));
        cache_gateway_out_free(&told);
    }
    if (out->purges) {
        all->lock(all->locks, partition);
        for (at = &all->purging[partition]; *at != purging; at = &(*at)->next) continue;
        *at = purging->next;
        all->unlock(all->locks, partition);
        if (purging->is_polled) all->wake(all->waker, partition, purging->exchange);
    }
    for (j = 0; j < out->wakes; j++) all->wake(all->waker, partition, cache_gateway_out_wake(out, j));
    return (int)out->status;
}
/* Internal: whether there is such a partition. */
static inline int cache_gateways_i_has(const cache_gateways *all, cache_gateways_handle handle, cache_gateway_out *out) {
    cache_gateway_out none = CACHE_TIER_RESPONSE_INIT;
    if (handle.partition < all->count) return 1;
    cache_gateway_out_free(out);
    *out = none, out->status = CACHE_GATEWAY_NO_EXCHANGE;
    return 0;
}
/* As cache_gateway_start, in the partition of the request. */
static inline int cache_gateways_start(cache_gateways *all, cache_tier_moment now, cache_gateway_request *request, const void *peer, size_t peer_len,
                                       cache_gateways_handle *handle, cache_gateway_out *out) {
    cache_gateways_purging purging;
    size_t partition = cache_gateway_partition(request, all->count);
    all->lock(all->locks, partition);
    cache_gateway_start(all->parts[partition], now, request, peer, peer_len, out);
    cache_gateways_i_note(all, partition, out, &purging);
    all->unlock(all->locks, partition);
    handle->partition = partition, handle->exchange = out->exchange;
    return cache_gateways_i_after(all, partition, out, &purging);
}
/* As cache_gateway_poll; nothing is given while other partitions are purged for this exchange: it is woken then. */
static inline int cache_gateways_poll(cache_gateways *all, cache_tier_moment now, cache_gateways_handle handle, cache_gateway_out *out) {
    cache_gateways_purging purging, *it;
    cache_gateway_out none = CACHE_TIER_RESPONSE_INIT;
    if (!cache_gateways_i_has(all, handle, out)) return (int)out->status;
    all->lock(all->locks, handle.partition);
    for (it = all->purging[handle.partition]; it && it->exchange != handle.exchange; it = it->next) continue;
    if (it) {
        it->is_polled = 1;
        all->unlock(all->locks, handle.partition);
        cache_gateway_out_free(out);
        *out = none, out->exchange = handle.exchange, out->client = CACHE_GATEWAY_CLIENT_WAIT;
        return (int)(out->status = CACHE_GATEWAY_DONE);
    }
    cache_gateway_poll(all->parts[handle.partition], now, handle.exchange, out);
    cache_gateways_i_note(all, handle.partition, out, &purging);
    all->unlock(all->locks, handle.partition);
    return cache_gateways_i_after(all, handle.partition, out, &purging);
}
static inline int cache_gateways_request_data(cache_gateways *all, cache_tier_moment now, cache_gateways_handle handle, const void *data, size_t data_len,
                                              cache_gateway_out *out) {
    cache_gateways_purging purging;
    if (!cache_gateways_i_has(all, handle, out)) return (int)out->status;
    all->lock(all->locks, handle.partition);
    cache_gateway_request_data(all->parts[handle.partition], now, handle.exchange, data, data_len, out);
    cache_gateways_i_note(all, handle.partition, out, &purging);
    all->unlock(all->locks, handle.partition);
    return cache_gateways_i_after(all, handle.partition, out, &purging);
}
static inline int cache_gateways_response_head(cache_gateways *all, cache_tier_moment now, cache_gateways_handle handle, const void *data, size_t data_len,
                                               cache_gateway_out *out) {
    cache_gateways_purging purging;
    if (!cache_gateways_i_has(all, handle, out)) return (int)out->status;
    all->lock(all->locks, handle.partition);
    cache_gateway_response_head(all->parts[handle.partition], now, handle.exchange, data, data_len, out);
    cache_gateways_i_note(all, handle.partition, out, &purging);
    all->unlock(all->locks, handle.partition);
    return cache_gateways_i_after(all, handle.partition, out, &purging);
}
static inline int cache_gateways_response_data(cache_gateways *all, cache_tier_moment now, cache_gateways_handle handle, const void *data, size_t data_len,
                                               cache_gateway_out *out) {
    cache_gateways_purging purging;
    if (!cache_gateways_i_has(all, handle, out)) return (int)out->status;
    all->lock(all->locks, handle.partition);
    cache_gateway_response_data(all->parts[handle.partition], now, handle.exchange, data, data_len, out);
    cache_gateways_i_note(all, handle.partition, out, &purging);
    all->unlock(all->locks, handle.partition);
    return cache_gateways_i_after(all, handle.partition, out, &purging);
}
static inline int cache_gateways_origin_closed(cache_gateways *all, cache_tier_moment now, cache_gateways_handle handle, uint64_t closed, cache_gateway_out *out) {
    cache_gateways_purging purging;
    if (!cache_gateways_i_has(all, handle, out)) return (int)out->status;
    all->lock(all->locks, handle.partition);
    cache_gateway_origin_closed(all->parts[handle.partition], now, handle.exchange, closed, out);
    cache_gateways_i_note(all, handle.partition, out, &purging);
    all->unlock(all->locks, handle.partition);
    return cache_gateways_i_after(all, handle.partition, out, &purging);
}
static inline int cache_gateways_client_closed(cache_gateways *all, cache_tier_moment now, cache_gateways_handle handle, cache_gateway_out *out) {
    cache_gateways_purging purging;
    if (!cache_gateways_i_has(all, handle, out)) return (int)out->status;
    all->lock(all->locks, handle.partition);
    cache_gateway_client_closed(all->parts[handle.partition], now, handle.exchange, out);
    cache_gateways_i_note(all, handle.partition, out, &purging);
    all->unlock(all->locks, handle.partition);
    return cache_gateways_i_after(all, handle.partition, out, &purging);
}
/* Purges a URL, which lies in one of the partitions: each is asked, and `found` says whether anything was there. */
static inline int cache_gateways_purge(cache_gateways *all, const void *url, size_t url_len, cache_gateway_out *out) {
    cache_gateways_purging purging;
    size_t i;
    uint64_t found = 0;
    for (i = 0; i < all->count; i++) {
        all->lock(all->locks, i);
        cache_gateway_purge(all->parts[i], url, url_len, out);
        cache_gateways_i_note(all, i, out, &purging);
        all->unlock(all->locks, i);
        cache_gateways_i_after(all, i, out, &purging);
        found |= out->found;
        if (out->status != CACHE_GATEWAY_DONE) break;
    }
    out->found = found;
    return (int)out->status;
}
/* Purges everything, in each of the partitions. */
static inline int cache_gateways_purge_all(cache_gateways *all, cache_tier_moment now, cache_gateway_out *out) {
    cache_gateways_purging purging;
    size_t i;
    for (i = 0; i < all->count; i++) {
        all->lock(all->locks, i);
        cache_gateway_purge_all(all->parts[i], now, out);
        cache_gateways_i_note(all, i, out, &purging);
        all->unlock(all->locks, i);
        cache_gateways_i_after(all, i, out, &purging);
        if (out->status != CACHE_GATEWAY_DONE) break;
    }
    return (int)out->status;
}
/* As cache_gateway_stop, in each of the partitions. */
static inline void cache_gateways_stop(cache_gateways *all) {
    size_t i;
    for (i = 0; i < all->count; i++) {
        all->lock(all->locks, i);
        cache_gateway_stop(all->parts[i]);
        all->unlock(all->locks, i);
    }
}

#ifdef __cplusplus
}
#endif
#endif
