/* HTTP's rules for a shared cache, as pure functions; docs/rules.md says what each decides. This file is written by tools/dev/interface.py: change its
   template, or embed/interface_rules.toml.

   Each call is given all that it looks at, and writes texts into `buf`, a buffer of the caller that none of its arguments lies in; where a text stands
   there is told as a span. No call keeps anything, and none needs a lock. Besides what each says it may answer MEMORY, BAD_ARGUMENT (options; a struct
   that no call here filled, but make_response takes any request) and BUFFER_TOO_SMALL.

   A request's way: parse_request; then by `plan`
     PLAN_LOOKUP   get by the key; no hit: open with lock, lookup. Then decide_reuse (or reuse_stored, which serves too):
                     REUSE_FRESH, REUSE_STALE    serve_stored
                     REUSE_WHILE_REVALIDATING    serve_stored; whose lookup got the permit goes on as for REUSE_AFTER_VALIDATION, without a client:
                                                 FETCH_CONDITIONAL, and FETCH_UNCONDITIONAL where that was written as FETCH_FULL
                     REUSE_AFTER_VALIDATION      (also where nothing was found) ONLY_IF_CACHED: 504 by make_response. Else forward_request,
                                                 parse_response; after what was written as FETCH_CONDITIONAL freshen of a 304, and of a 200 to HEAD
                                                 (then relay_response), else decide_store:
                                                 STORE: purge if `purge`; where it varies or there is a vary index, update_vary_index says under
                                                 which key; begin, put or revalidate with its head and meta, then serve_stored over `served_head`;
                                                 DO_NOT_STORE: give_up, relay_response, and purge if `purge`
                     REUSE_BYPASS                as PLAN_PASS
     PLAN_PASS     forward_request, parse_response, invalidated_keys (purge each), relay_response
     PLAN_RESPOND  make_response, with `error_code`
   What is found with the status code CACHE_RULES_VARY_INDEX_STATUS is a vary index: secondary_keys gives the keys, under one
   of which it goes on.
   A head that was PARSED is gone from the connection by `head_len` bytes; its body is read by decode_body. */
#ifndef CACHE_RULES_H
#define CACHE_RULES_H
#include "cache_tier.h"

#ifdef __cplusplus
extern "C" {
#endif

#define CACHE_RULES_MAX_RANGES 16           /* the greatest max_ranges */
#define CACHE_RULES_VARY_INDEX_STATUS 600   /* of a head that update_vary_index wrote: it is no response */
/* A buffer that suffices for arguments of so many bytes together, but for several parts under a long Content-Type, and of invalidated_keys. */
#define CACHE_RULES_BUF_LEN(bytes) (3 * (size_t)(bytes) + 4096)

@DECLARATIONS@
/* ---- helpers */

/* The text of a span, in the buffer that it was written to. */
static inline cache_tier_slice cache_rules_slice(const uint8_t *buf, cache_rules_span span) {
    cache_tier_slice slice = {buf + span.start, (size_t)(span.end - span.start)};
    return slice;
}
static inline cache_tier_slice cache_rules_request_key(const cache_rules_request_head *request) { return cache_rules_slice(request->buf, request->key); }
@DEFAULTS@
static inline const cache_tier_head *cache_rules_i_stored(const cache_tier_head *stored) { /* internal */
    static const cache_tier_head none = {0, 0, {0, 0}, {0, 0}, {0, 0}, {0, 0}, 0, 0, 0, {NULL, 0}, 0};
    return stored ? stored : &none;
}
static inline void cache_rules_i_served(cache_rules_store_decision *decision, const uint8_t *buf) { /* internal */
    decision->served_head.fields = cache_rules_slice(buf, decision->fields);
}
/* A decoder of a body: `framing` and `body_len` of its head; its trailers have at most `max_trailer_bytes`. */
static inline cache_rules_body_decoder cache_rules_make_body_decoder(uint64_t framing, uint64_t body_len, uint64_t max_trailer_bytes) {
    cache_rules_body_decoder decoder = {{framing, body_len, max_trailer_bytes, 0, 0, 0, 0, 0}};
    return decoder;
}

/* ---- calls */

/* Prepares the settings, so that no call reads and checks them anew: once, at the start. DONE: they are in the buffer, which stays; prepared ones can't be
   prepared again. BAD_ARGUMENT: check_options says which line. `settings_len` + 2 bytes suffice. */
static inline int cache_rules_prepare_settings(cache_rules_options *options, uint8_t *buf, size_t buf_len, cache_rules_message *message) {
    @SYMBOL@_prepare_settings(options, cache_tier_i_bytes(options->settings), options->settings_len, buf, buf_len, message);
    if (message->status == CACHE_RULES_DONE) options->settings = (const char *)buf, options->settings_len = (size_t)message->head.end;
    return (int)message->status;
}
/* Where a head ends in the bytes that came: how many it has, or 0. `start`: how many were there at the last call, 0 at the first. For a head that
   parse_request answered NEED_MORE of: call that first, and this only then, to see cheaply whether the rest has come. */
static inline uint64_t cache_rules_head_end(const void *data, size_t data_len, size_t start) {
    return @SYMBOL@_head_end(cache_tier_i_bytes(data), data_len, start);
}
@CALLS@
#ifdef __cplusplus
}
#endif
#endif
