/* HTTP's rules over a tier, for one request at a time: all that a proxy does but its sockets. `ask` asks the origin: a whole answer, whose body isn't in
   chunks. Nothing waits for another's fetch; proxy.py does that too.
       gcc -Iembed examples/loop.c libcache_tier.a -lpthread */
#include "cache_rules.h"
#include <stdio.h>
#include <time.h>

static uint8_t request_buf[65536], keys_buf[65536], sent_buf[65536], response_buf[65536], decision_buf[65536], index_buf[65536], buf[65536];
static cache_rules_options o;
static const cache_tier_slice none = {NULL, 0};

static cache_tier_moment now(void) {
    struct timespec t;
    clock_gettime(CLOCK_REALTIME, &t);
    return (cache_tier_moment){(uint64_t)t.tv_sec, (uint64_t)t.tv_nsec};
}
static cache_tier_key of(cache_tier_slice key) { return cache_tier_key_from_name(key.ptr, key.len); }
static int is_index(cache_tier *t, cache_tier_slice first, cache_tier_response *index) {
    return cache_tier_peek(t, of(first), index) == CACHE_TIER_FOUND && index->head.status_code == CACHE_RULES_VARY_INDEX_STATUS;
}

/* The key to go on by, and what was found under it; `index`: the vary index under the first key. */
static cache_tier_slice finds(cache_tier *t, const cache_rules_request_head *q, cache_tier_response *index, cache_tier_response *found) {
    cache_tier_slice key = cache_rules_request_key(q);
    cache_tier_moment at = {0, 0};
    cache_rules_message each;
    if (!is_index(t, key, index)) return cache_tier_peek(t, of(key), found), index->body = none, key;
    if (cache_rules_secondary_keys(&o, q, index->body, keys_buf, sizeof keys_buf, &each) != CACHE_RULES_DONE || !each.key_count) return key;
    key = cache_rules_slice(keys_buf, each.parts[0].prefix);
    for (uint64_t i = 0; i < each.key_count; i++) {
        cache_tier_slice own = cache_rules_slice(keys_buf, each.parts[i].prefix);
        if (cache_tier_peek(t, of(own), found) != CACHE_TIER_FOUND) continue;
        cache_tier_moment it = found->head.updated;
        if (it.seconds > at.seconds || (it.seconds == at.seconds && it.nanoseconds > at.nanoseconds)) at = it, key = own;
    }
    return cache_tier_peek(t, of(key), found), key;
}
/* Stores a response, under the key of its set of Vary. */
static void stores(cache_tier *t, const cache_rules_request_head *q, const cache_rules_response_head *r, cache_tier_slice key, int has_index,
                   const cache_rules_store_decision *decision, cache_tier_slice body, const char *token) {
    cache_tier_result result;
    cache_tier_slice first = cache_rules_request_key(q), index = none;
    cache_tier_response there = CACHE_TIER_RESPONSE_INIT;
    cache_rules_store_decision new;
    cache_rules_message each;
    if (decision->needs_vary_index || has_index) {
        if (is_index(t, first, &there)) index = there.body;
        if (cache_rules_update_vary_index(&o, r, now(), index, token, strlen(token), index_buf, sizeof index_buf, &new) == CACHE_RULES_STORE) {
            index = cache_rules_slice(index_buf, new.body);
            cache_tier_slice head = cache_rules_slice(index_buf, new.head);
            cache_tier_put(t, now(), of(first), head.ptr, head.len, index.ptr, index.len, &new.meta, &result);
        }
        key = first;
        if (index.len && cache_rules_secondary_keys(&o, q, index, keys_buf, sizeof keys_buf, &each) == CACHE_RULES_DONE)
            key = cache_rules_slice(keys_buf, each.parts[new.place].prefix);
        cache_tier_release(&there);
    }
    cache_tier_slice head = cache_rules_slice(decision_buf, decision->head);
    cache_tier_put(t, now(), of(key), head.ptr, head.len, body.ptr, body.len, &decision->meta, &result);
}
/* What a client is sent for a request's head: a message, over `buf`, and the body whose parts it names. */
static cache_tier_slice serves(cache_tier *t, const char *data, size_t len, cache_tier_slice (*ask)(cache_tier_slice head), const char *token, int again,
                               cache_tier_response *found, cache_rules_message *out) {
    cache_tier_result result;
    cache_tier_response index = CACHE_TIER_RESPONSE_INIT;
    cache_rules_request_head q;
    cache_rules_response_head r;
    cache_rules_store_decision decision;
    cache_rules_cache_status how = {1, 0, 0, 0, 0, 0, 0, 0};
    if (cache_rules_parse_request(&o, data, len, request_buf, sizeof request_buf, &q) != CACHE_RULES_PARSED || q.plan == CACHE_RULES_PLAN_RESPOND)
        return cache_rules_make_response(&o, &q, q.error_code, q.reason, now(), buf, sizeof buf, out), none;
    cache_tier_slice key = cache_rules_request_key(&q), body;
    uint64_t reuse = CACHE_RULES_REUSE_BYPASS;
    if (q.plan == CACHE_RULES_PLAN_LOOKUP) {
        key = finds(t, &q, &index, found), reuse = CACHE_RULES_REUSE_AFTER_VALIDATION;
        if (found->held && !again) {
            cache_rules_reuse_stored(&o, &q, &found->head, found->body.len, now(), &how, buf, sizeof buf, out);
            reuse = out->reuse;
        }
        if (reuse < CACHE_RULES_REUSE_AFTER_VALIDATION) return cache_tier_release(&index), found->body;
        if (q.flags & CACHE_RULES_ONLY_IF_CACHED)
            return cache_tier_release(&index), cache_rules_make_response(&o, &q, 504, CACHE_RULES_REASON_ONLY_IF_CACHED, now(), buf, sizeof buf, out), none;
    }
    int passes = reuse == CACHE_RULES_REUSE_BYPASS, has_index = index.body.len != 0;
    uint64_t fetch = passes        ? CACHE_RULES_FETCH_PASS
                     : again       ? CACHE_RULES_FETCH_UNCONDITIONAL
                     : found->held ? CACHE_RULES_FETCH_CONDITIONAL
                                   : CACHE_RULES_FETCH_FULL;
    const cache_tier_head *old = found->held ? &found->head : NULL;
    cache_rules_forward_request(&o, &q, fetch, fetch == CACHE_RULES_FETCH_CONDITIONAL ? old : NULL, none, sent_buf, sizeof sent_buf, out);
    cache_tier_moment asked = now();
    cache_tier_slice came = ask(cache_rules_slice(sent_buf, out->head));
    how = (cache_rules_cache_status){0, passes ? CACHE_RULES_FWD_BYPASS : CACHE_RULES_FWD_MISS, 0, 0, 0, 0, out->fetch, 0};
    int is_head = (out->flags & CACHE_RULES_IS_HEAD) != 0;
    if (cache_rules_parse_response(&o, is_head, now(), came.ptr, came.len, response_buf, sizeof response_buf, &r) != CACHE_RULES_PARSED)
        return cache_tier_release(&index), cache_rules_make_response(&o, &q, 502, r.reason, now(), buf, sizeof buf, out), none;
    cache_rules_exchange exchange = {&q, &r, (uint64_t)is_head, asked, now(), index.body};
    body = (cache_tier_slice){came.ptr + r.head_len, came.len - r.head_len}, how.fwd_status = r.status_code;
    if (passes) {
        cache_rules_invalidated_keys(&o, &q, &r, buf, sizeof buf, out);
        const uint8_t *at = cache_rules_slice(buf, out->tail).ptr;
        for (const uint8_t *end; out->key_count-- > 0; at = end + 1)
            end = memchr(at, '\n', sizeof buf), cache_tier_purge(t, cache_tier_key_from_name(at, (size_t)(end - at)), &result);
        return cache_rules_relay_response(&o, &exchange, &how, buf, sizeof buf, out), body;
    }
    if (old && cache_rules_stale_on_error(&o, &q, old, now(), r.status_code, out) == CACHE_RULES_DONE && out->serve_stale)
        return cache_tier_release(&index), cache_rules_serve_stored(&o, &q, old, found->body.len, now(), &how, buf, sizeof buf, out), found->body;
    int confirms = how.fetch == CACHE_RULES_FETCH_CONDITIONAL && (r.status_code == 304 || (is_head && r.status_code == 200));
    if (confirms) cache_rules_freshen(&o, &exchange, old, found->body.len, decision_buf, sizeof decision_buf, &decision);
    else cache_rules_decide_store(&o, &exchange, old, decision_buf, sizeof decision_buf, &decision);
    if (decision.purge) cache_tier_purge(t, of(key), &result);
    if (decision.status == CACHE_RULES_STORE) stores(t, &q, &r, key, has_index && !confirms, &decision, confirms ? found->body : body, token);
    cache_tier_release(&index);
    if (decision.status == CACHE_RULES_MISMATCH && r.status_code == 304) return serves(t, data, len, ask, token, 1, found, out);
    const cache_tier_head *served = &decision.served_head;
    if (confirms && r.status_code == 304) return cache_rules_serve_stored(&o, &q, served, found->body.len, now(), &how, buf, sizeof buf, out), found->body;
    how.stored = decision.status == CACHE_RULES_STORE && !confirms;
    if (how.stored) return cache_rules_serve_stored(&o, &q, served, body.len, now(), &how, buf, sizeof buf, out), body;
    return cache_rules_relay_response(&o, &exchange, &how, buf, sizeof buf, out), body;
}

static int fetches;
static cache_tier_slice origin(cache_tier_slice head) {
    static const char page[] = "HTTP/1.1 200 OK\r\nCache-Control: max-age=60\r\nVary: Accept-Language\r\nContent-Length: 5\r\n\r\nhello";
    return fetches++, (void)head, (cache_tier_slice){(const uint8_t *)page, sizeof page - 1};
}
int main(void) {
    static const char request[] = "GET /a HTTP/1.1\r\nHost: a.example\r\nAccept-Language: de\r\n\r\n";
    cache_tier_options options = cache_tier_default_options(1 << 20, 1);
    cache_tier *t;
    if (cache_tier_new(&t, &options) != CACHE_TIER_OK) return 1;
    o = cache_rules_default_options();
    for (int i = 0; i < 3; i++) {
        cache_tier_response found = CACHE_TIER_RESPONSE_INIT;
        cache_rules_message out;
        cache_tier_slice body = serves(t, request, sizeof request - 1, origin, "0123456789abcdef", 0, &found, &out);
        printf("%d %.*s %d\n", (int)out.status_code, (int)body.len, (const char *)body.ptr, fetches); /* (of a whole answer: one part has it all) */
        cache_tier_release(&found);
    }
    cache_tier_free(t);
    return 0;
}
