/* The calls of cache_gateway.h: a miss stored, a hit, a follower, a 304, purges, a stop, unlawful calls; and gateways in partitions. */
#include "cache_gateway.h"
#include <assert.h>
#include <stdio.h>

#define OF(text) text, sizeof text - 1
static cache_tier_moment at(uint64_t s) { return (cache_tier_moment){s, 0}; }
static cache_gateway_out out = CACHE_TIER_RESPONSE_INIT;
static char sent[1 << 16];

/* All that a client is sent by the last call, as a text. */
static const char *text(void) {
    cache_tier_slice piece[4];
    size_t len = 0;
    for (uint64_t i = 0; i < out.pieces;) {
        size_t n = cache_gateway_out_pieces(&out, i, piece, 4);
        assert(n);
        for (size_t j = 0; j < n; j++) memcpy(sent + len, piece[j].ptr, piece[j].len), len += piece[j].len;
        i += n;
    }
    sent[len] = 0;
    return sent;
}
static int has(const char *what) { return strstr(text(), what) != NULL; }
static int did(uint64_t event) {
    cache_gateway_item item;
    for (uint64_t i = 0; i < out.events; i++)
        if (cache_gateway_out_item(&out, CACHE_GATEWAY_LIST_EVENTS, i, &item) == CACHE_TIER_ITEM && item.number == event) return 1;
    return 0;
}
static int asked(const char *what) {
    char head[512] = {0};
    assert(out.to_origin.len < sizeof head);
    memcpy(head, out.to_origin.ptr, out.to_origin.len);
    return strstr(head, what) != NULL;
}
static cache_gateway *made(void) {
    cache_rules_options options = cache_rules_default_options();
    cache_gateway_limits limits = cache_gateway_default_limits();
    cache_gateway *g;
    int status = cache_gateway_open(&g, at(1000), &limits, &options, OF("sixteen random.."));
    assert(status == CACHE_TIER_OK && g);
    return g;
}
static uint64_t starts(cache_gateway *g, cache_tier_moment now, const char *request) {
    cache_gateway_request q = CACHE_TIER_RESPONSE_INIT;
    int status = cache_gateway_parse_request(g, request, strlen(request), 0, &q);
    assert(status == CACHE_GATEWAY_DONE && q.head_len);
    status = cache_gateway_start(g, now, &q, OF("127.0.0.1"), &out);
    assert(status == CACHE_GATEWAY_DONE && out.exchange);
    return out.exchange;
}
#define GET(path) "GET " path " HTTP/1.1\r\nHost: a.example\r\n\r\n"
#define FRESH "HTTP/1.1 200 OK\r\nCache-Control: max-age=10\r\nETag: \"1\"\r\nContent-Length: 4\r\n\r\n"

static void parsed(cache_gateway *g) {
    cache_gateway_request q = CACHE_TIER_RESPONSE_INIT;
    assert(cache_gateway_parse_request(g, "GET", 3, 0, &q) == CACHE_GATEWAY_NEED_MORE && q.head_len == 0);
    assert(cache_gateway_parse_request(g, OF(GET("/a")), 3, &q) == CACHE_GATEWAY_DONE && !q.is_rejected);
    assert(q.key.len == strlen("http://a.example/a") && !memcmp(q.key.ptr, "http://a.example/a", q.key.len));
    assert(q.method.len == 3 && q.host.len == 9 && !memcmp(q.host.ptr, "a.example", 9) && q.target.len == 2 && !memcmp(q.target.ptr, "/a", 2));
    assert(cache_gateway_partition(&q, 7) == cache_gateway_partition_of_key(q.key.ptr, q.key.len, 7) && !cache_gateway_partition(&q, 0));
    assert(cache_gateway_parse_request(g, OF("GET / HTTP/1.1\r\nHost : a\r\n\r\n"), 0, &q) == CACHE_GATEWAY_DONE && q.is_rejected && !q.key.len && !q.host.len);
    assert(cache_gateway_start(g, at(1000), &q, NULL, 0, &out) == CACHE_GATEWAY_DONE && has("HTTP/1.1 400 ") && out.client == CACHE_GATEWAY_CLIENT_CLOSE);
    assert(cache_gateway_start(g, at(1000), &q, NULL, 0, &out) == CACHE_TIER_BAD_ARGUMENT && !out.pieces);
    cache_gateway_request_free(&q);
}
/* A fetches, B follows it; C hits; once it is stale D has it validated. */
static void stored(cache_gateway *g) {
    uint64_t a, b;
    a = starts(g, at(1000), GET("/a"));
    assert(out.origin == CACHE_GATEWAY_ORIGIN_SEND_REQUEST && asked("GET /a HTTP/1.1\r\n") && out.client == CACHE_GATEWAY_CLIENT_WAIT && did(CACHE_GATEWAY_EVENT_REQUESTED));
    b = starts(g, at(1000), GET("/a"));
    assert(b != a && out.client == CACHE_GATEWAY_CLIENT_WAIT && out.has_at && out.at.seconds == 1010 && did(CACHE_GATEWAY_EVENT_WAITING));
    assert(cache_gateway_response_head(g, at(1001), a, "HTTP/1.1", 8, &out) == CACHE_GATEWAY_NEED_MORE && !out.used);
    assert(cache_gateway_response_head(g, at(1001), a, OF(FRESH "pa"), &out) == CACHE_GATEWAY_DONE && out.used == sizeof FRESH - 1);
    assert(out.origin == CACHE_GATEWAY_ORIGIN_RECEIVE_BODY && out.wakes == 2 && did(CACHE_GATEWAY_EVENT_STORED));
    cache_gateway_response_data(g, at(1001), a, "pa", 2, &out);
    cache_gateway_poll(g, at(1001), b, &out);
    assert(did(CACHE_GATEWAY_EVENT_COLLAPSED) && has("200 OK") && has("\r\n\r\npa") && out.client == CACHE_GATEWAY_CLIENT_WAIT);
    cache_gateway_response_data(g, at(1001), a, "ge", 2, &out);
    assert(out.used == 2 && out.origin == CACHE_GATEWAY_ORIGIN_REUSABLE && did(CACHE_GATEWAY_EVENT_COMPLETED));
    cache_gateway_poll(g, at(1001), b, &out);
    assert(!strcmp(text(), "ge") && out.client == CACHE_GATEWAY_CLIENT_END);
    cache_gateway_poll(g, at(1001), a, &out);
    assert(has("\r\n\r\npage") && out.client == CACHE_GATEWAY_CLIENT_END);
    starts(g, at(1002), GET("/a"));
    assert(did(CACHE_GATEWAY_EVENT_HIT) && has("\r\n\r\npage") && out.client == CACHE_GATEWAY_CLIENT_END && !cache_gateway_exchanges(g));
    a = starts(g, at(1020), GET("/a"));
    assert(out.origin == CACHE_GATEWAY_ORIGIN_SEND_REQUEST && asked("\r\nIf-None-Match: \"1\"\r\n"));
    cache_gateway_response_head(g, at(1020), a, OF("HTTP/1.1 304 Not Modified\r\nETag: \"1\"\r\nCache-Control: max-age=10\r\n\r\n"), &out);
    assert(did(CACHE_GATEWAY_EVENT_FRESHENED) && out.origin == CACHE_GATEWAY_ORIGIN_REUSABLE);
    cache_gateway_poll(g, at(1020), a, &out);
    assert(has("200 OK") && has("\r\n\r\npage") && out.client == CACHE_GATEWAY_CLIENT_END);
}
/* What it holds: a body of 4 bytes with its head, and nothing of a purged one. */
static void counted(cache_gateway *g) {
    cache_gateway_counts it = cache_gateway_get_counts(g);
    assert(it.status == CACHE_TIER_OK && !it.exchanges && it.tracked == 1 && it.weight >= 4 && it.weight < 4096);
    uint64_t a = starts(g, at(1021), GET("/other"));
    assert(cache_gateway_get_counts(g).exchanges == 1 && cache_gateway_get_counts(g).weight == it.weight);
    cache_gateway_client_closed(g, at(1021), a, &out);
    cache_gateway_origin_closed(g, at(1021), a, CACHE_GATEWAY_CLOSED_FAILED, &out);
}
/* What lies in an out stays, whatever comes. */
static void lent(cache_gateway *g) {
    cache_gateway_out first = CACHE_TIER_RESPONSE_INIT;
    cache_tier_slice piece[4];
    starts(g, at(1021), GET("/a"));
    first = out, memset(&out, 0, sizeof out); /* (a move) */
    assert(cache_gateway_purge(g, OF("http://a.example/a"), &out) == CACHE_GATEWAY_DONE && out.found);
    assert(cache_gateway_purge(g, OF("http://a.example/a"), &out) == CACHE_GATEWAY_DONE && !out.found);
    assert(!cache_gateway_get_counts(g).tracked && !cache_gateway_get_counts(g).weight);
    assert(cache_gateway_purge(g, OF("http://a.example/a b"), &out) == CACHE_TIER_BAD_ARGUMENT);
    size_t n = cache_gateway_out_pieces(&first, 0, piece, 4);
    assert(n == 2 && piece[1].len == 4 && !memcmp(piece[1].ptr, "page", 4));
    cache_gateway_out_free(&first), cache_gateway_out_free(&first);
}
/* What is purged before its head came isn't stored. */
static void purged(cache_gateway *g) {
    uint64_t a = starts(g, at(1000), GET("/p"));
    assert(cache_gateway_purge_key(g, OF("http://a.example/p"), &out) == CACHE_GATEWAY_DONE && !out.found);
    cache_gateway_response_head(g, at(1000), a, OF(FRESH), &out);
    assert(did(CACHE_GATEWAY_EVENT_RELAYED));
    cache_gateway_response_data(g, at(1000), a, "page", 4, &out);
    cache_gateway_poll(g, at(1000), a, &out);
    assert(has("\r\n\r\npage") && has("detail=purged") && !cache_gateway_exchanges(g));
    a = starts(g, at(1000), GET("/p"));
    assert(out.origin == CACHE_GATEWAY_ORIGIN_SEND_REQUEST);
    assert(cache_gateway_origin_closed(g, at(1000), a, CACHE_GATEWAY_CLOSED_FAILED, &out) == CACHE_GATEWAY_DONE);
    cache_gateway_poll(g, at(1000), a, &out);
    assert(has("HTTP/1.1 502 ") && !cache_gateway_exchanges(g));
}
static void fetched(cache_gateway *g, cache_tier_moment now, const char *request, const char *head) {
    uint64_t a = starts(g, now, request);
    assert(out.origin == CACHE_GATEWAY_ORIGIN_SEND_REQUEST);
    cache_gateway_response_head(g, now, a, head, strlen(head), &out);
    assert(out.origin == CACHE_GATEWAY_ORIGIN_RECEIVE_BODY);
    cache_gateway_response_data(g, now, a, "page", 4, &out);
    cache_gateway_poll(g, now, a, &out);
    assert(has("\r\n\r\npage"));
}
/* Everything is purged; and from a stop on each answer says that its connection ends. */
static void ended(void) {
    cache_gateway *g = made();
    const char *varied = "GET /v HTTP/1.1\r\nHost: a.example\r\nAccept: x\r\n\r\n";
    uint64_t b;
    fetched(g, at(1000), GET("/a"), FRESH);
    b = starts(g, at(1000), GET("/b"));
    assert(cache_gateway_response_head(g, at(1000), starts(g, at(1000), varied), OF("HTTP/1.1 200 OK\r\nCache-Control: max-age=10\r\nVary: Accept\r\nContent-Length: 0\r\n\r\n"), &out) == CACHE_GATEWAY_DONE);
    assert(did(CACHE_GATEWAY_EVENT_VARY_INDEX) && did(CACHE_GATEWAY_EVENT_STORED) && did(CACHE_GATEWAY_EVENT_COMPLETED));
    assert(cache_gateway_purge_all(g, (cache_tier_moment){1, 1000000000}, &out) == CACHE_TIER_BAD_ARGUMENT && !out.events);
    starts(g, at(1001), varied);
    assert(did(CACHE_GATEWAY_EVENT_HIT));
    starts(g, at(1001), GET("/a"));
    assert(did(CACHE_GATEWAY_EVENT_HIT));
    assert(cache_gateway_purge_all(g, at(1001), &out) == CACHE_GATEWAY_DONE && out.events == 1 && did(CACHE_GATEWAY_EVENT_PURGED_ALL) && !out.found);
    cache_gateway_response_head(g, at(1002), b, OF(FRESH), &out);
    assert(did(CACHE_GATEWAY_EVENT_RELAYED));
    fetched(g, at(1002), GET("/a"), FRESH);
    assert(out.client == CACHE_GATEWAY_CLIENT_END);
    cache_gateway_stop(g);
    starts(g, at(1003), GET("/a"));
    assert(did(CACHE_GATEWAY_EVENT_HIT) && has("\r\nConnection: close\r\n") && out.client == CACHE_GATEWAY_CLIENT_CLOSE);
    cache_gateway_response_data(g, at(1003), b, "page", 4, &out);
    cache_gateway_poll(g, at(1003), b, &out); /* it began before */
    assert(has("detail=purged") && !has("Connection: close") && out.client == CACHE_GATEWAY_CLIENT_END);
    cache_gateway_free(g);
}
static void posted(cache_gateway *g) {
    uint64_t a = starts(g, at(1000), "POST /b HTTP/1.1\r\nHost: a.example\r\nContent-Length: 5\r\n\r\n");
    assert(out.body_follows && out.origin == CACHE_GATEWAY_ORIGIN_SEND_REQUEST);
    cache_gateway_request_data(g, at(1000), a, "he", 2, &out);
    assert(out.used == 2 && out.origin == CACHE_GATEWAY_ORIGIN_SEND_DATA && out.to_origin.len == 2 && !out.last);
    cache_gateway_request_data(g, at(1000), a, "llo!", 4, &out);
    assert(out.used == 3 && out.last);
    cache_gateway_response_head(g, at(1000), a, OF("HTTP/1.1 204 No Content\r\nLocation: /c\r\n\r\n"), &out);
    assert(out.purges && out.purges <= 2);
    cache_gateway_client_closed(g, at(1000), a, &out);
}
static void unlawful(cache_gateway *g) {
    uint64_t a = starts(g, at(1000), GET("/u"));
    assert(cache_gateway_poll(g, at(1000), a + 1, &out) == CACHE_GATEWAY_NO_EXCHANGE && !out.pieces);
    assert(cache_gateway_response_data(g, at(1000), a, "x", 1, &out) == CACHE_TIER_WRONG_PHASE);
    assert(cache_gateway_request_data(g, at(1000), a, "x", 1, &out) == CACHE_TIER_WRONG_PHASE);
    assert(cache_gateway_origin_closed(g, at(1000), a, 0, &out) == CACHE_TIER_BAD_ARGUMENT);
    assert(cache_gateway_origin_closed(g, at(1000), a, 5, &out) == CACHE_TIER_BAD_ARGUMENT);
    assert(cache_gateway_poll(g, (cache_tier_moment){1000, 1000000000}, a, &out) == CACHE_TIER_BAD_ARGUMENT);
    assert(cache_gateway_exchanges(g) == 1);
    cache_gateway_client_closed(g, at(1000), a, &out);
    assert(cache_gateway_client_closed(g, at(1000), a, &out) == CACHE_TIER_WRONG_PHASE || out.status == CACHE_GATEWAY_NO_EXCHANGE);
    cache_gateway_origin_closed(g, at(1000), a, CACHE_GATEWAY_CLOSED_CLEAN, &out);
    assert(!cache_gateway_exchanges(g));
}
static void wrong_options(void) {
    cache_rules_options options = cache_rules_default_options();
    cache_gateway_limits limits = cache_gateway_default_limits();
    cache_gateway *g;
    assert(cache_gateway_open(&g, at(1000), &limits, &options, "short", 5) == CACHE_TIER_BAD_ARGUMENT && !g);
    assert(cache_gateway_open(&g, (cache_tier_moment){1, 1000000000}, &limits, &options, OF("sixteen random..")) == CACHE_TIER_BAD_ARGUMENT && !g);
    limits.reserved[1] = 1;
    assert(cache_gateway_open(&g, at(1000), &limits, &options, OF("sixteen random..")) == CACHE_TIER_BAD_ARGUMENT && !g);
    limits.reserved[1] = 0, options.settings = "nothing: like it\r\n", options.settings_len = 18;
    assert(cache_gateway_open(&g, at(1000), &limits, &options, OF("sixteen random..")) == CACHE_TIER_BAD_ARGUMENT && !g);
}
/* Three partitions: none of two locks is held at once, and what an unsafe method changes goes from each. */
static int holds;
static void lock(void *locks, size_t partition) { assert(!holds && !((int *)locks)[partition]), holds = 1, ((int *)locks)[partition] = 1; }
static void unlock(void *locks, size_t partition) { assert(holds && ((int *)locks)[partition]), holds = 0, ((int *)locks)[partition] = 0; }
static size_t woken;
static void wake(void *waker, size_t partition, uint64_t exchange) { assert(!holds && !waker && partition < 3 && exchange), woken++; }
static cache_gateways_handle opens(cache_gateways *all, const char *request) {
    cache_gateway_request q = CACHE_TIER_RESPONSE_INIT;
    cache_gateways_handle handle;
    int status = cache_gateway_parse_request(all->parts[0], request, strlen(request), 0, &q);
    assert(status == CACHE_GATEWAY_DONE);
    status = cache_gateways_start(all, at(1000), &q, NULL, 0, &handle, &out);
    assert(status == CACHE_GATEWAY_DONE);
    return handle;
}
static void in_partitions(void) {
    cache_gateway *parts[3] = {made(), made(), made()};
    cache_gateways_purging *purging[3] = {NULL, NULL, NULL};
    int locks[3] = {0, 0, 0};
    cache_gateways all = {parts, purging, 3, lock, unlock, locks, wake, NULL};
    cache_gateways_handle handle, bad = {3, 1};
    char request[200];
    size_t used = 0;
    for (int i = 0; i < 8; i++) {
        snprintf(request, sizeof request, "GET /%d HTTP/1.1\r\nHost: a.example\r\n\r\n", i);
        handle = opens(&all, request), used |= (size_t)1 << handle.partition;
        cache_gateways_response_head(&all, at(1000), handle, OF(FRESH), &out);
        cache_gateways_response_data(&all, at(1000), handle, "page", 4, &out);
        cache_gateways_poll(&all, at(1000), handle, &out);
        assert(has("page") && out.client == CACHE_GATEWAY_CLIENT_END);
        opens(&all, request);
        assert(did(CACHE_GATEWAY_EVENT_HIT));
    }
    assert(used == 7 && woken >= 8);
    for (int i = 0; i < 8; i++) { /* what another names is gone before the answer is given */
        char answer[200];
        handle = opens(&all, "POST /x HTTP/1.1\r\nHost: a.example\r\nContent-Length: 0\r\n\r\n");
        snprintf(answer, sizeof answer, "HTTP/1.1 201 Created\r\nLocation: /%d\r\nContent-Length: 0\r\n\r\n", i);
        cache_gateways_response_head(&all, at(1000), handle, answer, strlen(answer), &out);
        snprintf(request, sizeof request, "GET /%d HTTP/1.1\r\nHost: a.example\r\n\r\n", i);
        cache_gateways_poll(&all, at(1000), handle, &out);
        assert(has("201 Created"));
        handle = opens(&all, request);
        assert(out.origin == CACHE_GATEWAY_ORIGIN_SEND_REQUEST);
        cache_gateways_origin_closed(&all, at(1000), handle, CACHE_GATEWAY_CLOSED_FAILED, &out);
        cache_gateways_client_closed(&all, at(1000), handle, &out);
    }
    handle = opens(&all, "GET /y HTTP/1.1\r\nHost: a.example\r\n\r\n");
    cache_gateways_response_head(&all, at(1000), handle, OF(FRESH "page"), &out);
    cache_gateways_purging others = {NULL, handle.exchange, 0}; /* while a call of another thread purges, nothing is given */
    purging[handle.partition] = &others;
    assert(cache_gateways_poll(&all, at(1000), handle, &out) == CACHE_GATEWAY_DONE && out.client == CACHE_GATEWAY_CLIENT_WAIT && !out.pieces && others.is_polled);
    purging[handle.partition] = NULL;
    assert(cache_gateways_poll(&all, at(1000), handle, &out) == CACHE_GATEWAY_DONE && out.pieces);
    cache_gateways_origin_closed(&all, at(1000), handle, CACHE_GATEWAY_CLOSED_FAILED, &out);
    cache_gateways_client_closed(&all, at(1000), handle, &out);
    assert(cache_gateways_poll(&all, at(1000), bad, &out) == CACHE_GATEWAY_NO_EXCHANGE);
    assert(cache_gateways_purge(&all, OF("http://a.example/1"), &out) == CACHE_GATEWAY_DONE && !out.found);
    assert(cache_gateways_purge_all(&all, at(1000), &out) == CACHE_GATEWAY_DONE && did(CACHE_GATEWAY_EVENT_PURGED_ALL));
    cache_gateways_stop(&all);
    for (int i = 0; i < 8; i++) {
        snprintf(request, sizeof request, "GET /%d HTTP/1.1\r\nHost: a.example\r\n\r\n", i);
        handle = opens(&all, request);
        assert(out.origin == CACHE_GATEWAY_ORIGIN_SEND_REQUEST);
        cache_gateways_origin_closed(&all, at(1000), handle, CACHE_GATEWAY_CLOSED_FAILED, &out);
        cache_gateways_poll(&all, at(1000), handle, &out);
        assert(has("\r\nConnection: close\r\n") && out.client == CACHE_GATEWAY_CLIENT_CLOSE);
    }
    for (int i = 0; i < 3; i++) assert(!cache_gateway_exchanges(parts[i])), cache_gateway_free(parts[i]);
}
int main(void) {
    cache_gateway *g = made();
    assert(cache_gateway1_request_sizeof() <= sizeof((cache_gateway_request *)0)->keep && cache_gateway1_out_sizeof() <= sizeof((cache_gateway_out *)0)->keep);
    parsed(g), stored(g), counted(g), lent(g), purged(g), posted(g), unlawful(g), wrong_options(), ended();
    assert(!strcmp(cache_gateway_strerror(CACHE_GATEWAY_BLOCKED), "blocked") && !strcmp(cache_gateway_strerror(13), "out of memory"));
    cache_gateway_free(g), in_partitions();
    cache_gateway_out_free(&out);
    return 0;
}
