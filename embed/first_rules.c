/* A cache by HTTP's rules in one function: a hit is served, a miss is fetched and stored as RFC 9111 lets it. The origin is made up. */
#include "cache_rules.h"
#include <stdio.h>

static int fetches;
static uint8_t request_buf[8192], sent_buf[8192], response_buf[8192], decision_buf[8192];

/* What the origin answers to a request that it is sent. */
static size_t fetch(cache_tier_slice sent, const char **body, char *head) {
    (void)sent, fetches++, *body = "hello";
    return (size_t)sprintf(head, "HTTP/1.1 200 OK\r\nCache-Control: max-age=60\r\nContent-Length: 5\r\n\r\n");
}
static void load(cache_tier *tier, const cache_rules_options *options, const char *bytes, size_t len, cache_tier_moment now) {
    cache_rules_request_head request;
    cache_rules_response_head response;
    cache_rules_message sent;
    cache_rules_store_decision decision;
    cache_tier_response found = CACHE_TIER_RESPONSE_INIT;
    cache_tier_result result;
    if (cache_rules_parse_request(options, bytes, len, request_buf, sizeof request_buf, &request) != CACHE_RULES_PARSED) return;
    cache_tier_slice name = cache_rules_request_key(&request);
    cache_tier_key key = cache_tier_key_from_name(name.ptr, name.len);
    if (cache_tier_get(tier, now, key, &found) == CACHE_TIER_FOUND) { /* a hit */
        printf("hit %.*s\n", (int)found.body.len, (const char *)found.body.ptr);
    } else { /* a miss */
        char head[512];
        const char *body;
        cache_tier_slice none = {NULL, 0};
        cache_rules_forward_request(options, &request, CACHE_RULES_FETCH_FULL, NULL, none, sent_buf, sizeof sent_buf, &sent);
        size_t head_len = fetch(cache_rules_slice(sent_buf, sent.head), &body, head);
        cache_rules_parse_response(options, 0, now, head, head_len, response_buf, sizeof response_buf, &response);
        cache_rules_exchange exchange = {&request, &response, 0, now, now, none};
        if (cache_rules_decide_store(options, &exchange, NULL, decision_buf, sizeof decision_buf, &decision) == CACHE_RULES_STORE) {
            cache_tier_slice stored = cache_rules_slice(decision_buf, decision.head);
            cache_tier_put(tier, now, key, stored.ptr, stored.len, body, 5, &decision.meta, &result);
        }
        printf("miss\n");
    }
    cache_tier_release(&found);
}
int main(void) {
    static const char get[] = "GET /a HTTP/1.1\r\nHost: a.example\r\n\r\n";
    cache_tier_options of_tier = cache_tier_default_options(1 << 20, 2);
    cache_rules_options options = cache_rules_default_options();
    cache_tier *tier;
    if (cache_tier_new(&tier, &of_tier) != CACHE_TIER_OK) return 1;
    for (uint64_t t = 1000; t <= 1060; t += 30) load(tier, &options, get, sizeof get - 1, (cache_tier_moment){t, 0});
    printf("%d fetches\n", fetches);
    cache_tier_free(tier);
    return 0;
}
