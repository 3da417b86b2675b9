/* The shortest program over a gateway: a miss that is fetched and stored, and a hit, without a socket. It prints what the clients are sent. */
#include "cache_gateway.h"
#include <stdio.h>

static const char ASKED[] = "GET /a HTTP/1.1\r\nHost: a.example\r\n\r\n";
static const char HEAD[] = "HTTP/1.1 200 OK\r\nCache-Control: max-age=60\r\nContent-Length: 5\r\n\r\n";

/* What a client is sent: its first line, and its body. */
static void show(cache_gateway_out *out) {
    cache_tier_slice pieces[8];
    size_t n = cache_gateway_out_pieces(out, 0, pieces, 8);
    for (size_t i = 0; i < n; i++) {
        const uint8_t *line = (const uint8_t *)memchr(pieces[i].ptr, '\r', pieces[i].len);
        printf("%.*s ", (int)(line ? (size_t)(line - pieces[i].ptr) : pieces[i].len), (const char *)pieces[i].ptr);
    }
}
static uint64_t ask(cache_gateway *g, cache_gateway_out *out) {
    cache_gateway_request request = CACHE_TIER_RESPONSE_INIT;
    cache_tier_moment now = {1000, 0};
    if (cache_gateway_parse_request(g, ASKED, sizeof ASKED - 1, 0, &request) == CACHE_GATEWAY_DONE) cache_gateway_start(g, now, &request, "", 0, out);
    return out->exchange;
}

int main(void) {
    cache_rules_options options = cache_rules_default_options();
    cache_gateway_limits limits = cache_gateway_default_limits();
    cache_tier_moment now = {1000, 0};
    cache_gateway_out out = CACHE_TIER_RESPONSE_INIT;
    cache_gateway *g;
    uint64_t x;
    if (cache_gateway_open(&g, now, &limits, &options, "draw it at random", 17) != CACHE_TIER_OK) return 1;
    x = ask(g, &out);
    if (out.origin == CACHE_GATEWAY_ORIGIN_SEND_REQUEST) printf("miss ");
    cache_gateway_response_head(g, now, x, HEAD, sizeof HEAD - 1, &out);
    cache_gateway_response_data(g, now, x, "hello", 5, &out);
    cache_gateway_poll(g, now, x, &out), show(&out);
    ask(g, &out); /* a hit is one call */
    if (out.origin == CACHE_GATEWAY_ORIGIN_NOTHING) printf("hit ");
    show(&out);
    printf("%d open\n", (int)cache_gateway_exchanges(g));
    cache_gateway_free(g), cache_gateway_out_free(&out);
    return 0;
}
