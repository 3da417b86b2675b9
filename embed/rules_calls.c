/* The calls of a hit and of a miss by the rules, for a count of instructions: which call, of which request, by how many stored lines, and how often.
   A request is the shortest that there is, or as a browser sends one; what is stored has six or twenty lines as they came, and Via. */
#include "cache_rules.h"
#include <stdio.h>

static const char *const requests[2] = {
    "GET /a HTTP/1.1\r\nHost: www.example\r\n\r\n",
    "GET /static/app/page-0012.html?x=1 HTTP/1.1\r\nHost: www.example.com\r\n"
    "User-Agent: Mozilla/5.0 (X11; Linux x86_64; rv:128.0) Gecko/20100101 Firefox/128.0\r\n"
    "Accept: text/html,application/xhtml+xml,application/xml;q=0.9,image/avif,image/webp,*/*;q=0.8\r\nAccept-Language: en-US,en;q=0.5\r\n"
    "Accept-Encoding: gzip, deflate, br, zstd\r\nConnection: keep-alive\r\nUpgrade-Insecure-Requests: 1\r\nSec-Fetch-Dest: document\r\n"
    "Sec-Fetch-Mode: navigate\r\nSec-Fetch-Site: same-origin\r\nCookie: session=0123456789abcdef0123456789abcdef; theme=dark\r\n\r\n"};
static const char *const responses[2] = {
    "HTTP/1.1 200 OK\r\nServer: nginx\r\nDate: Sat, 28 Nov 2026 18:00:00 GMT\r\nContent-Type: text/html\r\nContent-Length: 10240\r\n"
    "ETag: \"65b2-2800\"\r\nCache-Control: max-age=3600\r\n\r\n",
    "HTTP/1.1 200 OK\r\nServer: nginx/1.25.3\r\nDate: Sat, 28 Nov 2026 18:00:00 GMT\r\nContent-Type: text/html; charset=utf-8\r\n"
    "Content-Length: 10240\r\nETag: \"65b2f0d1-2800\"\r\nLast-Modified: Sat, 21 Nov 2026 09:12:33 GMT\r\n"
    "Cache-Control: public, max-age=3600, s-maxage=7200\r\nX-Content-Type-Options: nosniff\r\nX-Frame-Options: SAMEORIGIN\r\n"
    "X-XSS-Protection: 1; mode=block\r\nReferrer-Policy: strict-origin-when-cross-origin\r\n"
    "Strict-Transport-Security: max-age=31536000; includeSubDomains\r\n"
    "Content-Security-Policy: default-src 'self'; img-src *; script-src 'self' 'unsafe-inline'\r\nPermissions-Policy: geolocation=()\r\n"
    "Accept-Ranges: bytes\r\nContent-Language: en\r\nAccess-Control-Allow-Origin: *\r\nX-Request-Id: 7d1e8a30-1c9a-4d7c-9a53-0b6f8c2c6b7e\r\n"
    "X-Served-By: app-17\r\nLink: </style.css>; rel=preload; as=style\r\n\r\n"};
static const char words[] =
    "name: edge-1\r\ndrop: x-forwarded-host\r\ndrop: x-real-ip\r\nhost: www.example\r\nhost: www.example.com\r\nlifetime: 404 60\r\n";
static const cache_tier_moment came = {1795888800, 0}, now = {1795888830, 5000};
static uint8_t q_room[65536], r_room[65536], k_room[65536], room[65536], w_room[4096];
static cache_rules_options o;
static cache_rules_request_head q;
static cache_rules_response_head r;
static cache_rules_store_decision k;
static cache_rules_message out;
static const cache_rules_cache_status hit = {1, 0, 0, 0, 0, 0, 0, 0}, miss = {0, 1, 200, 1, 0, 0, 0, 0};
static const cache_tier_slice no_peer = {NULL, 0};
static const cache_rules_exchange exchange = {&q, &r, 0, {1795888800, 0}, {1795888800, 0}, {NULL, 0}};
static const char *request, *response;
static size_t request_len, response_len;

static int called(const char *call) {
    if (!strcmp(call, "none")) return CACHE_RULES_DONE;
    if (!strcmp(call, "parse_request")) return cache_rules_parse_request(&o, request, request_len, q_room, sizeof q_room, &q);
    if (!strcmp(call, "parse_response")) return cache_rules_parse_response(&o, 0, came, response, response_len, r_room, sizeof r_room, &r);
    if (!strcmp(call, "decide_store")) return cache_rules_decide_store(&o, &exchange, NULL, k_room, sizeof k_room, &k);
    if (!strcmp(call, "reuse_stored")) return cache_rules_reuse_stored(&o, &q, &k.served_head, 10240, now, &hit, room, sizeof room, &out);
    if (!strcmp(call, "forward_request"))
        return cache_rules_forward_request(&o, &q, CACHE_RULES_FETCH_FULL, NULL, no_peer, room, sizeof room, &out);
    if (!strcmp(call, "serve_stored")) return cache_rules_serve_stored(&o, &q, &k.served_head, 10240, now, &miss, room, sizeof room, &out);
    return 0;
}
/* CALL REQUEST LINES WORDS TIMES: 0 or 1 each but the first and the last */
int main(int argc, char **argv) {
    if (argc != 6) return 2;
    request = requests[argv[2][0] == '1'], response = responses[argv[3][0] == '1'], request_len = strlen(request), response_len = strlen(response);
    o = cache_rules_default_options();
    if (argv[4][0] == '1') {
        o.settings = words, o.settings_len = sizeof words - 1;
        if (cache_rules_prepare_settings(&o, w_room, sizeof w_room, &out) != CACHE_RULES_DONE) return 3;
    }
    if (called("parse_request") != CACHE_RULES_PARSED || called("parse_response") != CACHE_RULES_PARSED || called("decide_store") != CACHE_RULES_STORE) return 4;
    for (long times = atol(argv[5]); times > 0; times--)
        if (called(argv[1]) < 64) return 5;
    return 0;
}
