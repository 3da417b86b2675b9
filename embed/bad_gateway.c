/* Calls of cache_gateway.h with an argument out of its range, a table: each export that has such an argument, with each wrong value of it, is refused by name,
   tells nothing else, and leaves the gateway as one that was never asked. So it is with numbers of exchanges that are none, and with MEMORY, where one
   allocation of a right call fails, each in turn. bad_calls.c does the same of cache_tier.h. */
#include "cache_gateway.h"
#include <stdio.h>

void *__real_malloc(size_t), *__real_realloc(void *, size_t);
static long met, fails_at;
static int fails(void) { return ++met == fails_at; }
void *__wrap_malloc(size_t n) { return fails() ? NULL : __real_malloc(n); }
void *__wrap_realloc(void *p, size_t n) { return fails() ? NULL : __real_realloc(p, n); }

enum takes { MOMENT = 1, EXCHANGE = 2, CLOSED = 4, URL = 8 };
typedef struct arguments {
    uint64_t seconds, nanoseconds, exchange, closed;
    const char *url;
    size_t url_len;
} arguments;

static const char GET[] = "GET /a HTTP/1.1\r\nHost: a.example\r\n\r\n", POST[] = "POST /b HTTP/1.1\r\nHost: a.example\r\nContent-Length: 9\r\n\r\n";
static const char OK[] = "HTTP/1.1 200 OK\r\nCache-Control: max-age=60\r\nContent-Length: 4\r\n\r\n", SECRET[] = "sixteen random..";
static const char KEY[] = "http://a.example/a";
static int wrong, rows, refusals;
static void no(const char *call, const char *fault, const char *what) { wrong++, fprintf(stderr, "%s, %s: %s\n", call, fault, what); }

/* A copy in a block of just that length, so that what is read beyond is seen. */
static void *exact(const void *from, size_t len) {
    void *copy = __real_malloc(len ? len : 1);
    return memcpy(copy, from, len);
}
#define OF(text) text, sizeof text - 1
#define M w->seconds, w->nanoseconds
#define CALL(name, ...) \
    static void name(void *g, const arguments *w, cache_gateway_out *o) { __VA_ARGS__; }
/* Bytes in a block of just their length. */
#define GIVEN(name, call, text)                                       \
    CALL(name, uint8_t *data = (uint8_t *)exact(OF(text));            \
         call(g, M, w->exchange, data, sizeof text - 1, o, o->keep); free(data))
static void start(void *g, const arguments *w, cache_gateway_out *o) {
    cache_rules_options options = cache_rules_default_options();
    cache_gateway_request q = CACHE_TIER_RESPONSE_INIT;
    long at = fails_at;
    char *data = (char *)exact(OF(GET));
    fails_at = 0, cache_gateway1_parse_request(&options, (const uint8_t *)"", 0, (uint8_t *)data, sizeof GET - 1, 0, &q, q.keep), fails_at = at;
    met = 0, cache_gateway1_start(g, M, q.keep, (const uint8_t *)"peer", 4, o, o->keep), free(data);
}
CALL(poll_, cache_gateway1_poll(g, M, w->exchange, o, o->keep))
CALL(left, cache_gateway1_client_closed(g, M, w->exchange, o, o->keep))
CALL(closed, cache_gateway1_origin_closed(g, M, w->exchange, w->closed, o, o->keep))
GIVEN(asks, cache_gateway1_request_data, "body")
GIVEN(heads, cache_gateway1_response_head, "HTTP/1.1 200 OK\r\nCache-Control: max-age=60\r\nContent-Length: 4\r\n\r\n")
GIVEN(bodies, cache_gateway1_response_data, "page")
CALL(purge, char *url = (char *)exact(w->url, w->url_len); cache_gateway1_purge(g, (uint8_t *)url, w->url_len, o, o->keep); free(url))
CALL(purge_key, cache_gateway1_purge_key(g, (const uint8_t *)w->url, w->url_len, o, o->keep))
CALL(purge_all, cache_gateway1_purge_all(g, M, o, o->keep))

/* Of the gateway that is made below: exchange 1 asks for /a, 2 waits for it, 3 has a body, 4 gets one. */
static const struct call {
    const char *name;
    void (*run)(void *, const arguments *, cache_gateway_out *);
    int takes;
    uint64_t exchange;
} calls[] = {
    {"start", start, MOMENT, 0},
    {"poll", poll_, MOMENT | EXCHANGE, 2},
    {"request_data", asks, MOMENT | EXCHANGE, 3},
    {"response_head", heads, MOMENT | EXCHANGE, 1},
    {"response_data", bodies, MOMENT | EXCHANGE, 4},
    {"origin_closed", closed, MOMENT | EXCHANGE | CLOSED, 1},
    {"client_closed", left, MOMENT | EXCHANGE, 2},
    {"purge", purge, URL, 0},
    {"purge_key", purge_key, 0, 0},
    {"purge_all", purge_all, MOMENT, 0},
};
/* Those of which the rows below are no part; init, parse_request and out_item have their own. */
static const char *const others[] = {"sizeof", "request_sizeof", "out_sizeof", "init", "end", "parse_request", "request_free", "stop", "get_counts", "out_item", "out_free"};

#define WRONG(name, ...) \
    static void name(arguments *w) { __VA_ARGS__; }
WRONG(seconds, w->seconds = UINT64_C(1) << 63) WRONG(most_seconds, w->seconds = UINT64_MAX) WRONG(nanoseconds, w->nanoseconds = 1000000000)
WRONG(most_nanoseconds, w->nanoseconds = UINT64_MAX) WRONG(exchange_0, w->exchange = 0) WRONG(exchange_5, w->exchange = 5) WRONG(most_exchange, w->exchange = UINT64_MAX)
WRONG(other_exchange, w->exchange |= UINT64_C(1) << 32) WRONG(closed_0, w->closed = 0) WRONG(closed_5, w->closed = 5) WRONG(most_closed, w->closed = UINT64_MAX)
WRONG(no_url, w->url_len = 0) WRONG(blank_url, w->url = "http://a.example/ a", w->url_len = 19) WRONG(zero_url, w->url = "http://a.example/\0", w->url_len = 18)
WRONG(host_url, w->url = "http:///a", w->url_len = 9) WRONG(line_url, w->url = "http://a.example/\r\nX: 1", w->url_len = 23)
static const struct fault {
    const char *name;
    int of;
    void (*make)(arguments *);
    uint64_t answered;
} faults[] = {
    {"seconds", MOMENT, seconds, CACHE_TIER_BAD_ARGUMENT}, {"most seconds", MOMENT, most_seconds, CACHE_TIER_BAD_ARGUMENT},
    {"nanoseconds", MOMENT, nanoseconds, CACHE_TIER_BAD_ARGUMENT}, {"most nanoseconds", MOMENT, most_nanoseconds, CACHE_TIER_BAD_ARGUMENT},
    {"exchange 0", EXCHANGE, exchange_0, CACHE_GATEWAY_NO_EXCHANGE}, {"exchange 5", EXCHANGE, exchange_5, CACHE_GATEWAY_NO_EXCHANGE},
    {"most exchange", EXCHANGE, most_exchange, CACHE_GATEWAY_NO_EXCHANGE}, {"other exchange", EXCHANGE, other_exchange, CACHE_GATEWAY_NO_EXCHANGE},
    {"closed 0", CLOSED, closed_0, CACHE_TIER_BAD_ARGUMENT}, {"closed 5", CLOSED, closed_5, CACHE_TIER_BAD_ARGUMENT}, {"most closed", CLOSED, most_closed, CACHE_TIER_BAD_ARGUMENT},
    {"no URL", URL, no_url, CACHE_TIER_BAD_ARGUMENT}, {"URL with a blank", URL, blank_url, CACHE_TIER_BAD_ARGUMENT}, {"URL with a zero", URL, zero_url, CACHE_TIER_BAD_ARGUMENT},
    {"URL without a host", URL, host_url, CACHE_TIER_BAD_ARGUMENT}, {"URL with a line", URL, line_url, CACHE_TIER_BAD_ARGUMENT},
};
#define COUNT(table) (sizeof table / sizeof *table)

static cache_gateway_out out = CACHE_TIER_RESPONSE_INIT;
static cache_tier_moment at(uint64_t s) { return (cache_tier_moment){s, 0}; }
static uint64_t begins(cache_gateway *g, const char *head) {
    cache_gateway_request q = CACHE_TIER_RESPONSE_INIT;
    cache_gateway_parse_request(g, head, strlen(head), 0, &q);
    cache_gateway_start(g, at(1000), &q, NULL, 0, &out);
    return out.exchange;
}
static cache_gateway *made(void) {
    cache_rules_options options = cache_rules_default_options();
    cache_gateway_limits limits = cache_gateway_default_limits();
    cache_gateway *g;
    uint64_t x;
    if (cache_gateway_open(&g, at(1000), &limits, &options, OF(SECRET))) return NULL;
    begins(g, GET), begins(g, GET), begins(g, POST);
    x = begins(g, "GET /c HTTP/1.1\r\nHost: a.example\r\n\r\n");
    cache_gateway_response_head(g, at(1000), x, OF(OK), &out);
    return g;
}
static arguments right(const struct call *call) { return (arguments){1001, 5, call->exchange, CACHE_GATEWAY_CLOSED_FAILED, KEY, sizeof KEY - 1}; }
/* Whether two outs say the same. */
static int are_alike(cache_gateway_out *a, cache_gateway_out *b) {
    cache_gateway_out x = *a, y = *b;
    x.to_origin.ptr = y.to_origin.ptr = NULL;
    if (memcmp(&x, &y, offsetof(cache_gateway_out, held)) || memcmp(a->to_origin.ptr ? a->to_origin.ptr : (const uint8_t *)"", b->to_origin.ptr ? b->to_origin.ptr : (const uint8_t *)"", a->to_origin.len)) return 0;
    const uint64_t counts[] = {a->pieces, a->wakes, a->evicted, a->purges, a->events};
    for (uint64_t list = 0; list < 5; list++)
        for (uint64_t i = 0; i <= counts[list]; i++) {
            cache_gateway_item p, q;
            cache_gateway1_out_item(a->keep, list, i, &p), cache_gateway1_out_item(b->keep, list, i, &q);
            if (p.status != (i < counts[list] ? (uint64_t)CACHE_TIER_ITEM : (uint64_t)CACHE_TIER_NO_ITEM)) return 0;
            if (p.status != q.status || p.number != q.number || p.first != q.first || p.second != q.second || p.data.len != q.data.len) return 0;
            if (p.data.len && memcmp(p.data.ptr, q.data.ptr, p.data.len)) return 0;
        }
    return 1;
}
/* An out that says how the call ended, and perhaps of which exchange. */
static int is_blank(const cache_gateway_out *o) {
    const uint64_t *word = (const uint64_t *)o;
    for (size_t i = 2; i < offsetof(cache_gateway_out, held) / 8; i++)
        if (i != offsetof(cache_gateway_out, to_origin) / 8 && word[i]) return 0;
    return 1;
}
static void tried(const struct call *call, const struct fault *fault) {
    cache_gateway *asked = made(), *untouched = made();
    arguments bad = right(call), good = right(call);
    cache_gateway_out told, after, other;
    memset(&told, 0xaa, sizeof told), memset(&after, 0xaa, sizeof after), memset(&other, 0xaa, sizeof other), rows++;
    fault->make(&bad), call->run(asked->held, &bad, &told);
    if (told.status != fault->answered) no(call->name, fault->name, "is answered otherwise");
    if (!is_blank(&told)) no(call->name, fault->name, "it tells more");
    cache_gateway1_out_free(told.keep);
    call->run(asked->held, &good, &after), call->run(untouched->held, &good, &other);
    if (other.status != CACHE_GATEWAY_DONE) no(call->name, fault->name, "the right call isn't answered");
    if (!are_alike(&after, &other)) no(call->name, fault->name, "something was done");
    if (cache_gateway_exchanges(asked) != cache_gateway_exchanges(untouched)) no(call->name, fault->name, "other exchanges are open");
    cache_gateway_free(asked), cache_gateway_free(untouched);
    cache_gateway1_out_free(after.keep), cache_gateway1_out_free(other.keep); /* (an out outlives its gateway) */
}
/* A right call of which the allocation of that place fails; whether it has so many. */
static int refused(const struct call *call, long place) {
    cache_gateway *asked = made();
    arguments good = right(call);
    cache_gateway_out told;
    uint64_t before = cache_gateway_exchanges(asked);
    memset(&told, 0xaa, sizeof told);
    met = 0, fails_at = place, call->run(asked->held, &good, &told), fails_at = 0;
    int has = met >= place;
    if (told.status != CACHE_GATEWAY_DONE && told.status != CACHE_TIER_MEMORY) no(call->name, "an allocation", "neither done nor MEMORY");
    if (told.status == CACHE_TIER_MEMORY) refusals++;
    if (told.status == CACHE_TIER_MEMORY && !strcmp(call->name, "start") && cache_gateway_exchanges(asked) > before + 1) no(call->name, "an allocation", "too many exchanges");
    cache_gateway1_out_free(told.keep);
    for (uint64_t x = 1; x <= 5; x++) { /* what is left goes on, and ends */
        cache_gateway_poll(asked, at(1002), x, &out), cache_gateway_client_closed(asked, at(1002), x, &out);
        cache_gateway_origin_closed(asked, at(1002), x, CACHE_GATEWAY_CLOSED_FAILED, &out);
    }
    if (cache_gateway_exchanges(asked)) no(call->name, "an allocation", "an exchange stays open");
    cache_gateway_free(asked);
    return has;
}
/* A gateway by limits, options or a secret out of their range isn't made. */
static void none(const char *name, cache_tier_moment started, size_t secret_len, const cache_gateway_limits *limits, const cache_rules_options *options) {
    cache_gateway *g;
    char *secret = (char *)exact(SECRET, secret_len);
    if (cache_gateway_open(&g, started, limits, options, secret, secret_len) != CACHE_TIER_BAD_ARGUMENT || g) no("init", name, "no BAD_ARGUMENT");
    rows++, free(secret);
}
static void made_wrong(void) {
    const cache_rules_options good = cache_rules_default_options();
    const cache_gateway_limits usual = cache_gateway_default_limits();
    cache_rules_options options = good;
    cache_gateway_limits limits = usual;
    cache_gateway *g;
    for (size_t len = 0; len < 16; len++) none("secret", at(1000), len, &usual, &good);
    for (size_t i = 0; i < COUNT(limits.reserved); i++) limits = usual, limits.reserved[i] = i + 1, none("reserved", at(1000), 16, &limits, &good);
    uint64_t *const times[] = {&limits.lock_age, &limits.lock_timeout, &limits.first_byte_timeout, &limits.between_bytes_timeout, &limits.predicted_seconds};
    for (size_t i = 0; i < COUNT(times); i++) limits = usual, *times[i] = UINT64_MAX, none("seconds", at(1000), 16, &limits, &good);
    none("started", at(UINT64_MAX), 16, &usual, &good), none("started", (cache_tier_moment){1, 1000000000}, 16, &usual, &good);
    options.flags = UINT64_MAX, none("flags", at(1000), 16, &usual, &options), options = good;
    options.max_ranges = 17, none("max_ranges", at(1000), 16, &usual, &options), options = good;
    options.reserved[1] = 1, none("reserved of options", at(1000), 16, &usual, &options), options = good;
    options.settings = "no such line\r\n", options.settings_len = 14, none("settings", at(1000), 16, &usual, &options);
    for (long place = 1;; place++) {
        met = 0, fails_at = place;
        int status = cache_gateway_open(&g, at(1000), &usual, &good, OF(SECRET)), has = met >= place;
        fails_at = 0, refusals += status == CACHE_TIER_MEMORY;
        if (status != CACHE_TIER_OK && (status != CACHE_TIER_MEMORY || g)) no("init", "an allocation", "neither made nor MEMORY");
        cache_gateway_free(g);
        if (!has) break;
    }
}
static void parsed_wrong(void) {
    cache_rules_options options = cache_rules_default_options();
    cache_gateway_request q = CACHE_TIER_RESPONSE_INIT;
    for (int i = 0; i < 4; i++, rows++) {
        cache_rules_options bad = options;
        if (i == 0) bad.flags = UINT64_MAX;
        if (i == 1) bad.max_ranges = 17;
        if (i == 2) bad.reserved[1] = 1;
        if (i == 3) bad.settings = "x", bad.settings_len = 1;
        cache_gateway1_parse_request(&bad, cache_tier_i_bytes(bad.settings), bad.settings_len, (const uint8_t *)GET, sizeof GET - 1, 0, &q, q.keep);
        if (q.status != CACHE_TIER_BAD_ARGUMENT || q.key.len || q.head_len) no("parse_request", "options", "no BAD_ARGUMENT");
        cache_gateway1_request_free(q.keep);
    }
    const size_t looked[] = {0, 1, sizeof GET - 1, sizeof GET, SIZE_MAX};
    for (size_t i = 0; i < COUNT(looked); i++, rows++) { /* more than there is: it was looked at to the end */
        cache_gateway1_parse_request(&options, (const uint8_t *)"", 0, (const uint8_t *)GET, sizeof GET - 1, looked[i], &q, q.keep);
        if (q.status != CACHE_GATEWAY_DONE && q.status != CACHE_GATEWAY_NEED_MORE) no("parse_request", "looked", "neither done nor more");
        cache_gateway1_request_free(q.keep);
    }
    for (long place = 1;; place++) {
        met = 0, fails_at = place;
        cache_gateway1_parse_request(&options, (const uint8_t *)"", 0, (const uint8_t *)GET, sizeof GET - 1, 0, &q, q.keep);
        int has = met >= place;
        fails_at = 0, refusals += q.status == CACHE_TIER_MEMORY;
        if (q.status != CACHE_GATEWAY_DONE && q.status != CACHE_TIER_MEMORY) no("parse_request", "an allocation", "neither done nor MEMORY");
        cache_gateway1_request_free(q.keep);
        if (!has) break;
    }
}
/* Nothing of a list that isn't there; and what a caller gives twice, or not at all, by the header's functions. */
static void given_twice(void) {
    cache_gateway *g = made();
    cache_gateway_item item;
    cache_gateway_request q = CACHE_TIER_RESPONSE_INIT;
    cache_gateway_out empty = CACHE_TIER_RESPONSE_INIT;
    const uint64_t lists[] = {5, 6, UINT64_MAX}, places[] = {out.events, UINT64_C(1) << 32, UINT64_MAX};
    for (size_t i = 0; i < COUNT(lists); i++, rows++)
        if (cache_gateway_out_item(&out, lists[i], 0, &item) != CACHE_TIER_BAD_ARGUMENT || item.data.len) no("out_item", "list", "no BAD_ARGUMENT");
    for (size_t i = 0; i < COUNT(places); i++, rows++)
        if (cache_gateway_out_item(&out, CACHE_GATEWAY_LIST_EVENTS, places[i], &item) != CACHE_TIER_NO_ITEM || item.number) no("out_item", "index", "no NO_ITEM");
    if (cache_gateway_out_item(&empty, 0, 0, &item) != CACHE_TIER_NO_ITEM || cache_gateway_out_pieces(&empty, 0, NULL, 0)) no("out_item", "nothing held", "no NO_ITEM");
    cache_gateway_out_free(&empty), cache_gateway_out_free(&out), cache_gateway_out_free(&out);
    if (cache_gateway_start(g, at(1000), &q, NULL, 0, &out) != CACHE_TIER_BAD_ARGUMENT || out.held) no("start", "no request", "no BAD_ARGUMENT");
    if (cache_gateway_parse_request(g, NULL, 0, 0, &q) != CACHE_GATEWAY_NEED_MORE) no("parse_request", "nothing", "no NEED_MORE");
    if (cache_gateway_start(g, at(1000), &q, NULL, 0, &out) != CACHE_TIER_BAD_ARGUMENT || !is_blank(&out)) no("start", "half a request", "no BAD_ARGUMENT");
    cache_gateway_request_free(&q), cache_gateway_request_free(&q);
    cache_gateway_response_data(g, at(1000), 4, NULL, 0, &out), cache_gateway_request_data(g, at(1000), 3, NULL, 0, &out);
    if (cache_gateway_exchanges(g) != 4) no("start", "no request", "an exchange is open");
    cache_gateway_free(NULL), cache_gateway_free(g), cache_gateway_out_free(&out);
}
int main(int argc, char **argv) {
    (void)argv;
    for (size_t i = 0; i < COUNT(calls); i++)
        for (size_t j = 0; j < COUNT(faults); j++)
            if (calls[i].takes & faults[j].of) tried(&calls[i], &faults[j]);
    made_wrong(), parsed_wrong(), given_twice();
    for (size_t i = 0; i < COUNT(calls); i++)
        for (long place = 1; refused(&calls[i], place);) place++;
    cache_gateway_out_free(&out);
    for (size_t i = 0; argc > 1 && i < COUNT(calls); i++) printf("%s\n", calls[i].name); /* `bad_gateway names`: all exports are in one of the tables */
    for (size_t i = 0; argc > 1 && i < COUNT(others); i++) printf("%s\n", others[i]);
    if (refusals < 20) no("each call", "an allocation", "too few were refused");
    if (argc < 2) printf("bad calls: %d, refused allocations: %d, %d wrong\n", rows, refusals, wrong);
    return wrong != 0;
}
