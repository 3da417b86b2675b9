/* Calls of cache_rules.h with an argument out of its range, a table: each export that has such an argument, with each wrong value of it, answers
   BAD_ARGUMENT, writes nothing into its room, and tells nothing else. So it is with MEMORY, where one allocation of a right call fails, each in turn.
   bad_calls.c does the same of cache_tier.h. */
#include "cache_rules.h"
#include <stdio.h>

void *__real_malloc(size_t), *__real_realloc(void *, size_t);
static long met, fails_at;
static int fails(void) { return ++met == fails_at; }
void *__wrap_malloc(size_t n) { return fails() ? NULL : __real_malloc(n); }
void *__wrap_realloc(void *p, size_t n) { return fails() ? NULL : __real_realloc(p, n); }

enum takes { OPTIONS = 1, REQUEST = 2, RESPONSE = 4, STORED = 8, MOMENT = 16, SECOND_MOMENT = 32, TOKEN = 64, WHAT = 128, CODE = 256, BODY = 512, LINES = 1024, BLOCK = 2048 };
typedef struct arguments {
    cache_rules_options o;
    cache_rules_request_head q;
    cache_rules_response_head r;
    cache_tier_head h;
    cache_tier_moment one, two;
    cache_rules_body_decoder body;
    size_t token_len;
    const char *token;
    uint64_t what, code;
} arguments;
/* What a call fills; each begins with its status. */
typedef union answers {
    uint64_t word[96];
    cache_rules_request_head q;
    cache_rules_response_head r;
    cache_rules_message out;
    cache_rules_store_decision kept;
    cache_rules_body_chunk piece;
} answers;

static const char GET[] = "GET /a HTTP/1.1\r\nHost: a.example\r\n\r\n", OK[] = "HTTP/1.1 200 OK\r\nCache-Control: max-age=60\r\nETag: \"1\"\r\n\r\n";
static const cache_rules_cache_status how = {1, 0, 0, 0, 0, 0, 0, 0};
static uint8_t q_room[4096], r_room[4096], room[4096];
static int wrong, rows, refusals;

#define OF(text) (const uint8_t *)text, sizeof text - 1
#define O &w->o, cache_tier_i_bytes(w->o.settings), w->o.settings_len
#define Q &w->q, w->q.buf, w->q.buf_len
#define R &w->r, w->r.buf, w->r.buf_len
#define H &w->h, cache_tier_i_bytes(w->h.fields.ptr), w->h.fields.len
#define M w->one.seconds, w->one.nanoseconds
#define N w->two.seconds, w->two.nanoseconds
#define L OF("")
#define ROOM room, sizeof room
#define CALL(name, ...) \
    static void name(arguments *w, answers *a) { __VA_ARGS__; }
CALL(check, cache_rules1_check_options(O, &a->out))
CALL(prepare, cache_rules1_prepare_settings(O, ROOM, &a->out))
CALL(read_request, cache_rules1_parse_request(O, OF(GET), ROOM, &a->q))
CALL(read_response, cache_rules1_parse_response(O, 0, M, OF(OK), ROOM, &a->r))
CALL(variant, cache_rules1_secondary_keys(O, Q, L, ROOM, a->out.parts, CACHE_RULES_MAX_RANGES, &a->out))
CALL(list, cache_rules1_update_vary_index(O, R, M, L, (const uint8_t *)w->token, w->token_len, ROOM, &a->kept))
CALL(use, cache_rules1_decide_reuse(O, Q, H, M, &a->out))
CALL(spare, cache_rules1_stale_on_error(O, Q, H, M, w->code, &a->out))
CALL(forward, cache_rules1_forward_request(O, Q, w->what, H, L, ROOM, &a->out))
CALL(judge, cache_rules1_decide_store(O, Q, 0, R, M, N, L, H, ROOM, &a->kept))
CALL(freshen, cache_rules1_freshen(O, Q, H, CACHE_TIER_NONE, R, M, N, ROOM, &a->kept))
CALL(answer, cache_rules1_serve_stored(O, Q, H, 5, M, &how, ROOM, a->out.parts, CACHE_RULES_MAX_RANGES, &a->out))
CALL(serve, cache_rules1_reuse_stored(O, Q, H, 5, M, &how, ROOM, a->out.parts, CACHE_RULES_MAX_RANGES, &a->out))
CALL(told, cache_rules1_relay_response(O, Q, R, M, N, &how, ROOM, a->out.parts, CACHE_RULES_MAX_RANGES, &a->out))
CALL(plain, cache_rules1_make_response(O, Q, w->code, CACHE_RULES_REASON_ORIGIN_DOWN, M, ROOM, &a->out))
CALL(invalidates, cache_rules1_invalidated_keys(O, Q, R, ROOM, &a->out))
CALL(decode, cache_rules1_decode_body(&w->body, OF("body"), ROOM, &a->piece))
CALL(encode, ((void)w, cache_rules1_encode_chunk(5, ROOM, &a->out)))

/* `use` and `serve` read the block only where the times don't decide, and of a request's lines those in `asked` alone, as `spare`, `answer` and `told`
   do. Each export, which arguments it looks at, how many words it fills, and what it answers to right ones. `plain` looks at marks of its request alone,
   which may have been refused. */
static const struct call {
    const char *name;
    void (*run)(arguments *, answers *);
    int takes, words;
    uint64_t answered;
} calls[] = {
    {"check_options", check, OPTIONS, 16, CACHE_RULES_DONE},
    {"prepare_settings", prepare, OPTIONS, 16, CACHE_RULES_DONE},
    {"parse_request", read_request, OPTIONS, 24, CACHE_RULES_PARSED},
    {"parse_response", read_response, OPTIONS | MOMENT, 16, CACHE_RULES_PARSED},
    {"secondary_keys", variant, OPTIONS | REQUEST | LINES, 16, CACHE_RULES_DONE},
    {"update_vary_index", list, OPTIONS | RESPONSE | MOMENT | TOKEN, 42, CACHE_RULES_DONE},
    {"decide_reuse", use, OPTIONS | REQUEST | STORED | MOMENT, 16, CACHE_RULES_DONE},
    {"stale_on_error", spare, OPTIONS | REQUEST | STORED | BLOCK | MOMENT | CODE, 16, CACHE_RULES_DONE},
    {"forward_request", forward, OPTIONS | REQUEST | LINES | STORED | BLOCK | WHAT, 16, CACHE_RULES_DONE},
    {"decide_store", judge, OPTIONS | REQUEST | LINES | STORED | BLOCK | RESPONSE | MOMENT | SECOND_MOMENT, 42, CACHE_RULES_STORE},
    {"freshen", freshen, OPTIONS | REQUEST | LINES | STORED | BLOCK | RESPONSE | MOMENT | SECOND_MOMENT, 42, CACHE_RULES_MISMATCH},
    {"serve_stored", answer, OPTIONS | REQUEST | STORED | BLOCK | MOMENT, 16, CACHE_RULES_DONE},
    {"reuse_stored", serve, OPTIONS | REQUEST | STORED | MOMENT, 16, CACHE_RULES_DONE},
    {"relay_response", told, OPTIONS | REQUEST | RESPONSE | MOMENT | SECOND_MOMENT, 16, CACHE_RULES_DONE},
    {"make_response", plain, OPTIONS | MOMENT | CODE, 16, CACHE_RULES_DONE},
    {"invalidated_keys", invalidates, OPTIONS | REQUEST | LINES | RESPONSE, 16, CACHE_RULES_DONE},
    {"decode_body", decode, BODY, 8, CACHE_RULES_DATA},
    {"encode_chunk", encode, 0, 16, CACHE_RULES_DONE},
};

#define WRONG(name, ...) \
    static void name(arguments *w) { __VA_ARGS__; }
#define WORDS(name, text) WRONG(name, w->o.settings = text, w->o.settings_len = sizeof text - 1)
#define SPAN(name, span, text) WRONG(name##_turned, span.start = span.end + 1) WRONG(name##_beyond, span.end = text + 1) WRONG(name##_most, span.end = UINT64_MAX)
WRONG(flags, w->o.flags = 4096) WRONG(most_flags, w->o.flags = UINT64_MAX) WRONG(no_ranges, w->o.max_ranges = 0) WRONG(ranges, w->o.max_ranges = 17)
WRONG(reserved_0, w->o.reserved[0] = 1) WRONG(reserved_1, w->o.reserved[1] = UINT64_MAX)
WORDS(another_word, "name: me\r\nnonsense: x\r\n") WORDS(no_colon, "name me\r\n") WORDS(no_lifetime, "lifetime: 404\r\n")
WRONG(q_none, memset(&w->q, 0, 192)) WRONG(q_more, w->q.status = CACHE_RULES_NEED_MORE) WRONG(q_refused, w->q.status = CACHE_RULES_REJECTED)
WRONG(q_framing, w->q.framing = CACHE_RULES_FRAMING_CLOSE) WRONG(q_minor, w->q.minor_version = 2) WRONG(q_text, w->q.buf_len = 3) SPAN(method, w->q.method, w->q.buf_len)
SPAN(host, w->q.host, w->q.buf_len) SPAN(target, w->q.target, w->q.buf_len) SPAN(lines, w->q.fields, w->q.buf_len)
WRONG(q_lines, w->q.fields = w->q.method) WRONG(q_zeroed, memset(&w->q.decision_fields, 0, 16)) SPAN(asked, w->q.decision_fields, w->q.buf_len) WRONG(r_none, memset(&w->r, 0, 128)) WRONG(r_more, w->r.status = CACHE_RULES_NEED_MORE)
WRONG(r_refused, w->r.status = CACHE_RULES_REJECTED) WRONG(r_framing, w->r.framing = 4) WRONG(r_minor, w->r.minor_version = 2) WRONG(r_code, w->r.status_code = 1000)
WRONG(r_text, w->r.buf_len = 3) SPAN(r_span, w->r.fields, w->r.buf_len) WRONG(r_lines, w->r.fields.end = w->r.fields.start + 5) WRONG(h_status, w->h.status_code = 1000)
WRONG(h_most, w->h.status_code = UINT64_MAX) WRONG(h_block, w->h.fields.ptr = (const uint8_t *)"no line", w->h.fields.len = 7)
WRONG(seconds, w->one.seconds = UINT64_C(18446744073)) WRONG(most_seconds, w->one.seconds = UINT64_MAX) WRONG(nanoseconds, w->one.nanoseconds = 1000000000)
WRONG(two_seconds, w->two.seconds = UINT64_C(18446744073)) WRONG(two_nanoseconds, w->two.nanoseconds = 1000000000)
WRONG(short_token, w->token_len = 7) WRONG(long_token, w->token_len = 65) WRONG(lines_token, w->token = "12345\n789") WRONG(what_0, w->what = 0)
WRONG(what_5, w->what = 5) WRONG(code, w->code = 1000) WRONG(most_code, w->code = UINT64_MAX) WRONG(framing, w->body.state[0] = 4)
WRONG(most_framing, w->body.state[0] = UINT64_MAX)

#define F(of, name) {#name, of, name}
#define S(of, name) F(of, name##_turned), F(of, name##_beyond), F(of, name##_most)
static const struct fault {
    const char *name;
    int of;
    void (*make)(arguments *);
} faults[] = {
    F(OPTIONS, flags), F(OPTIONS, most_flags), F(OPTIONS, no_ranges), F(OPTIONS, ranges), F(OPTIONS, reserved_0), F(OPTIONS, reserved_1),
    F(OPTIONS, another_word), F(OPTIONS, no_colon), F(OPTIONS, no_lifetime), F(REQUEST, q_none), F(REQUEST, q_more), F(REQUEST, q_refused),
    F(REQUEST, q_framing), F(REQUEST, q_minor), F(REQUEST, q_text), S(REQUEST, method), S(REQUEST, host), S(REQUEST, target), F(LINES, lines_turned), F(REQUEST, lines_beyond), F(REQUEST, lines_most), F(REQUEST, q_lines), F(REQUEST, q_zeroed), S(REQUEST, asked),
    F(RESPONSE, r_none), F(RESPONSE, r_more), F(RESPONSE, r_refused), F(RESPONSE, r_framing), F(RESPONSE, r_minor), F(RESPONSE, r_code), F(RESPONSE, r_text),
    S(RESPONSE, r_span), F(RESPONSE, r_lines), F(STORED, h_status), F(STORED, h_most), F(BLOCK, h_block), F(MOMENT, seconds), F(MOMENT, most_seconds),
    F(MOMENT, nanoseconds), F(SECOND_MOMENT, two_seconds), F(SECOND_MOMENT, two_nanoseconds), F(TOKEN, short_token), F(TOKEN, long_token), F(TOKEN, lines_token),
    F(WHAT, what_0), F(WHAT, what_5), F(CODE, code), F(CODE, most_code), F(BODY, framing), F(BODY, most_framing),
};
#define COUNT(table) (sizeof table / sizeof *table)

static void no(const char *call, const char *fault, const char *what) { wrong++, fprintf(stderr, "%s, %s: %s\n", call, fault, what); }
static arguments right(void) {
    arguments w;
    memset(&w, 0, sizeof w), w.o = cache_rules_default_options(), w.one.seconds = 1000, w.two.seconds = 1001;
    cache_rules_parse_request(&w.o, OF(GET), q_room, sizeof q_room, &w.q), cache_rules_parse_response(&w.o, 0, w.one, OF(OK), r_room, sizeof r_room, &w.r);
    w.h.status_code = 200, w.h.field_count = 1, w.h.fields.ptr = (const uint8_t *)"etag: \"2\"\r\n", w.h.fields.len = 11, w.h.updated.seconds = 900, w.h.fresh_until.seconds = 999;
    w.body = cache_rules_make_body_decoder(CACHE_RULES_FRAMING_LENGTH, 4, 4096), w.what = CACHE_RULES_FETCH_PASS, w.code = 503, w.token_len = 9;
    w.token = "0123456789012345678901234567890123456789012345678901234567890123456789";
    return w;
}
/* Whether a call tells that status and nothing else, and writes nothing. */
static void is_alone(const struct call *call, const char *fault, const answers *told, uint64_t status) {
    if (told->word[0] != status) no(call->name, fault, "another status");
    for (int i = 1; i < call->words; i++) /* check tells in `choice` which line of the words is wrong */
        if (told->word[i] && (call->run != check || i != 7)) no(call->name, fault, "it tells more");
    for (size_t i = 0; i < sizeof room; i++)
        if (room[i] != 0xaa) { no(call->name, fault, "it writes"); break; }
}
static void tried(const struct call *call, const struct fault *fault) {
    arguments bad = right(), good = right();
    answers told, after;
    memset(&told, 0xaa, sizeof told), memset(&after, 0, sizeof after), memset(room, 0xaa, sizeof room), rows++;
    fault->make(&bad), call->run(&bad, &told), is_alone(call, fault->name, &told, CACHE_TIER_BAD_ARGUMENT), call->run(&good, &after);
    if (after.word[0] != call->answered) no(call->name, fault->name, "the right call isn't answered");
}
/* A right call of which the allocation of that place fails; whether it has so many. It may do without, and answers as ever then. */
static int refused(const struct call *call, long place) {
    static uint8_t whole[sizeof room];
    arguments good = right(), again = right();
    answers told, wanted;
    memset(&told, 0xaa, sizeof told), memset(&wanted, 0xaa, sizeof wanted), memset(room, 0xaa, sizeof room);
    call->run(&again, &wanted), memcpy(whole, room, sizeof room), memset(room, 0xaa, sizeof room);
    met = 0, fails_at = place, call->run(&good, &told), fails_at = 0;
    if (told.word[0] == CACHE_TIER_MEMORY && met >= place) refusals++, is_alone(call, "an allocation", &told, CACHE_TIER_MEMORY);
    else if (memcmp(&told, &wanted, sizeof told) || memcmp(room, whole, sizeof room)) no(call->name, "an allocation", "another answer");
    return met >= place;
}
int main(int argc, char **argv) {
    (void)argv;
    for (size_t i = 0; i < COUNT(calls); i++)
        for (size_t j = 0; j < COUNT(faults); j++)
            if (calls[i].takes & faults[j].of) tried(&calls[i], &faults[j]);
    for (size_t i = 0; i < COUNT(calls); i++)
        for (long place = 1; refused(&calls[i], place);) place++;
    for (size_t i = 0; argc > 1 && i < COUNT(calls); i++) printf("%s\n", calls[i].name); /* `bad_rules names`: all exports are in the table */
    if (refusals < 20) no("each call", "an allocation", "too few were refused");
    if (argc > 1) printf("head_end\n");
    else printf("bad calls of the rules: %d, refused allocations: %d, %d wrong\n", rows, refusals, wrong);
    return wrong != 0;
}
