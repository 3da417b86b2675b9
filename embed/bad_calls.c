/* Calls with an argument out of its range, a table: each export of cache_tier.h that has such an argument, with each wrong value of it, is answered
   BAD_ARGUMENT and nothing else, and leaves the tier as one that was never asked. So it is with MEMORY, where one allocation of a right call fails, each
   in turn. bad_rules.c does the same of cache_rules.h. */
#include "cache_tier.h"
#include <stdio.h>

void *__real_malloc(size_t), *__real_realloc(void *, size_t);
static long met, fails_at;
static int fails(void) { return ++met == fails_at; }
void *__wrap_malloc(size_t n) { return fails() ? NULL : __real_malloc(n); }
void *__wrap_realloc(void *p, size_t n) { return fails() ? NULL : __real_realloc(p, n); }

enum takes { MOMENT = 1, KEY = 2, TAG = 4, GIVEN = 8, SHARD = 16 };
typedef struct arguments {
    uint64_t seconds, nanoseconds, id, digested, given, shard;
    const void *key, *tag;
    size_t key_len, tag_len;
    cache_tier_meta meta;
} arguments;
/* What a call answers: an answer, or a found, whose first words are one. */
typedef union answers {
    cache_tier_result plain;
    cache_tier_response found;
} answers;

static const char STALE[] = "HTTP/1.1 200 OK\r\nCache-Control: max-age=1\r\n\r\n", FRESH[] = "HTTP/1.1 200 OK\r\nCache-Control: max-age=5000\r\n\r\n";
static const uint8_t digest[64] = {1, 2, 3};
static int wrong, rows, refusals;

#define OF(text) (const uint8_t *)text, sizeof text - 1
#define K w->digested, (const uint8_t *)w->key, w->key_len
#define T (const uint8_t *)w->tag, w->tag_len
#define M w->seconds, w->nanoseconds
#define CALL(name, ...) \
    static void name(cache_tier *t, const arguments *w, answers *a) { __VA_ARGS__; }
CALL(open_, cache_tier1_open(t, 9, 1, K, T, &a->plain))
CALL(find, cache_tier1_lookup(t, M, w->id, &a->found, a->found.keep))
CALL(poll_, cache_tier1_poll(t, M, w->id, &a->plain))
CALL(begin, cache_tier1_begin(t, M, w->id, OF(FRESH), w->given, &w->meta, &a->plain))
CALL(revalidate, cache_tier1_revalidate(t, M, w->id, OF(FRESH), w->given, &w->meta, &a->plain))
CALL(purge, cache_tier1_purge(t, K, T, &a->plain))
CALL(put, cache_tier1_put(t, M, K, T, OF(FRESH), OF("body"), w->given, &w->meta, &a->plain))
CALL(hit, cache_tier1_get(t, M, K, T, &a->found, a->found.keep))
CALL(kept, cache_tier1_peek(t, K, &a->found, a->found.keep))
CALL(list, cache_tier1_lru_snapshot(t, w->shard, &a->plain))

/* Each export with an argument that may be out of its range (init by itself, below), what it answers to right ones, and on which request. */
static const struct call {
    const char *name;
    void (*run)(cache_tier *, const arguments *, answers *);
    int takes, gives;
    uint64_t id, answered;
} calls[] = {
    {"open", open_, KEY | TAG, 0, 0, CACHE_TIER_OPENED},
    {"lookup", find, MOMENT, 1, 2, CACHE_TIER_FOUND},
    {"poll", poll_, MOMENT, 0, 4, CACHE_TIER_WAITING},
    {"begin", begin, MOMENT | GIVEN, 0, 1, CACHE_TIER_BEGUN},
    {"revalidate", revalidate, MOMENT | GIVEN, 0, 3, CACHE_TIER_REVALIDATED},
    {"purge", purge, KEY | TAG, 0, 0, CACHE_TIER_PURGED},
    {"put", put, MOMENT | KEY | TAG | GIVEN, 0, 0, CACHE_TIER_STORED},
    {"get", hit, MOMENT | KEY | TAG, 1, 0, CACHE_TIER_FOUND},
    {"peek", kept, KEY, 1, 0, CACHE_TIER_FOUND},
    {"lru_snapshot", list, SHARD, 0, 0, CACHE_TIER_ITEM},
};
/* Those without one: what they are given is in range whatever it is, or names a request, an entry, a shard's file. */
static const char *const without[] = {"version", "sizeof", "digest", "end", "write", "finish", "read", "close", "give_up", "lookup_stale", "weight", "release", "evicted_entry", "lru_entry", "lru_save", "lru_file", "lru_load", "lru_restore", "get_stats"};

#define TOO_LATE (UINT64_C(1) << 63)
#define WRONG(name, ...) \
    static void name(arguments *w) { __VA_ARGS__; }
#define TEXT(name, text) WRONG(name, w->tag = text, w->tag_len = sizeof text - 1)
#define DIGEST(name, len) WRONG(name, w->digested = 1, w->key = digest, w->key_len = len)
#define META(name, ...) WRONG(name, w->given = 1, __VA_ARGS__)
WRONG(seconds, w->seconds = TOO_LATE) WRONG(most_seconds, w->seconds = UINT64_MAX) WRONG(nanoseconds, w->nanoseconds = 1000000000)
WRONG(most_nanoseconds, w->nanoseconds = UINT64_MAX) DIGEST(of_none, 0) DIGEST(of_1, 1) DIGEST(of_15, 15) DIGEST(of_17, 17) DIGEST(of_31, 31)
DIGEST(of_33, 33) DIGEST(of_48, 48) DIGEST(of_64, 64) WRONG(another_kind, w->digested = 2, w->key = digest, w->key_len = 16)
WRONG(most_kind, w->digested = UINT64_MAX, w->key = digest, w->key_len = 16) TEXT(byte, "\xff") TEXT(cut, "ab\xc3") TEXT(surrogate, "\xed\xa0\x80")
TEXT(overlong, "\xc0\x80") TEXT(beyond, "\xf4\x90\x80\x80") TEXT(goes_on, "\x80") WRONG(given_2, w->given = 2) WRONG(most_given, w->given = UINT64_MAX)
META(fresh_s, w->meta.fresh_until.seconds = TOO_LATE) META(fresh_ns, w->meta.fresh_until.nanoseconds = 1000000000)
META(created_s, w->meta.created.seconds = TOO_LATE) META(created_ns, w->meta.created.nanoseconds = 1000000000)
META(updated_s, w->meta.updated.seconds = TOO_LATE) META(updated_ns, w->meta.updated.nanoseconds = 1000000000)
META(provenance_s, w->meta.provenance.seconds = TOO_LATE) META(provenance_ns, w->meta.provenance.nanoseconds = 1000000000)
META(while_, w->meta.stale_while_revalidate = UINT64_C(1) << 32) META(if_error, w->meta.stale_if_error = UINT64_C(1) << 32)
META(external_bytes, w->meta.external_bytes = UINT64_C(1) << 62) META(reserved, w->meta.reserved = 1) META(most_reserved, w->meta.reserved = UINT64_MAX)
WRONG(shard, w->shard = 4) WRONG(most_shard, w->shard = UINT64_MAX)

static const struct fault {
    const char *name;
    int of;
    void (*make)(arguments *);
} faults[] = {
    {"seconds", MOMENT, seconds}, {"most seconds", MOMENT, most_seconds}, {"nanoseconds", MOMENT, nanoseconds}, {"most nanoseconds", MOMENT, most_nanoseconds},
    {"digest of none", KEY, of_none}, {"digest of 1", KEY, of_1}, {"digest of 15", KEY, of_15}, {"digest of 17", KEY, of_17}, {"digest of 31", KEY, of_31},
    {"digest of 33", KEY, of_33}, {"digest of 48", KEY, of_48}, {"digest of 64", KEY, of_64}, {"digested 2", KEY, another_kind}, {"most digested", KEY, most_kind},
    {"tag of FF", TAG, byte}, {"tag that is cut", TAG, cut}, {"tag with a surrogate", TAG, surrogate}, {"tag of an overlong form", TAG, overlong},
    {"tag beyond", TAG, beyond}, {"tag that goes on", TAG, goes_on}, {"given 2", GIVEN, given_2}, {"most given", GIVEN, most_given},
    {"fresh until", GIVEN, fresh_s}, {"fresh until, nanoseconds", GIVEN, fresh_ns}, {"created", GIVEN, created_s}, {"created, nanoseconds", GIVEN, created_ns},
    {"updated", GIVEN, updated_s}, {"updated, nanoseconds", GIVEN, updated_ns}, {"provenance", GIVEN, provenance_s}, {"provenance, nanoseconds", GIVEN, provenance_ns},
    {"stale while revalidate", GIVEN, while_}, {"stale if error", GIVEN, if_error}, {"external", GIVEN, external_bytes}, {"reserved", GIVEN, reserved},
    {"most reserved", GIVEN, most_reserved}, {"shard", SHARD, shard}, {"most shard", SHARD, most_shard},
};
#define COUNT(table) (sizeof table / sizeof *table)

static void no(const char *call, const char *fault, const char *what) { wrong++, fprintf(stderr, "%s, %s: %s\n", call, fault, what); }
static cache_tier_moment at(uint64_t s) { return (cache_tier_moment){s, 0}; }
/* A lookup whose response is not wanted. */
static int looks(cache_tier *t, cache_tier_moment now, uint64_t id, cache_tier_result *result) {
    cache_tier_response response = CACHE_TIER_RESPONSE_INIT;
    int status = cache_tier_lookup(t, now, id, &response);
    *result = response.result;
    cache_tier_release(&response);
    return status;
}
/* A tier in which each of the calls does something: /f is fresh at second 2000, /s stale; 1 may begin, 2 look up, 3 renew, 4 waits. */
static cache_tier *made(void) {
    cache_tier_options options = cache_tier_default_options(100000, 5);
    cache_tier_result a;
    cache_tier *t;
    cache_tier_meta stale = cache_tier_meta_until(at(1001), at(1000)), fresh = cache_tier_meta_until(at(6000), at(1000));
    options.lru_shards = 4;
    if (cache_tier_new(&t, &options)) return NULL;
    cache_tier_put(t, at(1000), cache_tier_key_from_name("/f", 2), OF(FRESH), "f", 1, &fresh, &a), cache_tier_put(t, at(1000), cache_tier_key_from_name("/s", 2), OF(STALE), "s", 1, &stale, &a);
    cache_tier_open(t, 1, cache_tier_key_from_name("/n", 2), 1, &a), looks(t, at(2000), 1, &a), cache_tier_open(t, 2, cache_tier_key_from_name("/f", 2), 1, &a);
    cache_tier_open(t, 3, cache_tier_key_from_name("/s", 2), 1, &a), looks(t, at(2000), 3, &a);
    cache_tier_open(t, 4, cache_tier_key_from_name("/n", 2), 1, &a), looks(t, at(2000), 4, &a);
    return t;
}
static arguments right(const struct call *call) {
    return (arguments){2000, 5, call->id, 0, call->takes & GIVEN ? 1 : 0, 3, "/f", "tag", 2, 3, cache_tier_meta_until(at(3000), at(2000))};
}
/* Whether two tiers have the same counts and the same entries, with the same bodies. */
static int are_alike(cache_tier *one, cache_tier *two) {
    cache_tier_stats a, b;
    int alike = 1;
    cache_tier_get_stats(one, &a), cache_tier_get_stats(two, &b), alike &= !memcmp(&a, &b, sizeof a);
    for (uint64_t s = 0; s < 4; s++) {
        cache_tier_result x, y;
        cache_tier_entry e, f;
        cache_tier_lru_snapshot(one, s, &x), cache_tier_lru_snapshot(two, s, &y), alike &= x.entry_count == y.entry_count;
        for (uint64_t i = 0; alike && i < x.entry_count; i++) {
            cache_tier_lru_entry(one, i, &e), cache_tier_lru_entry(two, i, &f);
            alike &= !memcmp(e.primary.ptr, f.primary.ptr, 16) && e.user_tag.len == f.user_tag.len;
        }
    }
    for (uint64_t id = 1; id <= 9; id++) alike &= cache_tier_close(one, id) == cache_tier_close(two, id);
    return alike;
}
static int is_blank(const answers *a, int found) {
    const uint64_t *word = (const uint64_t *)a;
    for (size_t i = 1; i < (found ? 30 : 12); i++)
        if (i != 25 && i != 28 && word[i]) return 0; /* (the addresses of no bytes) */
    return 1;
}
/* A copy in a block of just that length, so that valgrind sees what is read beyond. */
static void *exact(const void *from, size_t len) {
    void *copy = malloc(len ? len : 1);
    return memcpy(copy, from, len);
}
static void tried(const struct call *call, const struct fault *fault) {
    cache_tier *asked = made(), *left = made();
    arguments bad = right(call), good = right(call);
    answers told, after, other;
    memset(&told, 0xaa, sizeof told), memset(&after, 0, sizeof after), memset(&other, 0, sizeof other), rows++;
    fault->make(&bad);
    void *key = exact(bad.key, bad.key_len), *tag = exact(bad.tag, bad.tag_len);
    bad.key = key, bad.tag = tag, call->run(asked, &bad, &told), free(key), free(tag);
    if (told.plain.status != CACHE_TIER_BAD_ARGUMENT) no(call->name, fault->name, "no BAD_ARGUMENT");
    if (!is_blank(&told, call->gives)) no(call->name, fault->name, "it tells more");
    if (call->gives) cache_tier1_release(told.found.keep);
    call->run(asked, &good, &after), call->run(left, &good, &other);
    if (other.plain.status != call->answered) no(call->name, fault->name, "the right call isn't answered");
    if (memcmp(&after.plain, &other.plain, sizeof after.plain)) no(call->name, fault->name, "the next call is answered in another way");
    if (call->gives) cache_tier1_release(after.found.keep), cache_tier1_release(other.found.keep);
    if (!are_alike(asked, left)) no(call->name, fault->name, "something was done");
    cache_tier_free(asked), cache_tier_free(left);
}
/* A right call of which the allocation of that place fails, with what comes after it; whether it has so many. */
static int refused(const struct call *call, long place) {
    cache_tier *asked = made(), *left = made();
    arguments good = right(call);
    answers told, after, other;
    memset(&told, 0xaa, sizeof told), memset(&after, 0, sizeof after), memset(&other, 0, sizeof other);
    met = 0, fails_at = place, call->run(asked, &good, &told), fails_at = 0;
    int has = met >= place, does = told.plain.status == call->answered;
    if (!does && (!has || told.plain.status != CACHE_TIER_MEMORY)) no(call->name, "an allocation", "neither done nor MEMORY");
    if (call->gives) cache_tier1_release(told.found.keep);
    if (!does && !told.plain.body_removed && !told.plain.entry_removed && !told.plain.evicted) {
        refusals++, call->run(asked, &good, &after), call->run(left, &good, &other);
        if (memcmp(&after.plain, &other.plain, sizeof after.plain)) no(call->name, "an allocation", "the next call is answered in another way");
        if (call->gives) cache_tier1_release(after.found.keep), cache_tier1_release(other.found.keep);
        if (!are_alike(asked, left)) no(call->name, "an allocation", "something was done");
    }
    cache_tier_free(asked), cache_tier_free(left);
    return has;
}
/* A tier by options out of their range isn't made. */
static void made_wrong(void) {
    static const uint64_t shards[] = {0, 2, 3, 5, 8, 15, 17, 32, UINT64_MAX}, good[] = {1, 4, 16};
    cache_tier_options options = cache_tier_default_options(1000, 5);
    cache_tier *t;
    for (size_t i = 0; i < COUNT(shards); i++, rows++)
        if (options.lru_shards = shards[i], cache_tier_new(&t, &options) != CACHE_TIER_BAD_ARGUMENT || t) no("init", "shards", "no BAD_ARGUMENT");
    options.lru_shards = 4;
    for (size_t i = 0; i < COUNT(options.reserved); i++, rows++) {
        options.reserved[i] = i % 2 ? 1 : UINT64_MAX;
        if (cache_tier_new(&t, &options) != CACHE_TIER_BAD_ARGUMENT || t) no("init", "reserved", "no BAD_ARGUMENT");
        options.reserved[i] = 0;
    }
    for (size_t i = 0; i < COUNT(good); i++) {
        options.lru_shards = good[i];
        if (cache_tier_new(&t, &options)) no("init", "none", "no tier");
        cache_tier_free(t);
    }
}
int main(int argc, char **argv) {
    (void)argv, made_wrong();
    for (size_t i = 0; i < COUNT(calls); i++)
        for (size_t j = 0; j < COUNT(faults); j++)
            if (calls[i].takes & faults[j].of) tried(&calls[i], &faults[j]);
    for (size_t i = 0; i < COUNT(calls); i++)
        for (long place = 1; refused(&calls[i], place);) place++;
    for (size_t i = 0; argc > 1 && i < COUNT(calls); i++) printf("%s\n", calls[i].name); /* `bad_calls names`: all exports are in one of the tables */
    for (size_t i = 0; argc > 1 && i < COUNT(without); i++) printf("%s\n", without[i]);
    if (refusals < 20) no("each call", "an allocation", "too few were refused");
    if (argc > 1) printf("init\n");
    else printf("bad calls: %d, refused allocations: %d, %d wrong\n", rows, refusals, wrong);
    return wrong != 0;
}
