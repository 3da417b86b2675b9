/* A day of calls, from C: `day` once, `day --fail` with each allocation failing in turn, `day --threads` by four threads under one lock, and
   `day --no-malloc`, by which a hit, a find, a read of a whole body, a `kept` and their releases take no memory. */
#include "cache_tier.h"
#include <pthread.h>
#include <stdio.h>

void *__real_malloc(size_t), *__real_realloc(void *, size_t);
static long met, fails_at, taken;
static int fails(void) { return __atomic_fetch_add(&taken, 1, __ATOMIC_SEQ_CST), fails_at && ++met == fails_at; }
void *__wrap_malloc(size_t n) { return fails() ? NULL : __real_malloc(n); }
void *__wrap_realloc(void *p, size_t n) { return fails() ? NULL : __real_realloc(p, n); }

static const char HEAD[] = "HTTP/1.1 200 OK\r\nCache-Control: max-age=60, stale-if-error=5\r\nX-A: 1\r\n\r\n";
static const char PLAIN[] = "HTTP/1.1 200 OK\r\n\r\n";
#define OF(text) text, sizeof text - 1
#define NAME(text) cache_tier_key_from_name(text, sizeof text - 1)
static pthread_mutex_t lock = PTHREAD_MUTEX_INITIALIZER;
static cache_tier *tier;
static cache_tier_result a;
static int wrong, hits;

static cache_tier_moment at(uint64_t seconds) { return (cache_tier_moment){seconds, 0}; }
/* Fresh for a minute, up to and with its end. */
static cache_tier_meta minute(uint64_t seconds) {
    cache_tier_meta meta = cache_tier_meta_until(at(seconds + 60), at(seconds));
    return meta.stale_if_error = 5, meta;
}
/* A lookup whose response is not wanted. */
static int looks(cache_tier *t, cache_tier_moment now, uint64_t id, cache_tier_result *result) {
    cache_tier_response response = CACHE_TIER_RESPONSE_INIT;
    int status = cache_tier_lookup(t, now, id, &response);
    *result = response.result;
    cache_tier_release(&response);
    return status;
}
static void no(const char *what, uint64_t got, uint64_t want) {
    wrong++, fprintf(stderr, "%s: %llu and not %llu\n", what, (unsigned long long)got, (unsigned long long)want);
}
/* Each status is the wanted one, or out of memory where an allocation fails; nothing else. */
static int is(uint64_t got, uint64_t want, const char *what) {
    if (got == want) return 1;
    if (!(fails_at && met >= fails_at && got < 32)) no(what, got, want);
    return 0;
}
static void equal(uint64_t got, uint64_t want, const char *what) {
    if (got != want) no(what, got, want);
}
static void same(const cache_tier_slice *lent, const char *text) {
    if (lent->len != strlen(text) || memcmp(cache_tier_i_bytes(lent->ptr), text, lent->len)) wrong++, fprintf(stderr, "other bytes than %s\n", text);
}
static int made(uint64_t shards) {
    cache_tier_options options = cache_tier_default_options(3000, 2);
    options.lru_shards = shards;
    return is((uint64_t)cache_tier_new(&tier, &options), CACHE_TIER_OK, "new");
}
static void head_of(const cache_tier_head *h) {
    size_t place = 0;
    cache_tier_slice name, value;
    equal(h->status_code, 200, "status"), equal(h->field_count, 2, "lines"), equal(h->fresh_until.seconds, 1060, "fresh until");
    equal(h->created.seconds, 1000, "created"), equal(h->stale_if_error, 5, "stale if error");
    equal((uint64_t)cache_tier_next_field(h, &place, &name, &value), 1, "a line"), equal((uint64_t)cache_tier_next_field(h, &place, &name, &value), 1, "a line");
    same(&name, "x-a"), same(&value, "1"), equal((uint64_t)cache_tier_next_field(h, &place, &name, &value), 0, "no line");
    same(&h->fields, "cache-control: max-age=60, stale-if-error=5\r\nx-a: 1\r\n");
}
static int opens(uint64_t id, int asks) { return is((uint64_t)cache_tier_open(tier, id, NAME("/a"), asks, &a), CACHE_TIER_OPENED, "open"); }
/* One writes; another reads behind it, and keeps what it read. Returns what was written. */
static const char *writes(cache_tier_response *early) {
    const char *body = "";
    cache_tier_meta meta = minute(1000);
    if (!opens(1, 1) || !is((uint64_t)looks(tier, at(1000), 1, &a), CACHE_TIER_MISS, "look up")) return NULL;
    equal(a.permit, CACHE_TIER_PERMIT_WRITE, "permit");
    if (!is((uint64_t)cache_tier_begin(tier, at(1000), 1, OF(HEAD), &meta, &a), CACHE_TIER_BEGUN, "begin")) return NULL;
    if (is((uint64_t)cache_tier_write(tier, 1, "abc", 3, 0, &a), CACHE_TIER_WRITTEN, "piece")) body = "abc";
    if (opens(2, 0) && is((uint64_t)cache_tier_lookup(tier, at(1001), 2, early), CACHE_TIER_FOUND, "find")) {
        head_of(&early->head), equal(early->result.fresh, 1, "fresh"), equal(early->result.complete, 0, "complete");
        is((uint64_t)cache_tier_read(tier, 2, early), *body ? CACHE_TIER_DATA : CACHE_TIER_PENDING, "read");
    }
    if (*body && is((uint64_t)cache_tier_write(tier, 1, "de", 2, 1, &a), CACHE_TIER_WRITTEN, "piece")) body = "abcde";
    return is((uint64_t)cache_tier_finish(tier, 1, &a), CACHE_TIER_STORED, "finish") ? body : NULL;
}
/* What is past its moment is fresh again after a confirmation. */
static void confirm(void) {
    static const char head[] = "HTTP/1.1 200 OK\r\nCache-Control: max-age=100\r\n\r\n";
    cache_tier_meta meta = cache_tier_meta_until(at(1164), at(1064));
    cache_tier_response found = CACHE_TIER_RESPONSE_INIT;
    if (!is((uint64_t)cache_tier_open(tier, 4, NAME("/b"), 0, &a), CACHE_TIER_OPENED, "open")) return;
    if (!is((uint64_t)looks(tier, at(1064), 4, &a), CACHE_TIER_FOUND, "look up")) return;
    equal(a.fresh, 0, "fresh");
    if (!is((uint64_t)cache_tier_revalidate(tier, at(1064), 4, OF(head), &meta, &a), CACHE_TIER_REVALIDATED, "revalidate")) return;
    equal(a.evicted, 0, "evicted"), is((uint64_t)cache_tier_revalidate(tier, at(1064), 4, OF(head), &meta, &a), CACHE_TIER_WRONG_PHASE, "again");
    if (is((uint64_t)cache_tier_get(tier, at(1164), NAME("/b"), &found), CACHE_TIER_FOUND, "hit")) equal(found.head.fresh_until.seconds, 1164, "fresh until");
    cache_tier_release(&found);
}
/* A given meta, and what is listed and kept of it. */
static void given(void) {
    cache_tier_meta meta = cache_tier_meta_until(at(2000), at(900));
    cache_tier_response found = CACHE_TIER_RESPONSE_INIT;
    cache_tier_entry entry;
    uint8_t both[32], stored[16], own[16];
    meta.external_bytes = 1000, memset(both, 7, 32), cache_tier_digest(both, 32, stored);
    if (!is((uint64_t)cache_tier_put(tier, at(1000), cache_tier_key_from_pair(both), OF(PLAIN), "token", 5, &meta, &a), CACHE_TIER_STORED, "put")) return;
    int shown = cache_tier_lru_snapshot(tier, 0, &a), count = a.entry_count;
    if (is((uint64_t)shown, CACHE_TIER_ITEM, "list") && count) {
        equal((uint64_t)cache_tier_lru_entry(tier, 0, &entry), CACHE_TIER_ITEM, "listed"), cache_tier_entry_key(&entry, own);
        if (memcmp(own, stored, 16) || entry.variance.len != 16 || entry.user_tag.len) wrong++, fprintf(stderr, "another entry\n");
    }
    equal((uint64_t)cache_tier_lru_entry(tier, count, &entry), CACHE_TIER_NO_ITEM, "no entry");
    if (is((uint64_t)cache_tier_peek(tier, cache_tier_key_from_digest(stored), &found), CACHE_TIER_FOUND, "kept"))
        same(&found.body, "token"), equal(found.head.external_bytes, 1000, "external"), equal(found.head.created.seconds, 900, "created");
    cache_tier_release(&found);
}
/* What an end tells of a write: it was finished, given up, given up after its last piece. */
static void ends(void) {
    cache_tier_meta meta = minute(1000);
    cache_tier_response found = CACHE_TIER_RESPONSE_INIT;
    for (int how = 0; how < 3; how++) {
        if (!is((uint64_t)cache_tier_open(tier, 5, NAME("/e"), 0, &a), CACHE_TIER_OPENED, "open")) return;
        if (!is((uint64_t)looks(tier, at(1000), 5, &a), CACHE_TIER_MISS, "look up")) return;
        if (!is((uint64_t)cache_tier_begin(tier, at(1000), 5, OF(HEAD), &meta, &a), CACHE_TIER_BEGUN, "begin")) return;
        if (!is((uint64_t)cache_tier_write(tier, 5, "abc", 3, how == 2, &a), CACHE_TIER_WRITTEN, "piece")) return;
        if (!is((uint64_t)cache_tier_open(tier, 6, NAME("/e"), 0, &a), CACHE_TIER_OPENED, "open")) return;
        if (!is((uint64_t)looks(tier, at(1000), 6, &a), CACHE_TIER_FOUND, "look up")) return;
        if (how == 0 && !is((uint64_t)cache_tier_finish(tier, 5, &a), CACHE_TIER_STORED, "finish")) return;
        equal((uint64_t)cache_tier_close(tier, 5), CACHE_TIER_CLOSED, "drop");
        if (!is((uint64_t)cache_tier_read(tier, 6, &found), CACHE_TIER_DATA, "read")) return;
        equal(found.result.complete, 0, "complete bytes"), same(&found.body, "abc");
        if (is((uint64_t)cache_tier_read(tier, 6, &found), CACHE_TIER_END, "read")) equal(found.result.complete, how != 1, "complete");
        equal((uint64_t)cache_tier_close(tier, 6), CACHE_TIER_CLOSED, "drop"), cache_tier_purge(tier, NAME("/e"), &a);
    }
}
/* A writer gives up, and who waits goes on; a body that is too large changes nothing; what is fresh is found as stale. */
static void bounds(void) {
    static const char large[1502]; /* a byte past half of the limit */
    cache_tier_response found = CACHE_TIER_RESPONSE_INIT;
    cache_tier_result before, after;
    cache_tier_meta meta = minute(1000);
    for (uint64_t id = 7; id < 9; id++)
        if (!is((uint64_t)cache_tier_open(tier, id, NAME("/g"), 1, &a), CACHE_TIER_OPENED, "open") ||
            !is((uint64_t)looks(tier, at(1000), id, &a), CACHE_TIER_MISS, "lookup"))
            return;
    equal((uint64_t)cache_tier_lookup_stale(tier, 8, &found), CACHE_TIER_WRONG_PHASE, "as stale, with the lock");
    equal((uint64_t)cache_tier_give_up(tier, 8), CACHE_TIER_WRONG_PHASE, "who waits");
    equal((uint64_t)cache_tier_give_up(tier, 99), CACHE_TIER_NO_REQUEST, "no request");
    equal((uint64_t)cache_tier_give_up(tier, 7), CACHE_TIER_GIVEN_UP, "give up"), equal((uint64_t)cache_tier_give_up(tier, 7), CACHE_TIER_WRONG_PHASE, "again");
    equal((uint64_t)cache_tier_poll(tier, at(1000), 8, &a), CACHE_TIER_WAIT_ENDED, "poll"), equal(a.lock_status, CACHE_TIER_LOCK_GIVE_UP, "how it ended");
    cache_tier_close(tier, 7), cache_tier_close(tier, 8), cache_tier_weight(tier, &before);
    if (!is((uint64_t)cache_tier_put(tier, at(1000), NAME("/l"), OF(HEAD), large, sizeof large, &meta, &a), CACHE_TIER_BODY_TOO_LARGE, "put")) return;
    equal((uint64_t)cache_tier_weight(tier, &after), CACHE_TIER_ITEM, "weight"), equal(after.weight, before.weight, "weight");
    equal(after.entries, before.entries, "entries");
    if (!is((uint64_t)cache_tier_put(tier, at(1000), NAME("/f"), OF(HEAD), "hello", 5, &meta, &a), CACHE_TIER_STORED, "put")) return;
    if (!is((uint64_t)cache_tier_open(tier, 7, NAME("/f"), 0, &a), CACHE_TIER_OPENED, "open")) return;
    if (is((uint64_t)cache_tier_lookup_stale(tier, 7, &found), CACHE_TIER_FOUND, "as stale"))
        equal(found.result.fresh, 0, "fresh"), equal(found.result.permit, CACHE_TIER_PERMIT_NONE, "permit"), equal(found.head.body_len, 5, "length");
    cache_tier_release(&found), cache_tier_close(tier, 7), cache_tier_purge(tier, NAME("/f"), &a);
}
static void bad_calls(void) {
    cache_tier_meta meta = cache_tier_meta_until(at(2000), at(900));
    cache_tier_response found = CACHE_TIER_RESPONSE_INIT;
    cache_tier_key key = cache_tier_key_from_name("123456789012345", 15);
    cache_tier_stats before, after;
    cache_tier_get_stats(tier, &before), key.is_digest = 1;
    equal((uint64_t)cache_tier_open(tier, 9, key, 0, &a), CACHE_TIER_BAD_ARGUMENT, "a short digest");
    equal((uint64_t)cache_tier_open(tier, 9, cache_tier_key_with_tag(NAME("/a"), "\xff", 1), 0, &a), CACHE_TIER_BAD_ARGUMENT, "a tag that is no text");
    equal((uint64_t)cache_tier_get(tier, (cache_tier_moment){1, 1000000000}, NAME("/a"), &found), CACHE_TIER_BAD_ARGUMENT, "nanoseconds");
    equal((uint64_t)cache_tier_get(tier, (cache_tier_moment){(uint64_t)1 << 63, 0}, NAME("/a"), &found), CACHE_TIER_BAD_ARGUMENT, "seconds");
    equal((uint64_t)cache_tier_lru_snapshot(tier, 1, &a), CACHE_TIER_BAD_ARGUMENT, "a shard");
    meta.external_bytes = (uint64_t)1 << 62;
    equal((uint64_t)cache_tier_put(tier, at(1), NAME("/c"), OF(PLAIN), "", 0, &meta, &a), CACHE_TIER_BAD_ARGUMENT, "external");
    meta.external_bytes = 0, meta.stale_if_error = (uint64_t)1 << 32;
    equal((uint64_t)cache_tier_put(tier, at(1), NAME("/c"), OF(PLAIN), "", 0, &meta, &a), CACHE_TIER_BAD_ARGUMENT, "a window");
    meta.stale_if_error = 0, meta.reserved = 1;
    equal((uint64_t)cache_tier_put(tier, at(1), NAME("/c"), OF(PLAIN), "", 0, &meta, &a), CACHE_TIER_BAD_ARGUMENT, "a reserved word");
    cache_tier_get_stats(tier, &after), equal((uint64_t)memcmp(&before, &after, sizeof before), 0, "something was done");
    cache_tier_release(&found);
}
static void day(void) {
    cache_tier_response early = CACHE_TIER_RESPONSE_INIT, late = CACHE_TIER_RESPONSE_INIT, none = CACHE_TIER_RESPONSE_INIT;
    cache_tier_meta meta = minute(1003);
    cache_tier_file file;
    if (!made(1)) return;
    const char *body = writes(&early);
    if (body && is((uint64_t)cache_tier_get(tier, at(1002), NAME("/a"), &late), CACHE_TIER_FOUND, "hit")) head_of(&late.head), same(&late.body, body);
    is((uint64_t)cache_tier_get(tier, at(1002), NAME("/z"), &none), CACHE_TIER_NO_HIT, "no hit"), equal(none.held, 0, "held");
    cache_tier_purge(tier, NAME("/a"), &a);
    is((uint64_t)cache_tier_peek(tier, NAME("/z"), &none), CACHE_TIER_NO_ITEM, "nothing kept");
    if (is((uint64_t)cache_tier_put(tier, at(1003), NAME("/b"), OF(HEAD), "hello", 5, &meta, &a), CACHE_TIER_STORED, "put")) confirm();
    given(), bad_calls(), ends(), bounds();
    if (is((uint64_t)cache_tier_lru_save(tier, &a), CACHE_TIER_SAVED, "save")) is((uint64_t)cache_tier_lru_file(tier, 0, &file), CACHE_TIER_ITEM, "file");
    for (uint64_t id = 1; id <= 8; id++) { /* never refused for want of memory */
        int status = cache_tier_close(tier, id);
        if (status != CACHE_TIER_CLOSED && status != CACHE_TIER_NO_REQUEST) no("close", (uint64_t)status, CACHE_TIER_CLOSED);
    }
    cache_tier_free(tier);
    if (early.held && early.result.status == CACHE_TIER_DATA) same(&early.body, "abc"); /* what was lent is still there */
    if (late.held) same(&late.body, body), head_of(&late.head);
    for (int twice = 0; twice < 2; twice++) cache_tier_release(&early), cache_tier_release(&late), cache_tier_release(&none);
}
static void *releases(void *found) { return cache_tier_release((cache_tier_response *)found), NULL; }
static void *asks(void *from) { /* its own range of numbers, and its own keys beside shared ones */
    uint64_t id = (uint64_t)(size_t)from << 32;
    char key[32];
    cache_tier_response found = CACHE_TIER_RESPONSE_INIT;
    for (int i = 0; i < 20000; i++, id++) {
        cache_tier_result own;
        cache_tier_meta meta = minute((uint64_t)i);
        size_t len = (size_t)sprintf(key, "/%d", i % 2 ? i % 50 : i % 10);
        pthread_mutex_lock(&lock);
        int status = cache_tier_get(tier, at((uint64_t)i), cache_tier_key_from_name(key, len), &found);
        if (status == CACHE_TIER_NO_HIT) cache_tier_put(tier, at((uint64_t)i), cache_tier_key_from_name(key, len), OF(HEAD), key, len, &meta, &own);
        if (i % 7 == 0) cache_tier_purge(tier, cache_tier_key_from_name(key, len), &own);
        pthread_mutex_unlock(&lock);
        if (status == CACHE_TIER_FOUND) __atomic_fetch_add(&hits, 1, __ATOMIC_SEQ_CST);
        if (status == CACHE_TIER_FOUND && (found.body.len != len || memcmp(found.body.ptr, key, len))) __atomic_fetch_add(&wrong, 1, __ATOMIC_SEQ_CST);
    }
    cache_tier_release(&found);
    return NULL;
}
static void threads(void) {
    pthread_t every[4], other;
    cache_tier_meta meta = minute(1);
    cache_tier_response found = CACHE_TIER_RESPONSE_INIT;
    if (!made(16)) return;
    for (size_t i = 0; i < 4; i++) pthread_create(&every[i], NULL, asks, (void *)(i + 1));
    for (size_t i = 0; i < 4; i++) pthread_join(every[i], NULL);
    cache_tier_put(tier, at(1), NAME("/a"), OF(HEAD), "hello", 5, &meta, &a), cache_tier_get(tier, at(1), NAME("/a"), &found);
    cache_tier_free(tier), same(&found.body, "hello"), pthread_create(&other, NULL, releases, &found), pthread_join(other, NULL);
    if (hits < 20000) wrong++, fprintf(stderr, "only %d hits of 80000\n", hits); /* every other one is of five keys */
}
static void no_malloc(void) {
    cache_tier_meta meta = minute(1000);
    cache_tier_response found = CACHE_TIER_RESPONSE_INIT;
    if (!made(16)) return;
    cache_tier_put(tier, at(1000), NAME("/a"), OF(HEAD), "hello", 5, &meta, &a), cache_tier_open(tier, 1, NAME("/a"), 0, &a);
    long before = taken;
    if (before < 5) wrong++, fprintf(stderr, "a put and an open take no memory: it isn't counted\n");
    equal((uint64_t)cache_tier_get(tier, at(1001), NAME("/a"), &found), CACHE_TIER_FOUND, "hit"), equal((uint64_t)(taken - before), 0, "allocations of a hit");
    cache_tier_release(&found), equal((uint64_t)cache_tier_lookup(tier, at(1001), 1, &found), CACHE_TIER_FOUND, "find");
    equal((uint64_t)(taken - before), 0, "allocations of a find");
    equal((uint64_t)cache_tier_read(tier, 1, &found), CACHE_TIER_DATA, "read"), equal((uint64_t)(taken - before), 0, "allocations of a read");
    equal((uint64_t)cache_tier_peek(tier, NAME("/a"), &found), CACHE_TIER_FOUND, "kept"), equal((uint64_t)(taken - before), 0, "allocations of a kept");
    cache_tier_release(&found), cache_tier_close(tier, 1), cache_tier_purge(tier, NAME("/a"), &a);
    equal((uint64_t)(taken - before), 0, "allocations of a release, a close and a purge");
    cache_tier_open(tier, 2, NAME("/p"), 1, &a), looks(tier, at(1001), 2, &a), before = taken;
    equal((uint64_t)cache_tier_give_up(tier, 2), CACHE_TIER_GIVEN_UP, "give up"), equal((uint64_t)cache_tier_weight(tier, &a), CACHE_TIER_ITEM, "weight");
    equal((uint64_t)(taken - before), 0, "allocations of a request that is given up, and of the weight");
    cache_tier_free(tier);
}
/* A set's slices and shares, as Rust and Python divide too. */
static void sets(void) {
    uint8_t most[16], half[16] = {0};
    uint64_t sum = 0;
    cache_tier_stats all, one;
    memset(most, 255, 16), half[15] = 128, memset(&all, 0, sizeof all), memset(&one, 1, sizeof one);
    equal((uint64_t)cache_tier_partition(most, 3), 2, "the last slice"), equal((uint64_t)cache_tier_partition(half, 3), 1, "the middle slice"), equal((uint64_t)cache_tier_partition(most, 1), 0, "one slice");
    for (size_t i = 0; i < 5; i++) sum += cache_tier_partition_limit(1003, 5, i);
    equal(sum, 1003, "shares"), equal((uint64_t)cache_tier_partition_limit(1003, 5, 2), 201, "a greater share"), equal((uint64_t)cache_tier_partition_limit(1003, 5, 3), 200, "a share");
    equal((uint64_t)cache_tier_partition_limit(CACHE_TIER_NONE, 5, 0), CACHE_TIER_NONE, "no limit"), equal((uint64_t)cache_tier_partition_of_id(5 * 7 + 3, 5), 3, "a request's slice");
    cache_tier_stats_add(&all, &one), memset(one.reserved, 0, sizeof one.reserved), equal((uint64_t)memcmp(&all, &one, sizeof all), 0, "sums");
}
int main(int argc, char **argv) {
    if (argc == 1) sets(), day();
    else if (!strcmp(argv[1], "--threads")) threads();
    else if (!strcmp(argv[1], "--no-malloc")) no_malloc();
    else {
        for (fails_at = 1; met = 0, day(), met >= fails_at; fails_at++) continue; /* until a run has fewer allocations */
        printf("each of %ld allocations failed\n", fails_at - 1);
        if (fails_at < 20) wrong++, fprintf(stderr, "too few to be those of a day\n");
    }
    return wrong != 0;
}
