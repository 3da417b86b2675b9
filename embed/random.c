/* Random calls on two tiers at once: `random SEED CALLS`. On one of them a hit is one call, a look-up comes with its head and keys are digests; on the
   other a hit is an open, a look-up, a read and a drop, and keys are names. Each answers as the other does, and both keep the same. What was found is
   held for a while, looked at again, and released by another thread, some of it after the tier's end. */
#include "cache_tier.h"
#include <pthread.h>
#include <stdio.h>

#define HELD 64
#define IDS 5
static uint64_t state, wrong, calls;
static cache_tier *one, *two;
static cache_tier_response held[HELD];
static uint64_t sums[HELD];

static uint64_t draw(uint64_t below) {
    state ^= state << 13, state ^= state >> 7, state ^= state << 17;
    return (state >> 11) % below;
}
static void same(const char *what, uint64_t a, uint64_t b) {
    if (a == b) return;
    if (wrong++ < 5) fprintf(stderr, "call %llu: %s: %llu and %llu\n", (unsigned long long)calls, what, (unsigned long long)a, (unsigned long long)b);
}
static uint64_t sum(cache_tier_slice l, uint64_t so_far) {
    for (size_t i = 0; i < l.len; i++) so_far = so_far * 31 + l.ptr[i];
    return so_far * 31 + l.len;
}
/* A lookup whose response is not wanted. */
static int looks(cache_tier *t, cache_tier_moment now, uint64_t id, cache_tier_result *result) {
    cache_tier_response response = CACHE_TIER_RESPONSE_INIT;
    int status = cache_tier_lookup(t, now, id, &response);
    *result = response.result;
    cache_tier_release(&response);
    return status;
}
static void bytes(const char *what, cache_tier_slice a, cache_tier_slice b) { same(what, sum(a, 1), sum(b, 1)); }
static void answers(const char *what, const cache_tier_result *a, const cache_tier_result *b) {
    same(what, a->status, b->status), same(what, a->body_len, b->body_len), same(what, a->evicted, b->evicted), same(what, a->fresh, b->fresh);
    same(what, a->complete, b->complete), same(what, a->permit, b->permit), same(what, a->body_removed, b->body_removed), same(what, a->entry_removed, b->entry_removed);
    for (uint64_t i = 0; i <= a->evicted; i++) {
        cache_tier_entry e, f;
        same("evicted", cache_tier_evicted_entry(one, i, &e), cache_tier_evicted_entry(two, i, &f));
        if (i < a->evicted) bytes("evicted", e.primary, f.primary), bytes("evicted", e.user_tag, f.user_tag);
    }
}
static void heads(const char *what, const cache_tier_head *a, const cache_tier_head *b) {
    same(what, a->status_code, b->status_code), same(what, a->field_count, b->field_count), same(what, a->fresh_until.seconds, b->fresh_until.seconds);
    same(what, a->created.seconds, b->created.seconds), same(what, a->updated.seconds, b->updated.seconds), bytes(what, a->fields, b->fields);
    same(what, a->provenance.seconds, b->provenance.seconds), same(what, a->external_bytes, b->external_bytes);
}
static void *lets_go(void *found) { return cache_tier_release((cache_tier_response *)found), NULL; }
/* Where the next found is kept: what lay there is as it was, and goes. */
static cache_tier_response *place(uint64_t *which) {
    *which = draw(HELD);
    cache_tier_response *f = &held[*which];
    if (f->held) same("what is held", sum(f->head.fields, sum(f->body, 7)), sums[*which]);
    if (f->held && draw(50) == 0) {
        pthread_t other;
        pthread_create(&other, NULL, lets_go, f), pthread_join(other, NULL);
    }
    return f;
}
static void keeps(uint64_t which) { sums[which] = sum(held[which].head.fields, sum(held[which].body, 7)); }

static char key[8];
static uint8_t digest[16];
static cache_tier_key by_digest(const char *tag, size_t len) { return cache_tier_key_with_tag(cache_tier_key_from_digest(digest), tag, len); }
static cache_tier_key by_name(const char *tag, size_t len) { return cache_tier_key_with_tag(cache_tier_key_from_name(key, 3), tag, len); }

/* A hit in one call, and the calls that it stands for. */
static void hits(cache_tier_moment now, const char *tag, size_t tag_len) {
    static cache_tier_response read = CACHE_TIER_RESPONSE_INIT, kept = CACHE_TIER_RESPONSE_INIT;
    uint64_t which;
    cache_tier_result a;
    cache_tier_response *f = place(&which);
    uint64_t status = cache_tier_get(one, now, by_digest(tag, tag_len), f);
    keeps(which);
    if (status == CACHE_TIER_NO_HIT) { /* it left its tier as it was: the other isn't asked; a request on the first one says that there is none */
        cache_tier_open(one, IDS, by_name(tag, tag_len), 0, &a), cache_tier_open(two, IDS, by_name(tag, tag_len), 0, &a);
        cache_tier_result b;
        looks(one, now, IDS, &a), looks(two, now, IDS, &b), answers("no hit", &a, &b);
        same("no hit", a.status == CACHE_TIER_FOUND && a.fresh && a.complete, 0);
        cache_tier_close(one, IDS), cache_tier_close(two, IDS);
        return;
    }
    cache_tier_open(two, IDS, by_name(tag, tag_len), 0, &a), looks(two, now, IDS, &a);
    answers("hit", &f->result, &a);
    if (status == CACHE_TIER_FOUND) {
        same("hit", cache_tier_read(two, IDS, &read), CACHE_TIER_DATA), bytes("hit", f->body, read.body);
        same("kept", cache_tier_peek(two, by_name("", 0), &kept), CACHE_TIER_FOUND), heads("kept", &f->head, &kept.head), bytes("kept", f->body, kept.body);
    }
    cache_tier_release(&read), cache_tier_release(&kept), cache_tier_close(two, IDS);
}
static size_t head(char *to, int renews) {
    static const char *const control[] = {"max-age=5", "max-age=50", "no-store", "private", "max-age=0", "no-cache", "max-age=9, stale-if-error=7"};
    size_t len = (size_t)sprintf(to, "HTTP/1.1 %s\r\n", renews ? "304 Not Modified" : draw(9) ? "200 OK" : "404 Not Found");
    if (draw(9)) len += (size_t)sprintf(to + len, "Cache-Control: %s\r\n", control[draw(7)]);
    for (uint64_t lines = draw(4); lines; lines--) len += (size_t)sprintf(to + len, "X-%llu: %.*s\r\n", (unsigned long long)lines, (int)draw(40), "a line of a head, longer than some, or of nothing");
    if (draw(40) == 0) return len; /* it isn't whole */
    return len + (size_t)sprintf(to + len, "\r\n");
}
static void writes(uint64_t id, cache_tier_moment now) {
    static const char text[] = "0123456789abcdefghijklmnopqrstuvwxyz";
    cache_tier_result a, b;
    char room[500];
    cache_tier_meta given = cache_tier_meta_until(now, now);
    given.fresh_until.seconds += draw(30), given.external_bytes = draw(2) ? 0 : draw(500);
    const cache_tier_meta *says = &given;
    size_t len, from = draw(20);
    switch (draw(5)) {
    case 0: len = head(room, 0), cache_tier_begin(one, now, id, room, len, says, &a), cache_tier_begin(two, now, id, room, len, says, &b); break;
    case 1: len = head(room, 1), cache_tier_revalidate(one, now, id, room, len, says, &a), cache_tier_revalidate(two, now, id, room, len, says, &b); break;
    case 2: len = draw(16), cache_tier_write(one, id, text + from, len, len == 5, &a), cache_tier_write(two, id, text + from, len, len == 5, &b); break;
    case 3: cache_tier_finish(one, id, &a), cache_tier_finish(two, id, &b); break;
    default:
        len = head(room, 0), cache_tier_put(one, now, by_digest("", 0), room, len, text + from, 9, says, &a);
        memcpy(room + len, text + from, 9), cache_tier_put(two, now, by_name("", 0), room, len + 9, NULL, 0, says, &b); /* split in another way */
    }
    answers("write", &a, &b);
}
static void calls_one(void) {
    static cache_tier_response read = CACHE_TIER_RESPONSE_INIT;
    cache_tier_result a, b;
    uint64_t id = draw(IDS), which;
    cache_tier_moment now = {1000 + calls / 40 - draw(3), draw(2) * 5};
    const char *tag = draw(12) ? "" : "tag";
    sprintf(key, "/%02llu", (unsigned long long)(draw(3) ? draw(6) : draw(20))), cache_tier_digest(key, 3, digest);
    switch (draw(12)) {
    case 0: case 1: a.status = cache_tier_close(one, id), same("drop", a.status, cache_tier_close(two, id)); break;
    case 2: which = draw(2), cache_tier_open(one, id, by_digest(tag, strlen(tag)), (int)which, &a);
        cache_tier_open(two, id, by_name(tag, strlen(tag)), (int)which, &b), answers("open", &a, &b); break;
    case 3: case 4: {
        cache_tier_response *f = place(&which);
        cache_tier_lookup(one, now, id, f), keeps(which), looks(two, now, id, &b), answers("look up", &f->result, &b); break; }
    case 5: cache_tier_poll(one, now, id, &a), cache_tier_poll(two, now, id, &b), answers("poll", &a, &b); break;
    case 6: {
        cache_tier_response *f = place(&which);
        cache_tier_read(one, id, f), keeps(which), cache_tier_read(two, id, &read), answers("read", &f->result, &read.result), bytes("read", f->body, read.body);
        break; }
    case 7: if (draw(4) == 0) cache_tier_purge(one, by_digest(tag, strlen(tag)), &a), cache_tier_purge(two, by_name(tag, strlen(tag)), &b), answers("purge", &a, &b); break;
    case 8: case 9: hits(now, tag, strlen(tag)); break;
    default: writes(id, now);
    }
    cache_tier_release(&read);
}
static void equal(void) {
    cache_tier_stats a, b;
    cache_tier_result x;
    cache_tier_file f, g;
    cache_tier_get_stats(one, &a), cache_tier_get_stats(two, &b);
    same("found", a.found, b.found), same("absent", a.misses, b.misses);
    same("report", (uint64_t)memcmp(&a.bodies, &b.bodies, sizeof a - offsetof(cache_tier_stats, bodies)), 0);
    cache_tier_lru_save(one, &x), cache_tier_lru_save(two, &x);
    for (uint64_t i = 0; i < 4; i++) cache_tier_lru_file(one, i, &f), cache_tier_lru_file(two, i, &g), same("file", f.status, g.status), bytes("file", f.content, g.content);
}
int main(int argc, char **argv) {
    cache_tier_options options = cache_tier_default_options(2000, 3);
    uint64_t count = argc > 2 ? strtoull(argv[2], NULL, 10) : 0;
    state = argc > 1 ? strtoull(argv[1], NULL, 10) * 2654435761u + 88172645463325252u : 0;
    options.lru_shards = 4, options.eviction_seed = draw(99), options.max_entries = 15, options.lock_age = 3, options.lock_timeout = 5;
    if (!count || cache_tier_new(&one, &options) || cache_tier_new(&two, &options)) return 2;
    for (; calls < count; calls++) calls_one();
    equal();
    cache_tier_free(one), cache_tier_free(two);
    for (int i = 0; i < HELD; i++) {
        if (held[i].held) same("what is held after the end", sum(held[i].head.fields, sum(held[i].body, 7)), sums[i]);
        cache_tier_release(&held[i]), cache_tier_release(&held[i]);
    }
    printf("random calls: %llu, %llu differences\n", (unsigned long long)calls, (unsigned long long)wrong);
    return wrong != 0;
}
