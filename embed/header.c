/* What the headers answer where nothing is stored. */
#include "cache_tier.h"
#include "cache_tier_files.h"
#if __has_include("cache_rules.h")
#include "cache_rules.h"
#endif
#include <assert.h>

/* These change nothing of the tier. */
static void look(const cache_tier *t) {
    cache_tier_entry e;
    cache_tier_stats c;
    cache_tier_file f;
    cache_tier_response found = CACHE_TIER_RESPONSE_INIT;
    assert(cache_tier_evicted_entry(t, 0, &e) == CACHE_TIER_NO_ITEM);
    assert(cache_tier_lru_entry(t, 0, &e) == CACHE_TIER_NO_ITEM);
    assert(cache_tier_lru_file(t, 0, &f) == CACHE_TIER_NO_ITEM);
    assert(cache_tier_peek(t, cache_tier_key_from_name("/a", 2), &found) == CACHE_TIER_NO_ITEM);
    cache_tier_get_stats(t, &c);
    assert(c.entries == 0);
}

/* A lookup whose response is not wanted. */
static int looks(cache_tier *t, cache_tier_moment now, uint64_t id, cache_tier_result *result) {
    cache_tier_response response = CACHE_TIER_RESPONSE_INIT;
    int status = cache_tier_lookup(t, now, id, &response);
    *result = response.result;
    cache_tier_release(&response);
    return status;
}
/* 40 clients of a private page: by close one goes on in each round of a fetch, by give_up all in the second. */
static int rounds_of(int gives_up) {
    cache_tier_options o = cache_tier_default_options(1 << 20, 2);
    cache_tier_moment now = {1000, 0};
    cache_tier_result a;
    cache_tier *t;
    int status = cache_tier_new(&t, &o), open[40], waits[40], left = 40, rounds = 0;
    assert(t && status == CACHE_TIER_OK);
    for (uint64_t i = 0; i < 40; i++) {
        cache_tier_open(t, i, cache_tier_key_from_name("/private", 8), 1, &a);
        looks(t, now, i, &a);
        open[i] = 1, waits[i] = a.permit == CACHE_TIER_PERMIT_WAIT;
    }
    for (; left; rounds++) {
        now.seconds++;
        for (uint64_t i = 0; i < 40; i++)
            if (open[i] && !waits[i]) {
                if (gives_up) cache_tier_give_up(t, i);
                cache_tier_close(t, i), open[i] = 0, left--;
            }
        for (uint64_t i = 0; i < 40; i++)
            if (open[i] && waits[i] && cache_tier_poll(t, now, i, &a) == CACHE_TIER_WAIT_ENDED) {
                waits[i] = a.lock_status != CACHE_TIER_LOCK_GIVE_UP;
                if (waits[i]) looks(t, now, i, &a), waits[i] = a.permit == CACHE_TIER_PERMIT_WAIT;
            }
    }
    cache_tier_free(t);
    return rounds;
}

/* Over something stale, which stays; past the permit's age; in each other phase. */
static void give_up(void) {
    cache_tier_options o = cache_tier_default_options(1 << 20, 2);
    cache_tier_moment now = {1000, 0}, later = {3000, 0};
    cache_tier_meta m = cache_tier_meta_until(now, now);
    cache_tier_key k = cache_tier_key_from_name("/a", 2);
    cache_tier_response found = CACHE_TIER_RESPONSE_INIT;
    cache_tier_result a;
    cache_tier *t;
    assert(cache_tier_new(&t, &o) == CACHE_TIER_OK && cache_tier_give_up(t, 1) == CACHE_TIER_NO_REQUEST);
    cache_tier_put(t, now, k, "HTTP/1.1 200 OK\r\n\r\n", 19, "old", 3, &m, &a);
    for (uint64_t i = 1; i < 4; i++) cache_tier_open(t, i, k, 1, &a);
    assert(cache_tier_give_up(t, 1) == CACHE_TIER_WRONG_PHASE);
    looks(t, later, 1, &a), looks(t, later, 2, &a);
    assert(a.permit == CACHE_TIER_PERMIT_WAIT && cache_tier_give_up(t, 2) == CACHE_TIER_WRONG_PHASE);
    assert(cache_tier_give_up(t, 1) == CACHE_TIER_GIVEN_UP && cache_tier_give_up(t, 1) == CACHE_TIER_WRONG_PHASE);
    assert(cache_tier_poll(t, later, 2, &a) == CACHE_TIER_WAIT_ENDED && a.lock_status == CACHE_TIER_LOCK_GIVE_UP);
    assert(cache_tier_peek(t, k, &found) == CACHE_TIER_FOUND && found.body.len == 3);
    looks(t, later, 2, &a), looks(t, later, 3, &a);
    later.seconds += 10;
    assert(cache_tier_poll(t, later, 3, &a) == CACHE_TIER_WAIT_ENDED && a.lock_status == CACHE_TIER_LOCK_AGE_TIMEOUT);
    assert(cache_tier_give_up(t, 2) == CACHE_TIER_GIVEN_UP);
    looks(t, later, 3, &a);
    assert(a.permit == CACHE_TIER_PERMIT_WRITE);
    cache_tier_begin(t, later, 3, "HTTP/1.1 200 OK\r\n\r\n", 19, &m, &a);
    assert(cache_tier_give_up(t, 3) == CACHE_TIER_WRONG_PHASE);
    cache_tier_release(&found), cache_tier_free(t);
}

int main(void) {
    uint8_t digest[16] = {0};
    cache_tier_options o = cache_tier_default_options(1 << 20, 2);
    cache_tier *t;
    int status = cache_tier_new(&t, &o);
    memset(digest, 255, sizeof digest);
    assert(t && status == CACHE_TIER_OK);
    look(t);
    cache_tier_free(t);
    give_up();
    assert(rounds_of(0) == 40 && rounds_of(1) == 2);
    /* no slices */
    assert(cache_tier_partition(digest, 0) == 0 && cache_tier_partition(digest, 3) == 2);
    assert(cache_tier_partition_limit(100, 0, 0) == 0 && cache_tier_partition_limit(100, 3, 0) == 34 && cache_tier_partition_limit(CACHE_TIER_NONE, 0, 0) == CACHE_TIER_NONE);
    assert(cache_tier_partition_of_id(7, 0) == 0 && cache_tier_partition_of_id(7, 4) == 3);
    return 0;
}
