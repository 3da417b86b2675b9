/* A first hit: a response is put, and served from the tier's own memory by one call. */
#include "cache_tier.h"
#include <stdio.h>

int main(void) {
    static const char head[] = "HTTP/1.1 200 OK\r\nContent-Type: text/plain\r\n\r\n";
    cache_tier_options options = cache_tier_default_options(1 << 30, 2 /* random and secret if strangers choose keys */);
    cache_tier_moment then = {1000, 0}, now = {1030, 0};
    cache_tier_key key = cache_tier_key_from_name("http://a.example/a", 18);
    cache_tier_meta meta = cache_tier_meta_ttl(then, 60);
    cache_tier_response found = CACHE_TIER_RESPONSE_INIT;
    cache_tier_result result;
    cache_tier *tier;
    int status = cache_tier_new(&tier, &options);
    if (status != CACHE_TIER_OK) return fprintf(stderr, "%s\n", cache_tier_strerror(status)), 1;

    if (cache_tier_get(tier, then, key, &found) == CACHE_TIER_NO_HIT) /* a miss: fetch it, and store it */
        cache_tier_put(tier, then, key, head, sizeof head - 1, "hello", 5, &meta, &result);
    if (cache_tier_get(tier, now, key, &found) == CACHE_TIER_FOUND) /* a hit */
        printf("%.*s\n", (int)found.body.len, (const char *)found.body.ptr);

    cache_tier_release(&found);
    cache_tier_free(tier);
    return 0;
}
