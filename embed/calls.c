/* Calls on a tier of 16 shards with 1,000 bodies of 1,024 bytes, heads of three lines and keys of 28 bytes, for a count of instructions. Words: which
   call, and how often. Names that are drawn come from one stream, so that two runs ask for the same; `empty` draws them alone. */
#include "cache_tier.h"
#include <stdio.h>

#define KEYS 1000
#define BODY 1024
static const char HEAD[] = "HTTP/1.1 200 OK\r\nCache-Control: max-age=1000\r\nContent-Type: text/html\r\nContent-Length: 1024\r\n\r\n";
static char name[64], body[BODY];
static uint8_t digest[16];
static const cache_tier_moment put_at = {1000, 0}, now = {1001, 0};
static cache_tier *t;
static cache_tier_result a;
static cache_tier_meta meta;
static cache_tier_response f = CACHE_TIER_RESPONSE_INIT;
static uint64_t seen, state = 88172645463325252u;

static uint64_t drawn(void) {
    state ^= state << 13, state ^= state >> 7, state ^= state << 17;
    return state % KEYS;
}
static cache_tier_key key(const char *path, uint64_t item) {
    return cache_tier_key_from_name(name, (size_t)sprintf(name, "https://example.org/%s/%llu", path, (unsigned long long)item));
}
static uint64_t put(cache_tier_key k, cache_tier_moment at) { return (uint64_t)cache_tier_put(t, at, k, HEAD, sizeof HEAD - 1, body, BODY, &meta, &a); }
static void opened(cache_tier_key k, int look, int read) {
    cache_tier_open(t, 1, k, 0, &a);
    if (look) seen += (uint64_t)cache_tier_lookup(t, now, 1, &f), cache_tier_release(&f);
    if (read && cache_tier_read(t, 1, &f) == CACHE_TIER_DATA) seen += f.body.ptr[f.body.len - 1], cache_tier_release(&f);
    cache_tier_close(t, 1);
}
static void written(uint64_t item) {
    cache_tier_open(t, 1, key("new", item), 1, &a);
    if (cache_tier_lookup(t, now, 1, &f) == CACHE_TIER_MISS) {
        cache_tier_begin(t, now, 1, HEAD, sizeof HEAD - 1, &meta, &a);
        for (int p = 0; p < 4; p++) cache_tier_write(t, 1, body + 256 * p, 256, p == 3, &a);
        seen += (uint64_t)cache_tier_finish(t, 1, &a);
    }
    cache_tier_close(t, 1);
}
static void hit(cache_tier_key k, int head) {
    if (cache_tier_get(t, now, k, &f) != CACHE_TIER_FOUND) return;
    cache_tier_slice line, value;
    for (size_t place = 0; head && cache_tier_next_field(&f.head, &place, &line, &value);) seen += value.len;
    seen += f.body.ptr[f.body.len - 1], cache_tier_release(&f);
}
static void found(cache_tier_key k) {
    cache_tier_open(t, 1, k, 0, &a);
    seen += (uint64_t)cache_tier_lookup(t, now, 1, &f), cache_tier_release(&f);
    if (cache_tier_read(t, 1, &f) == CACHE_TIER_DATA) seen += f.body.ptr[f.body.len - 1], cache_tier_release(&f);
    cache_tier_close(t, 1);
}
enum { EMPTY, OPEN, LOOK, ABSENT, READ, FIND, HIT, HEADED, DIGEST, DIGESTED, PUT, WRITE, PURGE, NOTHING, KINDS };
static const char *const kinds[] = {"empty", "open", "look", "absent", "read", "find", "hit", "head", "digest", "digested", "put", "write", "purge", "nothing"};

static void turn(int kind, cache_tier_key k, uint64_t item) {
    switch (kind) {
    case OPEN: opened(k, 0, 0); break;
    case LOOK: case ABSENT: opened(k, 1, 0); break;
    case READ: opened(k, 1, 1); break;
    case FIND: found(k); break;
    case HIT: hit(k, 0); break;
    case HEADED: hit(k, 1); break;
    case DIGEST: cache_tier_digest(name, k.len, digest); break;
    case DIGESTED: cache_tier_digest(name, k.len, digest), hit(cache_tier_key_from_digest(digest), 0); break;
    case PUT: seen += put(k, now); break;
    case WRITE: written(item); break;
    case PURGE: seen += (uint64_t)cache_tier_purge(t, k, &a) + put(k, now); break;
    case NOTHING: seen += (uint64_t)cache_tier_purge(t, k, &a); break;
    default: seen += k.len;
    }
}
int main(int words, char **word) {
    cache_tier_options options = cache_tier_default_options(UINT64_MAX / 2, 0x1234567890abcdefu);
    uint64_t n = words > 2 ? strtoull(word[2], NULL, 10) : 0;
    int kind = 0;
    while (words > 2 && kind < KINDS && strcmp(kinds[kind], word[1])) kind++;
    if (words < 3 || kind == KINDS || cache_tier_new(&t, &options)) return 2;
    meta = cache_tier_meta_ttl(put_at, 1000);
    memset(body, 'x', BODY);
    for (uint64_t i = 0; i < KEYS; i++) seen += put(key("path", i), put_at);
    for (uint64_t i = 0; i < n; i++) turn(kind, key(kind == ABSENT || kind == NOTHING ? "none" : "path", drawn()), i);
    printf("%llu\n", (unsigned long long)seen);
    cache_tier_free(t);
    return 0;
}
