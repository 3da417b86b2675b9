/* An HTTP cache as a library, for C11 and C++17 on 64-bit machines.

   It stores responses under keys, up to a limit of bytes, and evicts the least recently used. It has no thread, no clock and no global state: the
   caller supplies memory, the time and random numbers. Of the tier's calls contracts are proved; of the rules' docs/proved/rules.md says which are proved
   safe alone. This file is written by tools/dev/interface.py: change its template, or embed/interface.toml.

   OWNERSHIP. The library copies every argument before a call returns. What it lends is read-only:
     - a cache_tier_response (get, lookup, read, peek) is valid until cache_tier_release or until it is filled again, whatever is purged, replaced or
       evicted meanwhile, even after the tier's end;
     - entries and files (evicted_entry, lru_entry, lru_file) are valid until the call named there.
   THREADS. One call at a time per tier: hold a lock of yours around each call that takes a `cache_tier *`, and while you use what the tier itself
     lends. cache_tier_release, cache_tier_digest and all cache_rules_* need no lock. A response belongs to one thread at a time. Do not call from a
     signal handler, or from the forked child of a process with threads.
   STATUSES. Each call returns a cache_tier_status, also found in `result.status`. Below 32 the call was refused and nothing changed, except what
     `body_removed`, `entry_removed` and `evicted` say. Every call may answer MEMORY, except close, end, get_stats, release and a purge without a tag.

   A REQUEST is identified by a number of yours, unique among the open ones. `close` is always allowed. Of the others, anything not listed answers
   WRONG_PHASE:

     state                                             allowed
     opened                                            lookup; lookup_stale unless it was opened with `lock`
     FOUND, fresh                                      read
     FOUND, stale, permit NONE                         read, begin, give_up, revalidate, lookup, lookup_stale
     FOUND, stale, permit WRITE                        read, begin, give_up, revalidate
     FOUND, stale, or MISS, permit WAIT                poll until WAIT_ENDED, then lookup (before: IS_WAITING); read if something was found
     MISS, permit NONE or WRITE                        begin, give_up
     GIVEN_UP                                          none
     BEGUN                                             write until the last chunk (after it: AFTER_END), finish, read
     STORED, WRITE_REMOVED, or after revalidate        read (what it wrote, or found) */
#ifndef CACHE_TIER_H
#define CACHE_TIER_H
#include <stddef.h>
#include <stdint.h>
#include <stdlib.h>
#include <string.h>

#ifdef __cplusplus
#define CACHE_TIER_ASSERT(what) static_assert(what, #what)
#define CACHE_TIER_RESPONSE_INIT {}
#define CACHE_TIER_DEPRECATED(text) [[deprecated(text)]]
extern "C" {
#else
#define CACHE_TIER_ASSERT(what) _Static_assert(what, #what)
#define CACHE_TIER_RESPONSE_INIT {0}
#if defined(__GNUC__)
#define CACHE_TIER_DEPRECATED(text) __attribute__((deprecated(text)))
#else
#define CACHE_TIER_DEPRECATED(text)
#endif
#endif

@DECLARATIONS@
static inline const uint8_t *cache_tier_i_bytes(const void *p) { return p ? (const uint8_t *)p : (const uint8_t *)""; } /* internal */

/* ---- a tier, its memory, and keys */

/* The version of the linked library: 1000 times the interface, plus the revision. */
static inline uint64_t cache_tier_version(void) { return cache_tier1_version(); }
static inline size_t cache_tier_sizeof(void) { return cache_tier1_sizeof(); }

@DEFAULTS@
/* A key by its name, as "http://a.example/a". */
static inline cache_tier_key cache_tier_key_from_name(const void *name, size_t len) {
    cache_tier_key k = {name, len, 0, NULL, 0};
    return k;
}
/* The 16 bytes by which a tier knows a name (BLAKE2b-128). Compute it before you take the lock. */
static inline void cache_tier_digest(const void *name, size_t len, uint8_t out[16]) { cache_tier1_digest(cache_tier_i_bytes(name), len, out, 16); }
static inline cache_tier_key cache_tier_key_from_digest(const uint8_t digest[16]) {
    cache_tier_key k = {digest, 16, 1, NULL, 0};
    return k;
}
/* A key with a secondary key (RFC 9111, 4.1): both digests, one after the other. */
static inline cache_tier_key cache_tier_key_from_pair(const uint8_t digests[32]) {
    cache_tier_key k = {digests, 32, 1, NULL, 0};
    return k;
}
/* With the tag of its owner. A key found under several tags has an entry for each, and each weighs all of the body: past max_bytes until the next put or
   finish. So use few tags, and none that a client chooses. */
static inline cache_tier_key cache_tier_key_with_tag(cache_tier_key k, const char *user_tag, size_t len) {
    return k.user_tag = user_tag, k.user_tag_len = len, k;
}
/* Metadata: fresh up to and including `fresh_until`; arrived at `created`. */
static inline cache_tier_meta cache_tier_meta_until(cache_tier_moment fresh_until, cache_tier_moment created) {
    cache_tier_meta m = {fresh_until, created, created, created, 0, 0, 0, 0};
    return m;
}
/* Metadata: fresh for `ttl` seconds from `now`, as by max-age: while the age is less than that (RFC 9111, 4.2). */
static inline cache_tier_meta cache_tier_meta_ttl(cache_tier_moment now, uint64_t ttl) {
    cache_tier_moment last = {0, 0}; /* the last nanosecond before */
    if (ttl) last.seconds = now.seconds + ttl - !now.nanoseconds, last.nanoseconds = now.nanoseconds ? now.nanoseconds - 1 : 999999999;
    return cache_tier_meta_until(last, now);
}

/* ---- calls */

/* Releases what a response lends; does nothing if it lends nothing. Needs no lock, on any thread, also after the tier's end. */
static inline void cache_tier_release(cache_tier_response *response) {
    if (!response->held) return;
    response->held = 0;
    cache_tier1_release(response->keep);
}
@CALLS@
/* Makes a tier in memory of malloc, which aligns to CACHE_TIER_ALIGN: OK, or what is wrong, and then `*tier` is NULL. */
static inline int cache_tier_new(cache_tier **tier, const cache_tier_options *options) {
    int status = CACHE_TIER_MEMORY;
    *tier = (cache_tier *)malloc(cache_tier1_sizeof());
    if (*tier) status = cache_tier_init(*tier, options);
    if (status != CACHE_TIER_OK) free(*tier), *tier = NULL;
    return status;
}
static inline void cache_tier_free(cache_tier *tier) {
    if (tier) cache_tier1_end(tier), free(tier);
}
/* The next field line of a head: 1, or 0 at its end. Start with `*position` 0. */
static inline int cache_tier_next_field(const cache_tier_head *head, size_t *position, cache_tier_slice *name, cache_tier_slice *value) {
    const uint8_t *at, *colon, *end;
    size_t left = head->fields.len - *position;
    if (!left) return 0;
    at = head->fields.ptr + *position;
    if (!(colon = (const uint8_t *)memchr(at, ':', left))) return 0;
    if (!(end = (const uint8_t *)memchr(colon, '\r', left - (size_t)(colon - at)))) return 0;
    name->ptr = at, name->len = (size_t)(colon - at), value->ptr = colon + 2, value->len = (size_t)(end - colon) - 2;
    *position += (size_t)(end - at) + 2;
    return 1;
}
/* The key under which an entry's body is stored: 16 bytes, for cache_tier_key_from_digest, or as the name of its file. */
static inline void cache_tier_entry_key(const cache_tier_entry *entry, uint8_t out[16]) {
    uint8_t both[32];
    memcpy(both, entry->primary.ptr, 16);
    if (entry->variance.len) memcpy(both + 16, entry->variance.ptr, 16);
    if (entry->variance.len) cache_tier_digest(both, 32, out);
    else memcpy(out, both, 16);
}

/* ---- partitions: several tiers, each with its own lock and its share of the limits. All calls for a key go to the tier of its digest. */

/* Partitions below 2^32; of none: 0. */
static inline size_t cache_tier_partition(const uint8_t digest[16], size_t partitions) {
    uint64_t top = (uint64_t)digest[15] << 24 | (uint64_t)digest[14] << 16 | (uint64_t)digest[13] << 8 | digest[12];
    return (size_t)(top * partitions >> 32);
}
/* A partition's share of a limit; the shares add up to it. NONE stays NONE; of no partitions a share is 0. */
static inline uint64_t cache_tier_partition_limit(uint64_t limit, size_t partitions, size_t partition) {
    return limit == CACHE_TIER_NONE ? limit : partitions ? limit / partitions + (partition < limit % partitions) : 0;
}
/* The partition of a request number, if you number requests as `n * partitions + partition`. */
static inline size_t cache_tier_partition_of_id(uint64_t id, size_t partitions) { return partitions ? (size_t)(id % partitions) : 0; }
static inline void cache_tier_stats_add(cache_tier_stats *sum, const cache_tier_stats *one) {
    sum->found += one->found, sum->misses += one->misses, sum->bodies += one->bodies, sum->body_bytes += one->body_bytes;
    sum->head_bytes += one->head_bytes, sum->external_bytes += one->external_bytes, sum->entries += one->entries, sum->weight += one->weight;
    sum->evicted += one->evicted;
}

#ifdef __cplusplus
}
/* For C++: what a call hands over, released with its scope. It is moved, and never copied. `get()` goes to a call, which releases what was there:
       cache_tier_scoped_response f;
       if (cache_tier_get(t, now, key, f.get()) == CACHE_TIER_FOUND) send(f->body.ptr, f->body.len); */
class cache_tier_scoped_response {
    cache_tier_response response_;

  public:
    cache_tier_scoped_response() noexcept : response_() {}
    ~cache_tier_scoped_response() { cache_tier_release(&response_); }
    cache_tier_scoped_response(const cache_tier_scoped_response &) = delete;
    cache_tier_scoped_response &operator=(const cache_tier_scoped_response &) = delete;
    cache_tier_scoped_response(cache_tier_scoped_response &&other) noexcept : response_(other.response_) { other.response_ = cache_tier_response(); }
    cache_tier_scoped_response &operator=(cache_tier_scoped_response &&other) noexcept {
        if (this != &other) {
            cache_tier_release(&response_);
            response_ = other.response_;
            other.response_ = cache_tier_response();
        }
        return *this;
    }
    cache_tier_response *get() noexcept { return &response_; }
    const cache_tier_response *operator->() const noexcept { return &response_; }
    const cache_tier_response &operator*() const noexcept { return response_; }
    explicit operator bool() const noexcept { return response_.held != 0; }
};
#endif
#endif
