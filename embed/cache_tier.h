/* An HTTP cache as a library, for C11 and C++17 on 64-bit machines.

   It stores responses under keys, up to a limit of bytes, and evicts the least recently used. It has no thread, no clock and no global state: the
   caller supplies memory, the time and random numbers. Of the tier's calls contracts are proved; of the rules' docs/proved/rules.md says which are proved
   safe alone. This file is written by tools/dev/interface.py: change its template, or embed/interface.toml.

   OWNERSHIP. The library copies every argument before a call returns. What it lends is read-only:
     - a cache_tier_response (get, lookup, read, peek) is valid until cache_tier_release or until it is filled again, whatever is purged, replaced or
       evicted meanwhile, even after the tier's end;
     - entries and files (evicted_entry, lru_entry, lru_file) are valid until the call named there.
   THREADS. One call at a time per tier: hold a lock of yours around each call that takes a `cache_tier *`, and while you use what the tier itself
     lends. cache_tier_release, cache_tier_digest and all cache_rules_* need no lock. A response belongs to one thread at a time. Do not call from a
     signal handler, or from the forked child of a process with threads.
   STATUSES. Each call returns a cache_tier_status, also found in `result.status`. Below 32 the call was refused and nothing changed, except what
     `body_removed`, `entry_removed` and `evicted` say. Every call may answer MEMORY, except close, end, get_stats, release and a purge without a tag.

   A REQUEST is identified by a number of yours, unique among the open ones. `close` is always allowed. Of the others, anything not listed answers
   WRONG_PHASE:

     state                                             allowed
     opened                                            lookup; lookup_stale unless it was opened with `lock`
     FOUND, fresh                                      read
     FOUND, stale, permit NONE                         read, begin, give_up, revalidate, lookup, lookup_stale
     FOUND, stale, permit WRITE                        read, begin, give_up, revalidate
     FOUND, stale, or MISS, permit WAIT                poll until WAIT_ENDED, then lookup (before: IS_WAITING); read if something was found
     MISS, permit NONE or WRITE                        begin, give_up
     GIVEN_UP                                          none
     BEGUN                                             write until the last chunk (after it: AFTER_END), finish, read
     STORED, WRITE_REMOVED, or after revalidate        read (what it wrote, or found) */
#ifndef CACHE_TIER_H
#define CACHE_TIER_H
#include <stddef.h>
#include <stdint.h>
#include <stdlib.h>
#include <string.h>

#ifdef __cplusplus
#define CACHE_TIER_ASSERT(what) static_assert(what, #what)
#define CACHE_TIER_RESPONSE_INIT {}
#define CACHE_TIER_DEPRECATED(text) [[deprecated(text)]]
extern "C" {
#else
#define CACHE_TIER_ASSERT(what) _Static_assert(what, #what)
#define CACHE_TIER_RESPONSE_INIT {0}
#if defined(__GNUC__)
#define CACHE_TIER_DEPRECATED(text) __attribute__((deprecated(text)))
#else
#define CACHE_TIER_DEPRECATED(text)
#endif
#endif

/* 1000 times the interface, plus the revision. */
#define CACHE_TIER_VERSION 1000
/* No limit of entries, no lock timeout, or no length. */
#define CACHE_TIER_NONE UINT64_MAX
/* Alignment of a tier's memory. */
#define CACHE_TIER_ALIGN 16

/* What a call answers. Below 32 the call was refused. 1 to 17 are the fault numbers of the trace format. */
#define CACHE_TIER_STATUSES(X) \
    X(CACHE_TIER_OK, 0, "ok") /* Done. */ \
    X(CACHE_TIER_NO_REQUEST, 1, "no request with this number is open") \
    X(CACHE_TIER_ID_IN_USE, 2, "a request with this number is already open") \
    X(CACHE_TIER_WRONG_PHASE, 3, "the request's phase does not allow this call") \
    X(CACHE_TIER_IS_WAITING, 4, "the request is waiting for another request's permit") \
    X(CACHE_TIER_AFTER_END, 5, "the last chunk was already written") \
    X(CACHE_TIER_BAD_HEAD, 6, "the head cannot be parsed or stored") \
    X(CACHE_TIER_WRITE_REMOVED, 7, "a purge or an eviction removed the write") \
    X(CACHE_TIER_BEFORE_EPOCH, 8, "a moment lies before 1970") \
    X(CACHE_TIER_NUMBERS_SPENT, 10, "no internal number is left") \
    X(CACHE_TIER_TOO_HEAVY, 11, "the total weight of a shard would overflow") \
    X(CACHE_TIER_TOO_LONG, 12, "a shard has the greatest number of entries") \
    X(CACHE_TIER_MEMORY, 13, "out of memory") \
    X(CACHE_TIER_FOLDER, 14, "no shard was saved") \
    X(CACHE_TIER_NOT_STORED, 17, "the response is still being written, or was removed or replaced") \
    X(CACHE_TIER_BAD_ARGUMENT, 20, "an argument is out of range") /* Also a user tag that is not UTF-8, or a reserved word that is not 0. */ \
    X(CACHE_TIER_NOT_NEW, 21, "the tier has already been used") \
    X(CACHE_TIER_NO_ITEM, 22, "there is no such entry, file or body") \
    X(CACHE_TIER_BUFFER_TOO_SMALL, 23, "the buffer is too small") /* `buf_needed` says which length suffices. */ \
    X(CACHE_TIER_BODY_TOO_LARGE, 24, "the body is larger than max_body_bytes") /* Nothing has changed; a write goes on as it was. */ \
    X(CACHE_TIER_OPENED, 32, "opened") /* A request is open. */ \
    X(CACHE_TIER_FOUND, 33, "found") /* A stored response was found, fresh or stale. */ \
    X(CACHE_TIER_MISS, 34, "miss") /* Nothing is stored under the key. */ \
    X(CACHE_TIER_WAIT_ENDED, 35, "the wait has ended") /* `lock_status` says how. */ \
    X(CACHE_TIER_WAITING, 36, "still waiting") /* Poll again later. */ \
    X(CACHE_TIER_BEGUN, 37, "begun") /* A write began; other requests find it. */ \
    X(CACHE_TIER_WRITTEN, 38, "written") /* The bytes were added. */ \
    X(CACHE_TIER_DATA, 39, "data") /* Bytes of the body, perhaps none. */ \
    X(CACHE_TIER_PENDING, 40, "more bytes may come") /* The body is still being written. */ \
    X(CACHE_TIER_END, 41, "end of the body") /* `complete` says whether the body is whole. */ \
    X(CACHE_TIER_CLOSED, 42, "closed") /* The request is closed. */ \
    X(CACHE_TIER_PURGED, 43, "purged") /* Something was removed. */ \
    X(CACHE_TIER_NOT_FOUND, 44, "nothing was stored under the key") /* There was nothing to purge. */ \
    X(CACHE_TIER_STORED, 45, "stored") /* `body_len` bytes are stored; `evicted` entries went. */ \
    X(CACHE_TIER_GIVEN_UP, 46, "given up") /* The response will not be stored; who waited goes on. */ \
    X(CACHE_TIER_SAVED, 47, "saved") /* `shards_ok` shards were serialized, `shards_failed` were not. */ \
    X(CACHE_TIER_RESTORED, 48, "restored") /* `shards_ok` loaded, `shards_missing` without a file, `shards_corrupt` with a bad one. */ \
    X(CACHE_TIER_ITEM, 49, "item") /* The entry or file that was asked for. */ \
    X(CACHE_TIER_REVALIDATED, 50, "revalidated") /* The stored head was replaced. */ \
    X(CACHE_TIER_NO_HIT, 51, "no fresh and complete response") /* Nothing changed; open a request. */ \
    X(CACHE_RULES_NEED_MORE, 64, "the head or body goes on") /* Call again with more bytes. */ \
    X(CACHE_RULES_PARSED, 65, "a head was parsed") \
    X(CACHE_RULES_REJECTED, 66, "a head or body is rejected") /* `reason` says why. */ \
    X(CACHE_RULES_DONE, 67, "done") \
    X(CACHE_RULES_STORE, 68, "to be stored") \
    X(CACHE_RULES_DO_NOT_STORE, 69, "not to be stored") /* `reason` says why. */ \
    X(CACHE_RULES_MISMATCH, 70, "the 304 is about another response") /* Fetch again, unconditionally. */ \
    X(CACHE_RULES_DATA, 71, "data") \
    X(CACHE_RULES_BODY_END, 72, "the body is complete")
#define CACHE_TIER_X(name, number, text) name = number,
enum cache_tier_status { CACHE_TIER_STATUSES(CACHE_TIER_X) };
#undef CACHE_TIER_X
static inline const char *cache_tier_strerror(uint64_t status) {
    switch (status) {
#define CACHE_TIER_X(name, number, text) case number: return text;
        CACHE_TIER_STATUSES(CACHE_TIER_X)
#undef CACHE_TIER_X
    default: return "no status of this library";
    }
}

/* What a lookup got of the permit to write, which one request a key has. */
enum cache_tier_permit {
    CACHE_TIER_PERMIT_NONE = 0, /* Not asked for, or what was found is fresh. */
    CACHE_TIER_PERMIT_WRITE = 1, /* This request fetches; others wait. */
    CACHE_TIER_PERMIT_WAIT = 2 /* Another request fetches: poll until the wait ends. */
};

/* How a wait for a permit ended. Look up again, or go on without the cache. */
enum cache_tier_lock_status {
    CACHE_TIER_LOCK_DONE = 1, /* The writer began its write, or revalidated: a lookup finds it. */
    CACHE_TIER_LOCK_TRANSIENT_ERROR = 2, /* The origin failed for now. No call of this interface gives it. */
    CACHE_TIER_LOCK_GIVE_UP = 3, /* The response may not be stored. */
    CACHE_TIER_LOCK_DANGLING = 4, /* The writer closed its request. */
    CACHE_TIER_LOCK_WAIT_TIMEOUT = 5, /* This request waited as long as `lock_timeout` allows. */
    CACHE_TIER_LOCK_AGE_TIMEOUT = 6 /* The permit is older than `lock_age`: the next lookup gets one. */
};

/* cache_tier_sizeof() bytes, aligned to CACHE_TIER_ALIGN; never moved or copied. */
typedef struct cache_tier cache_tier;

/* A moment: seconds below 2^63 and nanoseconds below 10^9 since 1970, by one clock of the caller. Moments may go back. */
typedef struct cache_tier_moment {
    uint64_t seconds;
    uint64_t nanoseconds;
} cache_tier_moment;

/* Lent bytes. If there are none `len` is 0 and `ptr` may be NULL. */
typedef struct cache_tier_slice {
    const uint8_t *ptr;
    size_t len;
} cache_tier_slice;

/* How a tier is made. Start from cache_tier_default_options. */
typedef struct cache_tier_options {
    uint64_t max_bytes;                 /* Upper bound on the bytes of all bodies, heads and external bytes. */
    uint64_t max_entries;               /* Upper bound on the number of entries, or NONE. */
    uint64_t lock_age;                  /* Seconds after which a permit no longer makes others wait (nginx: proxy_cache_lock_age). */
    uint64_t lock_timeout;              /* Seconds that one request waits in all, or NONE (nginx: proxy_cache_lock_timeout). */
    uint64_t lru_shards;                /* 1, 4 or 16 LRU lists; 1 gives one exact order. */
    uint64_t eviction_seed;             /* Seeds the choice of shards at evictions. */
    uint64_t hash_seed;                 /* Seeds the hash tables: random and secret if strangers choose keys or request numbers. */
    uint64_t max_body_bytes;            /* Upper bound on the bytes of one body, with its external bytes: a larger one would evict all else. 0: half of max_bytes, in partitions half of a share; NONE: no bound. */
    uint64_t reserved[4];               /* Set to 0. */
} cache_tier_options;

/* What a call answers. A field that does not apply to the call is 0. */
typedef struct cache_tier_result {
    uint64_t status;                    /* Also what the call returns. */
    union { uint64_t body_len, lock_status, shards_ok, entry_count, weight; }; /* STORED: body_len. WAIT_ENDED: lock_status. SAVED, RESTORED: shards_ok. ITEM of an LRU snapshot: entry_count; of cache_tier_weight: weight. */
    uint64_t evicted;                   /* Number of evicted entries, also of a refused call; cache_tier_evicted_entry names them. */
    uint64_t fresh;                     /* FOUND: 1 up to and including `fresh_until`, else 0. */
    uint64_t complete;                  /* FOUND: 1 if the whole body is there. END: 1 if the body is whole, 0 if its write was abandoned. */
    uint64_t permit;                    /* FOUND, MISS: one of cache_tier_permit. */
    uint64_t body_removed;              /* Of a refusal: the body, or its new head, was stored and removed again, with what its key had before. */
    uint64_t entry_removed;             /* Of a refusal: the entry was admitted or weighed anew, and removed again. */
    union { uint64_t shards_failed, shards_missing, entries; }; /* SAVED: shards_failed. RESTORED: shards_missing. ITEM of cache_tier_weight: entries. */
    uint64_t shards_corrupt;            /* RESTORED: shards whose file is corrupt. */
    uint64_t reserved[2];               /* 0. */
} cache_tier_result;

/* The head of a stored response. */
typedef struct cache_tier_head {
    uint64_t status_code;               /* As 200. */
    uint64_t field_count;               /* Number of field lines. */
    cache_tier_moment fresh_until;      /* Fresh up to and including this moment. */
    cache_tier_moment created;          /* When the response arrived. */
    cache_tier_moment updated;          /* When it arrived or was last revalidated. */
    cache_tier_moment provenance;       /* As `created`; if it replaced something stale, that response's provenance. */
    uint64_t stale_while_revalidate;    /* Seconds after `fresh_until` (RFC 5861, 3). */
    uint64_t stale_if_error;            /* Seconds after `fresh_until` (RFC 5861, 4). */
    uint64_t external_bytes;            /* Bytes of the body outside the tier, as declared in its metadata. */
    cache_tier_slice fields;            /* The field lines, each `name: value CR LF`, names in lower case, without the empty line. */
    uint64_t body_len;                  /* Bytes of a complete body; NONE while it is being written. */
} cache_tier_head;

/* A stored response, lent to the caller until cache_tier_release or the next call that fills it. Initialize by `= CACHE_TIER_RESPONSE_INIT`; do not
   copy. */
typedef struct cache_tier_response {
    cache_tier_result result;           /* What the call answered. */
    cache_tier_head head;               /* Of a read all 0. */
    cache_tier_slice body;              /* Of a lookup empty. */
    uint64_t held;                      /* Private to this header: something is held. */
    uint64_t keep[12];                  /* Private to the library. */
} cache_tier_response;

/* What the caller says about a response: how long it is fresh, and what it weighs besides. cache_rules_decide_store fills it by RFC 9111. */
typedef struct cache_tier_meta {
    cache_tier_moment fresh_until;      /* Fresh up to and including this moment. */
    cache_tier_moment created;          /* A revalidation ignores it: the response keeps its own. */
    cache_tier_moment updated;
    cache_tier_moment provenance;       /* A revalidation ignores it. */
    uint64_t stale_while_revalidate;    /* Seconds, below 2^32. */
    uint64_t stale_if_error;            /* Seconds, below 2^32. */
    uint64_t external_bytes;            /* Bytes of the body outside the tier, below 2^62; they count towards max_bytes. A revalidation ignores it. */
    uint64_t reserved;                  /* Set to 0. */
} cache_tier_meta;

/* A key: the bytes of its name, or the digest of one with or without that of a secondary key; and the owner's tag. Not kept past the call. */
typedef struct cache_tier_key {
    const void *name;
    size_t len;                         /* Of a digest 16, or 32 with a secondary key. */
    uint64_t is_digest;                 /* 0 or 1. */
    const void *user_tag;               /* UTF-8. */
    size_t user_tag_len;
} cache_tier_key;

/* An entry of the LRU order. */
typedef struct cache_tier_entry {
    uint64_t status;                    /* ITEM or NO_ITEM. */
    uint64_t foreign;                   /* 1: it came from another program's file; it has no body here. */
    cache_tier_slice primary;           /* 16 bytes: the digest of the key's name. */
    cache_tier_slice variance;          /* 16 bytes: the digest of the secondary key, or empty. */
    cache_tier_slice user_tag;          /* The owner's tag, UTF-8. */
    uint64_t external_bytes;            /* Of a snapshot: external bytes of the finished body of its key; 0 without one. */
} cache_tier_entry;

/* The serialized LRU order of one shard. */
typedef struct cache_tier_file {
    uint64_t status;                    /* ITEM, NO_ITEM or MEMORY. */
    cache_tier_slice content;           /* The file's content. */
} cache_tier_file;

/* Counters of a tier since it was made, and what it holds now. */
typedef struct cache_tier_stats {
    uint64_t found;                     /* Lookups that found something, and gets that hit. */
    uint64_t misses;                    /* Lookups that found nothing. */
    uint64_t bodies;                    /* Finished bodies. */
    uint64_t body_bytes;                /* Their bytes. */
    uint64_t head_bytes;                /* Bytes of their heads as stored. */
    uint64_t external_bytes;            /* Their external bytes. */
    uint64_t entries;                   /* Entries of the LRU order. */
    uint64_t weight;                    /* The sum of their weights, which max_bytes bounds. */
    uint64_t evicted;                   /* Entries evicted so far. */
    uint64_t reserved[3];               /* 0. */
} cache_tier_stats;

CACHE_TIER_ASSERT(sizeof(void *) == 8 && sizeof(size_t) == 8);
CACHE_TIER_ASSERT(sizeof(cache_tier_moment) == 16 && offsetof(cache_tier_moment, nanoseconds) == 8);
CACHE_TIER_ASSERT(sizeof(cache_tier_slice) == 16 && offsetof(cache_tier_slice, len) == 8);
CACHE_TIER_ASSERT(sizeof(cache_tier_options) == 96 && offsetof(cache_tier_options, max_entries) == 8 && offsetof(cache_tier_options,
                  lock_age) == 16 && offsetof(cache_tier_options, lock_timeout) == 24 && offsetof(cache_tier_options, lru_shards) == 32 &&
                  offsetof(cache_tier_options, eviction_seed) == 40 && offsetof(cache_tier_options, hash_seed) == 48 && offsetof(cache_tier_options,
                  max_body_bytes) == 56 && offsetof(cache_tier_options, reserved) == 64);
CACHE_TIER_ASSERT(sizeof(cache_tier_result) == 96 && offsetof(cache_tier_result, body_len) == 8 && offsetof(cache_tier_result, evicted) == 16 &&
                  offsetof(cache_tier_result, fresh) == 24 && offsetof(cache_tier_result, complete) == 32 && offsetof(cache_tier_result,
                  permit) == 40 && offsetof(cache_tier_result, body_removed) == 48 && offsetof(cache_tier_result, entry_removed) == 56 &&
                  offsetof(cache_tier_result, shards_failed) == 64 && offsetof(cache_tier_result, shards_corrupt) == 72 &&
                  offsetof(cache_tier_result, reserved) == 80);
CACHE_TIER_ASSERT(sizeof(cache_tier_head) == 128 && offsetof(cache_tier_head, field_count) == 8 && offsetof(cache_tier_head, fresh_until) == 16 &&
                  offsetof(cache_tier_head, created) == 32 && offsetof(cache_tier_head, updated) == 48 && offsetof(cache_tier_head,
                  provenance) == 64 && offsetof(cache_tier_head, stale_while_revalidate) == 80 && offsetof(cache_tier_head,
                  stale_if_error) == 88 && offsetof(cache_tier_head, external_bytes) == 96 && offsetof(cache_tier_head, fields) == 104 &&
                  offsetof(cache_tier_head, body_len) == 120);
CACHE_TIER_ASSERT(sizeof(cache_tier_response) == 344 && offsetof(cache_tier_response, head) == 96 && offsetof(cache_tier_response, body) == 224 &&
                  offsetof(cache_tier_response, held) == 240 && offsetof(cache_tier_response, keep) == 248);
CACHE_TIER_ASSERT(sizeof(cache_tier_meta) == 96 && offsetof(cache_tier_meta, created) == 16 && offsetof(cache_tier_meta, updated) == 32 &&
                  offsetof(cache_tier_meta, provenance) == 48 && offsetof(cache_tier_meta, stale_while_revalidate) == 64 &&
                  offsetof(cache_tier_meta, stale_if_error) == 72 && offsetof(cache_tier_meta, external_bytes) == 80 && offsetof(cache_tier_meta,
                  reserved) == 88);
CACHE_TIER_ASSERT(sizeof(cache_tier_key) == 40 && offsetof(cache_tier_key, len) == 8 && offsetof(cache_tier_key, is_digest) == 16 &&
                  offsetof(cache_tier_key, user_tag) == 24 && offsetof(cache_tier_key, user_tag_len) == 32);
CACHE_TIER_ASSERT(sizeof(cache_tier_entry) == 72 && offsetof(cache_tier_entry, foreign) == 8 && offsetof(cache_tier_entry, primary) == 16 &&
                  offsetof(cache_tier_entry, variance) == 32 && offsetof(cache_tier_entry, user_tag) == 48 && offsetof(cache_tier_entry,
                  external_bytes) == 64);
CACHE_TIER_ASSERT(sizeof(cache_tier_file) == 24 && offsetof(cache_tier_file, content) == 8);
CACHE_TIER_ASSERT(sizeof(cache_tier_stats) == 96 && offsetof(cache_tier_stats, misses) == 8 && offsetof(cache_tier_stats, bodies) == 16 &&
                  offsetof(cache_tier_stats, body_bytes) == 24 && offsetof(cache_tier_stats, head_bytes) == 32 && offsetof(cache_tier_stats,
                  external_bytes) == 40 && offsetof(cache_tier_stats, entries) == 48 && offsetof(cache_tier_stats, weight) == 56 &&
                  offsetof(cache_tier_stats, evicted) == 64 && offsetof(cache_tier_stats, reserved) == 72);

/* What the library exports: no pointer is null. Call the functions below instead. */
uint64_t cache_tier1_version(void);
size_t cache_tier1_sizeof(void);
void cache_tier1_digest(const uint8_t *name, size_t name_len, uint8_t *out, size_t out_len);
void cache_tier1_release(uint64_t *keep);
void cache_tier1_init(cache_tier *tier, const cache_tier_options *options, cache_tier_result *out);
void cache_tier1_end(cache_tier *tier);
void cache_tier1_open(cache_tier *tier, uint64_t id, uint64_t lock, uint64_t is_digest, const uint8_t *key, size_t key_len, const uint8_t *user_tag,
                      size_t user_tag_len, cache_tier_result *out);
void cache_tier1_poll(cache_tier *tier, uint64_t seconds, uint64_t nanoseconds, uint64_t id, cache_tier_result *out);
void cache_tier1_begin(cache_tier *tier, uint64_t seconds, uint64_t nanoseconds, uint64_t id, const uint8_t *head, size_t head_len,
                      uint64_t has_meta, const cache_tier_meta *meta, cache_tier_result *out);
void cache_tier1_revalidate(cache_tier *tier, uint64_t seconds, uint64_t nanoseconds, uint64_t id, const uint8_t *head, size_t head_len,
                      uint64_t has_meta, const cache_tier_meta *meta, cache_tier_result *out);
void cache_tier1_write(cache_tier *tier, uint64_t id, uint64_t last, const uint8_t *data, size_t data_len, cache_tier_result *out);
void cache_tier1_finish(cache_tier *tier, uint64_t id, cache_tier_result *out);
void cache_tier1_close(cache_tier *tier, uint64_t id, cache_tier_result *out);
void cache_tier1_give_up(cache_tier *tier, uint64_t id, cache_tier_result *out);
void cache_tier1_purge(cache_tier *tier, uint64_t is_digest, const uint8_t *key, size_t key_len, const uint8_t *user_tag, size_t user_tag_len,
                      cache_tier_result *out);
void cache_tier1_put(cache_tier *tier, uint64_t seconds, uint64_t nanoseconds, uint64_t is_digest, const uint8_t *key, size_t key_len,
                      const uint8_t *user_tag, size_t user_tag_len, const uint8_t *head, size_t head_len, const uint8_t *body, size_t body_len,
                      uint64_t has_meta, const cache_tier_meta *meta, cache_tier_result *out);
void cache_tier1_get(cache_tier *tier, uint64_t seconds, uint64_t nanoseconds, uint64_t is_digest, const uint8_t *key, size_t key_len,
                      const uint8_t *user_tag, size_t user_tag_len, cache_tier_response *out, uint64_t *keep);
void cache_tier1_lookup(cache_tier *tier, uint64_t seconds, uint64_t nanoseconds, uint64_t id, cache_tier_response *out, uint64_t *keep);
void cache_tier1_lookup_stale(cache_tier *tier, uint64_t id, cache_tier_response *out, uint64_t *keep);
void cache_tier1_read(cache_tier *tier, uint64_t id, cache_tier_response *out, uint64_t *keep);
void cache_tier1_peek(const cache_tier *tier, uint64_t is_digest, const uint8_t *key, size_t key_len, cache_tier_response *out, uint64_t *keep);
void cache_tier1_evicted_entry(const cache_tier *tier, uint64_t index, cache_tier_entry *out);
void cache_tier1_lru_snapshot(cache_tier *tier, uint64_t shard, cache_tier_result *out);
void cache_tier1_lru_entry(const cache_tier *tier, uint64_t index, cache_tier_entry *out);
void cache_tier1_lru_save(cache_tier *tier, cache_tier_result *out);
void cache_tier1_lru_file(const cache_tier *tier, uint64_t shard, cache_tier_file *out);
void cache_tier1_lru_load(cache_tier *tier, uint64_t shard, const uint8_t *content, size_t content_len, cache_tier_result *out);
void cache_tier1_lru_restore(cache_tier *tier, cache_tier_result *out);
void cache_tier1_weight(const cache_tier *tier, cache_tier_result *out);
void cache_tier1_get_stats(const cache_tier *tier, cache_tier_stats *out);
static inline const uint8_t *cache_tier_i_bytes(const void *p) { return p ? (const uint8_t *)p : (const uint8_t *)""; } /* internal */

/* ---- a tier, its memory, and keys */

/* The version of the linked library: 1000 times the interface, plus the revision. */
static inline uint64_t cache_tier_version(void) { return cache_tier1_version(); }
static inline size_t cache_tier_sizeof(void) { return cache_tier1_sizeof(); }

/* The defaults: max_entries NONE; lock_age 10; lock_timeout NONE; lru_shards 16; eviction_seed 0; max_body_bytes 0. */
static inline cache_tier_options cache_tier_default_options(uint64_t max_bytes, uint64_t hash_seed) {
    cache_tier_options o = {max_bytes, CACHE_TIER_NONE, 10, CACHE_TIER_NONE, 16, 0, hash_seed, 0, {0}};
    return o;
}
/* A key by its name, as "http://a.example/a". */
static inline cache_tier_key cache_tier_key_from_name(const void *name, size_t len) {
    cache_tier_key k = {name, len, 0, NULL, 0};
    return k;
}
/* The 16 bytes by which a tier knows a name (BLAKE2b-128). Compute it before you take the lock. */
static inline void cache_tier_digest(const void *name, size_t len, uint8_t out[16]) { cache_tier1_digest(cache_tier_i_bytes(name), len, out, 16); }
static inline cache_tier_key cache_tier_key_from_digest(const uint8_t digest[16]) {
    cache_tier_key k = {digest, 16, 1, NULL, 0};
    return k;
}
/* A key with a secondary key (RFC 9111, 4.1): both digests, one after the other. */
static inline cache_tier_key cache_tier_key_from_pair(const uint8_t digests[32]) {
    cache_tier_key k = {digests, 32, 1, NULL, 0};
    return k;
}
/* With the tag of its owner. A key found under several tags has an entry for each, and each weighs all of the body: past max_bytes until the next put or
   finish. So use few tags, and none that a client chooses. */
static inline cache_tier_key cache_tier_key_with_tag(cache_tier_key k, const char *user_tag, size_t len) {
    return k.user_tag = user_tag, k.user_tag_len = len, k;
}
/* Metadata: fresh up to and including `fresh_until`; arrived at `created`. */
static inline cache_tier_meta cache_tier_meta_until(cache_tier_moment fresh_until, cache_tier_moment created) {
    cache_tier_meta m = {fresh_until, created, created, created, 0, 0, 0, 0};
    return m;
}
/* Metadata: fresh for `ttl` seconds from `now`, as by max-age: while the age is less than that (RFC 9111, 4.2). */
static inline cache_tier_meta cache_tier_meta_ttl(cache_tier_moment now, uint64_t ttl) {
    cache_tier_moment last = {0, 0}; /* the last nanosecond before */
    if (ttl) last.seconds = now.seconds + ttl - !now.nanoseconds, last.nanoseconds = now.nanoseconds ? now.nanoseconds - 1 : 999999999;
    return cache_tier_meta_until(last, now);
}

/* ---- calls */

/* Releases what a response lends; does nothing if it lends nothing. Needs no lock, on any thread, also after the tier's end. */
static inline void cache_tier_release(cache_tier_response *response) {
    if (!response->held) return;
    response->held = 0;
    cache_tier1_release(response->keep);
}
/* Makes a tier in `tier`, cache_tier_sizeof() bytes aligned to ALIGN: OK, MEMORY or BAD_ARGUMENT. Unless OK there is none to end. */
static inline int cache_tier_init(cache_tier *tier, const cache_tier_options *options) {
    cache_tier_result result;
    cache_tier1_init(tier, options, &result);
    return (int)result.status;
}

/* Frees all that the tier holds, open requests too. A cache_tier_response stays valid. */
static inline void cache_tier_end(cache_tier *tier) {
    cache_tier1_end(tier);
}

/* Opens request `id` for a key. With `lock` its lookups ask for the permit to write if they find nothing fresh. Answers OPENED. */
static inline int cache_tier_open(cache_tier *tier, uint64_t id, cache_tier_key key, int lock, cache_tier_result *result) {
    cache_tier1_open(tier, id, lock != 0, key.is_digest, cache_tier_i_bytes(key.name), key.len, cache_tier_i_bytes(key.user_tag), key.user_tag_len,
        result);
    return (int)result->status;
}

/* Asks whether the wait for another request's permit has ended. Answers WAIT_ENDED, WAITING. */
static inline int cache_tier_poll(cache_tier *tier, cache_tier_moment now, uint64_t id, cache_tier_result *result) {
    cache_tier1_poll(tier, now.seconds, now.nanoseconds, id, result);
    return (int)result->status;
}

/* Begins a write with the head of the response, up to its empty line. Other requests find it from now on; the permit is given back. BAD_HEAD also of
   a status code below 200, or 304; BODY_TOO_LARGE by its external bytes. Answers BEGUN. */
static inline int cache_tier_begin(cache_tier *tier, cache_tier_moment now, uint64_t id, const void *head, size_t head_len,
        const cache_tier_meta *meta, cache_tier_result *result) {
    cache_tier1_begin(tier, now.seconds, now.nanoseconds, id, cache_tier_i_bytes(head), head_len, 1, meta, result);
    return (int)result->status;
}

/* Replaces head and metadata of the stale response that the last lookup found, by a whole head of a status code from 200 on, and not 304. NOT_STORED:
   it was removed or replaced meanwhile. Answers REVALIDATED. */
static inline int cache_tier_revalidate(cache_tier *tier, cache_tier_moment now, uint64_t id, const void *head, size_t head_len,
        const cache_tier_meta *meta, cache_tier_result *result) {
    cache_tier1_revalidate(tier, now.seconds, now.nanoseconds, id, cache_tier_i_bytes(head), head_len, 1, meta, result);
    return (int)result->status;
}

/* Adds bytes to the body. `last`: none follow. BODY_TOO_LARGE: nothing was written; close the request. Answers WRITTEN. */
static inline int cache_tier_write(cache_tier *tier, uint64_t id, const void *data, size_t data_len, int last, cache_tier_result *result) {
    cache_tier1_write(tier, id, last != 0, cache_tier_i_bytes(data), data_len, result);
    return (int)result->status;
}

/* Ends the write: the bytes so far are the body, whatever Content-Length says. If bytes are missing, close the request instead. Answers STORED. */
static inline int cache_tier_finish(cache_tier *tier, uint64_t id, cache_tier_result *result) {
    cache_tier1_finish(tier, id, result);
    return (int)result->status;
}

/* Closes the request, and abandons its write and its permit. Takes no memory: CLOSED or NO_REQUEST. Answers CLOSED. */
static inline int cache_tier_close(cache_tier *tier, uint64_t id) {
    cache_tier_result result;
    cache_tier1_close(tier, id, &result);
    return (int)result.status;
}

/* Says that the response will not be stored, as a private one. Those who wait for the permit go on at once (LOCK_GIVE_UP), where after a close one
   after the other would fetch; what is stale stays. After it only close is allowed. Takes no memory. Answers GIVEN_UP. */
static inline int cache_tier_give_up(cache_tier *tier, uint64_t id) {
    cache_tier_result result;
    cache_tier1_give_up(tier, id, &result);
    return (int)result.status;
}

/* Removes what is stored or being written under the key. Answers PURGED, NOT_FOUND. */
static inline int cache_tier_purge(cache_tier *tier, cache_tier_key key, cache_tier_result *result) {
    cache_tier1_purge(tier, key.is_digest, cache_tier_i_bytes(key.name), key.len, cache_tier_i_bytes(key.user_tag), key.user_tag_len, result);
    return (int)result->status;
}

/* Stores a whole response. Answers STORED. */
static inline int cache_tier_put(cache_tier *tier, cache_tier_moment now, cache_tier_key key, const void *head, size_t head_len, const void *body,
        size_t body_len, const cache_tier_meta *meta, cache_tier_result *result) {
    cache_tier1_put(tier, now.seconds, now.nanoseconds, key.is_digest, cache_tier_i_bytes(key.name), key.len, cache_tier_i_bytes(key.user_tag),
        key.user_tag_len, cache_tier_i_bytes(head), head_len, cache_tier_i_bytes(body), body_len, 1, meta, result);
    return (int)result->status;
}

/* The stored response if it is fresh and complete; counts as a use. NO_HIT changes nothing, not even a counter. The key may not lie in `response`.
   Answers FOUND, NO_HIT. */
static inline int cache_tier_get(cache_tier *tier, cache_tier_moment now, cache_tier_key key, cache_tier_response *response) {
    cache_tier_release(response);
    cache_tier1_get(tier, now.seconds, now.nanoseconds, key.is_digest, cache_tier_i_bytes(key.name), key.len, cache_tier_i_bytes(key.user_tag),
        key.user_tag_len, response, response->keep);
    response->held = response->result.status == CACHE_TIER_FOUND;
    return (int)response->result.status;
}

/* Looks up what is stored or being written under the request's key, with its head. A complete one counts as a use. Answers FOUND, MISS. */
static inline int cache_tier_lookup(cache_tier *tier, cache_tier_moment now, uint64_t id, cache_tier_response *response) {
    cache_tier_release(response);
    cache_tier1_lookup(tier, now.seconds, now.nanoseconds, id, response, response->keep);
    response->held = response->result.status == CACHE_TIER_FOUND;
    return (int)response->result.status;
}

/* As lookup, but what it finds counts as stale, as for a request with `Cache-Control: no-cache`: it is fresh only if it is fresh for ever.
   WRONG_PHASE of a request that was opened with `lock`, so such validations are not collapsed. Answers FOUND, MISS. */
static inline int cache_tier_lookup_stale(cache_tier *tier, uint64_t id, cache_tier_response *response) {
    cache_tier_release(response);
    cache_tier1_lookup_stale(tier, id, response, response->keep);
    response->held = response->result.status == CACHE_TIER_FOUND;
    return (int)response->result.status;
}

/* Reads on in what was found or is being written: DATA (response->body), PENDING or END. Answers DATA, PENDING, END. */
static inline int cache_tier_read(cache_tier *tier, uint64_t id, cache_tier_response *response) {
    cache_tier_release(response);
    cache_tier1_read(tier, id, response, response->keep);
    response->held = response->result.status == CACHE_TIER_DATA;
    return (int)response->result.status;
}

/* The finished response of a key, fresh or stale; no lookup and no use. NO_ITEM also if a write is all there is. Answers FOUND. */
static inline int cache_tier_peek(const cache_tier *tier, cache_tier_key key, cache_tier_response *response) {
    cache_tier_release(response);
    cache_tier1_peek(tier, key.is_digest, cache_tier_i_bytes(key.name), key.len, response, response->keep);
    response->held = response->result.status == CACHE_TIER_FOUND;
    return (int)response->result.status;
}

/* One of the entries that the last event evicted, also a refused one. Lent until the next event or get. Answers ITEM. */
static inline int cache_tier_evicted_entry(const cache_tier *tier, uint64_t index, cache_tier_entry *entry) {
    cache_tier1_evicted_entry(tier, index, entry);
    return (int)entry->status;
}

/* Takes a snapshot of a shard's LRU order, most recently used first; kept until the next snapshot. Answers ITEM. */
static inline int cache_tier_lru_snapshot(cache_tier *tier, uint64_t shard, cache_tier_result *result) {
    cache_tier1_lru_snapshot(tier, shard, result);
    return (int)result->status;
}

/* An entry of the snapshot, lent until the next snapshot. Answers ITEM. */
static inline int cache_tier_lru_entry(const cache_tier *tier, uint64_t index, cache_tier_entry *entry) {
    cache_tier1_lru_entry(tier, index, entry);
    return (int)entry->status;
}

/* Serializes the LRU order of each shard. Answers SAVED. */
static inline int cache_tier_lru_save(cache_tier *tier, cache_tier_result *result) {
    cache_tier1_lru_save(tier, result);
    return (int)result->status;
}

/* A serialized shard, lent until the next lru_save, lru_load or lru_restore. Write it to a temporary name, sync, rename, sync the directory. Answers
   ITEM. */
static inline int cache_tier_lru_file(const cache_tier *tier, uint64_t shard, cache_tier_file *file) {
    cache_tier1_lru_file(tier, shard, file);
    return (int)file->status;
}

/* Hands the serialized order of a shard to a new tier: OK or MEMORY. */
static inline int cache_tier_lru_load(cache_tier *tier, uint64_t shard, const void *content, size_t content_len) {
    cache_tier_result result;
    cache_tier1_lru_load(tier, shard, cache_tier_i_bytes(content), content_len, &result);
    return (int)result.status;
}

/* Restores the LRU order from what was loaded; refused as NOT_NEW once the tier was used. Answers RESTORED. */
static inline int cache_tier_lru_restore(cache_tier *tier, cache_tier_result *result) {
    cache_tier1_lru_restore(tier, result);
    return (int)result->status;
}

/* The sum of the entries' weights, which max_bytes bounds, and how many there are: `weight` and `entries`, in constant time. Answers ITEM. */
static inline int cache_tier_weight(const cache_tier *tier, cache_tier_result *result) {
    cache_tier1_weight(tier, result);
    return (int)result->status;
}

/* The counters. It takes time in proportion to the number of bodies. */
static inline void cache_tier_get_stats(const cache_tier *tier, cache_tier_stats *stats) {
    cache_tier1_get_stats(tier, stats);
}
/* Makes a tier in memory of malloc, which aligns to CACHE_TIER_ALIGN: OK, or what is wrong, and then `*tier` is NULL. */
static inline int cache_tier_new(cache_tier **tier, const cache_tier_options *options) {
    int status = CACHE_TIER_MEMORY;
    *tier = (cache_tier *)malloc(cache_tier1_sizeof());
    if (*tier) status = cache_tier_init(*tier, options);
    if (status != CACHE_TIER_OK) free(*tier), *tier = NULL;
    return status;
}
static inline void cache_tier_free(cache_tier *tier) {
    if (tier) cache_tier1_end(tier), free(tier);
}
/* The next field line of a head: 1, or 0 at its end. Start with `*position` 0. */
static inline int cache_tier_next_field(const cache_tier_head *head, size_t *position, cache_tier_slice *name, cache_tier_slice *value) {
    const uint8_t *at, *colon, *end;
    size_t left = head->fields.len - *position;
    if (!left) return 0;
    at = head->fields.ptr + *position;
    if (!(colon = (const uint8_t *)memchr(at, ':', left))) return 0;
    if (!(end = (const uint8_t *)memchr(colon, '\r', left - (size_t)(colon - at)))) return 0;
    name->ptr = at, name->len = (size_t)(colon - at), value->ptr = colon + 2, value->len = (size_t)(end - colon) - 2;
    *position += (size_t)(end - at) + 2;
    return 1;
}
/* The key under which an entry's body is stored: 16 bytes, for cache_tier_key_from_digest, or as the name of its file. */
static inline void cache_tier_entry_key(const cache_tier_entry *entry, uint8_t out[16]) {
    uint8_t both[32];
    memcpy(both, entry->primary.ptr, 16);
    if (entry->variance.len) memcpy(both + 16, entry->variance.ptr, 16);
    if (entry->variance.len) cache_tier_digest(both, 32, out);
    else memcpy(out, both, 16);
}

/* ---- partitions: several tiers, each with its own lock and its share of the limits. All calls for a key go to the tier of its digest. */

/* Partitions below 2^32; of none: 0. */
static inline size_t cache_tier_partition(const uint8_t digest[16], size_t partitions) {
    uint64_t top = (uint64_t)digest[15] << 24 | (uint64_t)digest[14] << 16 | (uint64_t)digest[13] << 8 | digest[12];
    return (size_t)(top * partitions >> 32);
}
/* A partition's share of a limit; the shares add up to it. NONE stays NONE; of no partitions a share is 0. */
static inline uint64_t cache_tier_partition_limit(uint64_t limit, size_t partitions, size_t partition) {
    return limit == CACHE_TIER_NONE ? limit : partitions ? limit / partitions + (partition < limit % partitions) : 0;
}
/* The partition of a request number, if you number requests as `n * partitions + partition`. */
static inline size_t cache_tier_partition_of_id(uint64_t id, size_t partitions) { return partitions ? (size_t)(id % partitions) : 0; }
static inline void cache_tier_stats_add(cache_tier_stats *sum, const cache_tier_stats *one) {
    sum->found += one->found, sum->misses += one->misses, sum->bodies += one->bodies, sum->body_bytes += one->body_bytes;
    sum->head_bytes += one->head_bytes, sum->external_bytes += one->external_bytes, sum->entries += one->entries, sum->weight += one->weight;
    sum->evicted += one->evicted;
}

#ifdef __cplusplus
}
/* For C++: what a call hands over, released with its scope. It is moved, and never copied. `get()` goes to a call, which releases what was there:
       cache_tier_scoped_response f;
       if (cache_tier_get(t, now, key, f.get()) == CACHE_TIER_FOUND) send(f->body.ptr, f->body.len); */
class cache_tier_scoped_response {
    cache_tier_response response_;

  public:
    cache_tier_scoped_response() noexcept : response_() {}
    ~cache_tier_scoped_response() { cache_tier_release(&response_); }
    cache_tier_scoped_response(const cache_tier_scoped_response &) = delete;
    cache_tier_scoped_response &operator=(const cache_tier_scoped_response &) = delete;
    cache_tier_scoped_response(cache_tier_scoped_response &&other) noexcept : response_(other.response_) { other.response_ = cache_tier_response(); }
    cache_tier_scoped_response &operator=(cache_tier_scoped_response &&other) noexcept {
        if (this != &other) {
            cache_tier_release(&response_);
            response_ = other.response_;
            other.response_ = cache_tier_response();
        }
        return *this;
    }
    cache_tier_response *get() noexcept { return &response_; }
    const cache_tier_response *operator->() const noexcept { return &response_; }
    const cache_tier_response &operator*() const noexcept { return response_; }
    explicit operator bool() const noexcept { return response_.held != 0; }
};
#endif
#endif
