/* HTTP's rules for a shared cache, as pure functions; docs/rules.md says what each decides. This file is written by tools/dev/interface.py: change its
   template, or embed/interface_rules.toml.

   Each call is given all that it looks at, and writes texts into `buf`, a buffer of the caller that none of its arguments lies in; where a text stands
   there is told as a span. No call keeps anything, and none needs a lock. Besides what each says it may answer MEMORY, BAD_ARGUMENT (options; a struct
   that no call here filled, but make_response takes any request) and BUFFER_TOO_SMALL.

   A request's way: parse_request; then by `plan`
     PLAN_LOOKUP   get by the key; no hit: open with lock, lookup. Then decide_reuse (or reuse_stored, which serves too):
                     REUSE_FRESH, REUSE_STALE    serve_stored
                     REUSE_WHILE_REVALIDATING    serve_stored; whose lookup got the permit goes on as for REUSE_AFTER_VALIDATION, without a client:
                                                 FETCH_CONDITIONAL, and FETCH_UNCONDITIONAL where that was written as FETCH_FULL
                     REUSE_AFTER_VALIDATION      (also where nothing was found) ONLY_IF_CACHED: 504 by make_response. Else forward_request,
                                                 parse_response; after what was written as FETCH_CONDITIONAL freshen of a 304, and of a 200 to HEAD
                                                 (then relay_response), else decide_store:
                                                 STORE: purge if `purge`; where it varies or there is a vary index, update_vary_index says under
                                                 which key; begin, put or revalidate with its head and meta, then serve_stored over `served_head`;
                                                 DO_NOT_STORE: give_up, relay_response, and purge if `purge`
                     REUSE_BYPASS                as PLAN_PASS
     PLAN_PASS     forward_request, parse_response, invalidated_keys (purge each), relay_response
     PLAN_RESPOND  make_response, with `error_code`
   What is found with the status code CACHE_RULES_VARY_INDEX_STATUS is a vary index: secondary_keys gives the keys, under one
   of which it goes on.
   A head that was PARSED is gone from the connection by `head_len` bytes; its body is read by decode_body. */
#ifndef CACHE_RULES_H
#define CACHE_RULES_H
#include "cache_tier.h"

#ifdef __cplusplus
extern "C" {
#endif

#define CACHE_RULES_MAX_RANGES 16           /* the greatest max_ranges */
#define CACHE_RULES_VARY_INDEX_STATUS 600   /* of a head that update_vary_index wrote: it is no response */
/* A buffer that suffices for arguments of so many bytes together, but for several parts under a long Content-Type, and of invalidated_keys. */
#define CACHE_RULES_BUF_LEN(bytes) (3 * (size_t)(bytes) + 4096)


/* Flags of the options. */
enum cache_rules_option_flag {
    CACHE_RULES_HONOR_REQUEST_DIRECTIVES = 1,
    CACHE_RULES_SERVE_AUTHORIZED = 2,
    CACHE_RULES_STORE_SET_COOKIE = 4,
    CACHE_RULES_FILL_ON_RANGE = 8,
    CACHE_RULES_FILL_ON_HEAD = 16,
    CACHE_RULES_FILL_ON_CONDITIONAL = 32,
    CACHE_RULES_NORMALIZE_PERCENT = 64,
    CACHE_RULES_HEURISTIC_FRESHNESS = 128,
    CACHE_RULES_STALE_DESPITE_S_MAXAGE = 256,
    CACHE_RULES_ADD_X_FORWARDED_FOR = 512,
    CACHE_RULES_HTTPS = 1024, /* The listener speaks https: the scheme of keys. */
    CACHE_RULES_TRUST_DATE = 2048 /* A response's Date counts for its age. */
};

/* How a body is delimited (RFC 9112, 6). */
enum cache_rules_framing {
    CACHE_RULES_FRAMING_NONE = 0,
    CACHE_RULES_FRAMING_LENGTH = 1,
    CACHE_RULES_FRAMING_CHUNKED = 2,
    CACHE_RULES_FRAMING_CLOSE = 3
};

/* What to do with a request. */
enum cache_rules_plan {
    CACHE_RULES_PLAN_LOOKUP = 1,
    CACHE_RULES_PLAN_PASS = 2,
    CACHE_RULES_PLAN_RESPOND = 3
};

/* Flags of a head that was parsed, or is sent. */
enum cache_rules_message_flag {
    CACHE_RULES_CONNECTION_CLOSE = 1, /* the connection ends after the answer */
    CACHE_RULES_ACCEPTS_TRAILERS = 2,
    CACHE_RULES_EXPECTS_CONTINUE = 4, /* 100 (Continue) before its body */
    CACHE_RULES_IS_HEAD = 8,
    CACHE_RULES_ONLY_IF_CACHED = 16,
    CACHE_RULES_FORCES_VALIDATION = 32, /* it asks for validation: decide_reuse will say AFTER_VALIDATION */
    CACHE_RULES_HAS_DATE = 64 /* it came with Date */
};

/* Whether a stored response may answer (RFC 9111, 4). */
enum cache_rules_reuse {
    CACHE_RULES_REUSE_FRESH = 1,
    CACHE_RULES_REUSE_STALE = 2, /* as the client lets it */
    CACHE_RULES_REUSE_WHILE_REVALIDATING = 3, /* while it is fetched anew */
    CACHE_RULES_REUSE_AFTER_VALIDATION = 4,
    CACHE_RULES_REUSE_BYPASS = 5 /* pass, and leave it */
};

/* What is sent to the origin. */
enum cache_rules_fetch {
    CACHE_RULES_FETCH_PASS = 1,
    CACHE_RULES_FETCH_FULL = 2,
    CACHE_RULES_FETCH_CONDITIONAL = 3, /* with the stored validators; where there is none it is written as FULL, and `fetch` says so */
    CACHE_RULES_FETCH_UNCONDITIONAL = 4 /* as FULL, without the client's conditions and range: after MISMATCH, and where there is no client */
};

/* Why a request went to the origin (RFC 9211, fwd). */
enum cache_rules_fwd {
    CACHE_RULES_FWD_NONE = 0,
    CACHE_RULES_FWD_URI_MISS = 1,
    CACHE_RULES_FWD_VARY_MISS = 2,
    CACHE_RULES_FWD_MISS = 3,
    CACHE_RULES_FWD_STALE = 4,
    CACHE_RULES_FWD_REQUEST = 5,
    CACHE_RULES_FWD_METHOD = 6,
    CACHE_RULES_FWD_BYPASS = 7
};

/* Why a head is rejected, a request passed, or a response not stored. */
#define CACHE_RULES_REASONS(X) \
    X(CACHE_RULES_REASON_TARGET_TOO_LONG, 1, "target-too-long") X(CACHE_RULES_REASON_HEAD_TOO_LONG, 2, "head-too-long") X(CACHE_RULES_REASON_BARE_LINE_END, 3, "bare-line-end") \
    X(CACHE_RULES_REASON_BAD_REQUEST_LINE, 4, "bad-request-line") X(CACHE_RULES_REASON_HTTP_VERSION, 5, "version") X(CACHE_RULES_REASON_METHOD, 6, "method") \
    X(CACHE_RULES_REASON_TOO_MANY_FIELDS, 7, "too-many-fields") X(CACHE_RULES_REASON_OBS_FOLD, 8, "folded") X(CACHE_RULES_REASON_SPACE_BEFORE_COLON, 9, "blank-before-colon") \
    X(CACHE_RULES_REASON_BAD_FIELD, 10, "bad-field") X(CACHE_RULES_REASON_LENGTH_AND_TRANSFER_ENCODING, 11, "length-and-coding") X(CACHE_RULES_REASON_BAD_CONTENT_LENGTH, 12, "bad-length") \
    X(CACHE_RULES_REASON_TRANSFER_ENCODING_IN_1_0, 13, "coding-in-1-0") X(CACHE_RULES_REASON_UNKNOWN_TRANSFER_CODING, 14, "unknown-coding") X(CACHE_RULES_REASON_BAD_TRANSFER_ENCODING, 15, "bad-coding") \
    X(CACHE_RULES_REASON_MULTIPLE_HOSTS, 16, "several-hosts") X(CACHE_RULES_REASON_MISSING_HOST, 17, "no-host") X(CACHE_RULES_REASON_BAD_HOST, 18, "bad-host") \
    X(CACHE_RULES_REASON_WRONG_SCHEME, 19, "other-scheme") X(CACHE_RULES_REASON_MISDIRECTED, 20, "other-host") X(CACHE_RULES_REASON_BAD_TARGET, 21, "bad-target") \
    X(CACHE_RULES_REASON_BAD_STATUS_LINE, 22, "bad-status-line") X(CACHE_RULES_REASON_SWITCHING_PROTOCOLS, 23, "switched") X(CACHE_RULES_REASON_MAX_FORWARDS, 24, "last-forward") \
    X(CACHE_RULES_REASON_REQUEST_CONTENT, 25, "content") X(CACHE_RULES_REASON_PRECONDITION, 26, "precondition") X(CACHE_RULES_REASON_NO_STORE, 27, "no-store") \
    X(CACHE_RULES_REASON_STATUS, 28, "status") X(CACHE_RULES_REASON_PARTIAL, 29, "partial") X(CACHE_RULES_REASON_NOT_MODIFIED, 30, "not-modified") \
    X(CACHE_RULES_REASON_REQUEST_NO_STORE, 31, "request-no-store") X(CACHE_RULES_REASON_MUST_UNDERSTAND, 32, "not-understood") X(CACHE_RULES_REASON_PRIVATE, 33, "private") \
    X(CACHE_RULES_REASON_VARY_STAR, 34, "vary-any") X(CACHE_RULES_REASON_AUTHORIZATION, 35, "authorization") X(CACHE_RULES_REASON_SET_COOKIE, 36, "set-cookie") \
    X(CACHE_RULES_REASON_NO_FRESHNESS, 37, "no-freshness") X(CACHE_RULES_REASON_NEVER_REUSABLE, 38, "never-usable") X(CACHE_RULES_REASON_TOO_MANY_STORED_FIELDS, 39, "too-many-lines") \
    X(CACHE_RULES_REASON_BAD_CHUNK, 40, "bad-chunk") X(CACHE_RULES_REASON_BAD_TRAILER, 41, "bad-trailer") X(CACHE_RULES_REASON_STORED_IS_GOOD, 42, "stored-is-good") \
    X(CACHE_RULES_REASON_NEVER_STORE, 43, "never-store") X(CACHE_RULES_REASON_FIELD_TOO_LONG, 44, "field-too-long") X(CACHE_RULES_REASON_ORIGIN_DOWN, 50, "no-answer") \
    X(CACHE_RULES_REASON_ONLY_IF_CACHED, 51, "only-if-cached") X(CACHE_RULES_REASON_STALE_WHILE_REVALIDATE, 52, "stale-while-revalidate") X(CACHE_RULES_REASON_STALE_IF_ERROR, 53, "stale-if-error") \
    X(CACHE_RULES_REASON_STALE_IF_DOWN, 54, "stale-if-down") X(CACHE_RULES_REASON_PURGED, 55, "purged") X(CACHE_RULES_REASON_STORE_FAILED, 56, "unstored") \
    X(CACHE_RULES_REASON_BODY_TOO_LONG, 57, "body-too-long") X(CACHE_RULES_REASON_TOO_BUSY, 58, "too-busy")
#define CACHE_RULES_X(name, number, text) name = number,
enum cache_rules_reason { CACHE_RULES_REASONS(CACHE_RULES_X) CACHE_RULES_REASON_NONE = 0 };
#undef CACHE_RULES_X
static inline const char *cache_rules_reason_name(uint64_t reason) {
    switch (reason) {
#define CACHE_RULES_X(name, number, text) case number: return text;
        CACHE_RULES_REASONS(CACHE_RULES_X)
#undef CACHE_RULES_X
    default: return "";
    }
}

/* Where a text stands in the buffer of the caller. */
typedef struct cache_rules_span {
    uint64_t start;
    uint64_t end;                       /* Behind its last byte. */
} cache_rules_span;

/* How the rules decide. */
typedef struct cache_rules_options {
    uint64_t flags;                     /* cache_rules_option_flag, joined. */
    uint64_t max_head_bytes;            /* Longest head; else 431, of a response 502. */
    uint64_t max_request_line_bytes;    /* Longest request line; else 414. */
    uint64_t max_fields;                /* Most field lines; else 431, of a response 502. */
    uint64_t max_ranges;                /* Most parts of a 206, 1 to 16. */
    uint64_t max_heuristic_ttl;         /* Longest guessed lifetime, in seconds. */
    uint64_t stale_while_revalidate;    /* Seconds, if the response does not say. */
    uint64_t stale_if_error;            /* Seconds, if the response does not say. */
    uint64_t stale_if_down;             /* Seconds, if the origin gives no answer. */
    uint64_t max_field_bytes;           /* Longest field line of a request; else 431. */
    uint64_t reserved[2];               /* Set to 0. */
    const char *settings;               /* Lines `name: value CR LF`, kept by the caller: docs/rules.md has their names. */
    size_t settings_len;
} cache_rules_options;

/* A request that was parsed, and what to do with it. */
typedef struct cache_rules_request_head {
    uint64_t status;                    /* PARSED, NEED_MORE or REJECTED. */
    uint64_t buf_needed;                /* BUFFER_TOO_SMALL: the length that suffices. */
    uint64_t head_len;                  /* PARSED: bytes of the head. */
    uint64_t error_code;                /* REJECTED, or PLAN_RESPOND: the status code to answer with. */
    uint64_t reason;                    /* Of REJECTED, PLAN_PASS and PLAN_RESPOND. */
    uint64_t plan;                      /* One of cache_rules_plan. */
    uint64_t minor_version;             /* 0 or 1. */
    uint64_t framing;                   /* Of its body. */
    uint64_t body_len;                  /* Of its body; NONE if none is stated. */
    uint64_t flags;                     /* cache_rules_message_flag, joined. */
    cache_rules_span method;
    cache_rules_span host;
    cache_rules_span target;
    cache_rules_span key;               /* The key for the tier. */
    cache_rules_span fields;            /* The end-to-end field lines. */
    cache_rules_span written;           /* All that was written to the buffer. */
    cache_rules_span decision_fields;   /* Behind `fields` once more those of them that decide_reuse, stale_on_error, serve_stored and reuse_stored look at. */
    const uint8_t *buf;                 /* The buffer: leave it unchanged while the head is in use. */
    size_t buf_len;
} cache_rules_request_head;

/* A response head that was parsed. */
typedef struct cache_rules_response_head {
    uint64_t status;                    /* PARSED, NEED_MORE or REJECTED (answer 502). */
    uint64_t buf_needed;                /* BUFFER_TOO_SMALL: the length that suffices. */
    uint64_t head_len;                  /* PARSED: bytes of the head. */
    uint64_t reason;                    /* Of REJECTED. */
    uint64_t status_code;               /* From 100 to 199 another head follows. */
    uint64_t minor_version;             /* 0 or 1. */
    uint64_t framing;                   /* Of its body. */
    uint64_t body_len;                  /* Of its body; NONE if none is stated. */
    uint64_t flags;                     /* CONNECTION_CLOSE, IS_HEAD, HAS_DATE. */
    cache_rules_span fields;            /* The end-to-end field lines. */
    cache_rules_span written;           /* All that was written to the buffer. */
    uint64_t reserved[3];               /* Set to 0. */
    const uint8_t *buf;                 /* The buffer: leave it unchanged while the head is in use. */
    size_t buf_len;
} cache_rules_response_head;

/* How a response came about, for Cache-Status (RFC 9211). */
typedef struct cache_rules_cache_status {
    uint64_t hit;                       /* 1: served from the cache; `fwd` is 0. */
    uint64_t fwd;                       /* One of cache_rules_fwd. */
    uint64_t fwd_status;                /* The origin's status code, or 0. */
    uint64_t stored;                    /* 0 or 1. */
    uint64_t collapsed;                 /* 0 or 1: it waited for another request's fetch. */
    uint64_t detail;                    /* A cache_rules_reason, or 0. */
    uint64_t fetch;                     /* Of relay_response: what forward_request wrote (its `fetch`); 0: the response goes on as it came. */
    uint64_t connection_close;          /* 1: `Connection: close` is written. */
} cache_rules_cache_status;

/* A part of a body: `prefix` is sent, then the bytes from `start` to `end` of the body (NONE: to its end). */
typedef struct cache_rules_body_part {
    cache_rules_span prefix;            /* Sent before the part. */
    uint64_t start;
    uint64_t end;                       /* NONE: to the end of the body. */
} cache_rules_body_part;

/* A message to send, or keys, or a decision. */
typedef struct cache_rules_message {
    uint64_t status;
    uint64_t buf_needed;                /* BUFFER_TOO_SMALL: the length that suffices. */
    uint64_t reason;
    uint64_t status_code;               /* The status code that is sent; of stale_on_error 502 or 504. */
    uint64_t framing;                   /* How the body is sent. */
    uint64_t body_len;
    uint64_t flags;                     /* IS_HEAD, CONNECTION_CLOSE. */
    union { uint64_t reuse, fetch, serve_stale, bad_line; }; /* decide_reuse: reuse. forward_request: fetch. stale_on_error: serve_stale, 1 if it may. check_options: bad_line, from 1. */
    uint64_t part_count;                /* Of serve_stored, reuse_stored and relay_response. */
    uint64_t key_count;                 /* Of invalidated_keys and secondary_keys. */
    cache_rules_span head;              /* A whole head. */
    cache_rules_span tail;              /* What follows the parts; the body of make_response; keys, each with LF; what follows a chunk. */
    uint64_t reserved[2];               /* Set to 0. */
    cache_rules_body_part parts[16];
} cache_rules_message;

/* Whether a response is stored, and as what. */
typedef struct cache_rules_store_decision {
    uint64_t status;                    /* STORE or DO_NOT_STORE; of freshen also MISMATCH; of update_vary_index STORE (a new index) or DONE. */
    uint64_t buf_needed;                /* BUFFER_TOO_SMALL: the length that suffices. */
    uint64_t reason;                    /* Of DO_NOT_STORE. */
    uint64_t purge;                     /* 1: purge what was found, under the key that it was found under, never a vary index; of STORE too: it is under another set of Vary. */
    uint64_t predicts_uncacheable;      /* DO_NOT_STORE: nor will the next response of this key be stored; who waits for it may as well pass. */
    uint64_t needs_vary_index;          /* 1: its set of Vary is not in the index. */
    uint64_t place;                     /* Of update_vary_index: DONE, the place of its set, from 0; STORE, 0: its set is in front. */
    cache_tier_meta meta;               /* For begin, revalidate or put; set external_bytes first. */
    cache_tier_head served_head;        /* For serve_stored, to the client that fetched it; stored or not. */
    cache_rules_span head;              /* For begin, revalidate or put. */
    cache_rules_span fields;
    cache_rules_span body;              /* Of a vary index. */
    uint64_t reserved;                  /* Set to 0. */
} cache_rules_store_decision;

/* A body that is being decoded. */
typedef struct cache_rules_body_decoder {
    uint64_t state[8];
} cache_rules_body_decoder;

/* What came of a body. */
typedef struct cache_rules_body_chunk {
    uint64_t status;                    /* DATA, NEED_MORE, BODY_END or REJECTED. */
    uint64_t buf_needed;                /* BUFFER_TOO_SMALL: the length that suffices. */
    uint64_t reason;                    /* Of REJECTED. */
    uint64_t start;                     /* DATA: where it stands in the bytes passed. */
    uint64_t end;
    uint64_t consumed;                  /* Bytes that are done with. */
    cache_rules_span trailers;          /* BODY_END: field lines. */
} cache_rules_body_chunk;

/* A request that was forwarded, its response, and their moments (RFC 9111, 4.2.3). */
typedef struct cache_rules_exchange {
    const cache_rules_request_head *request;
    const cache_rules_response_head *response;
    uint64_t head_request;              /* 1: what was forwarded is a HEAD. */
    cache_tier_moment request_time;     /* When the request was sent. */
    cache_tier_moment response_time;    /* When the head of the response came. */
    cache_tier_slice vary_index;        /* The body of the vary index that was found, or empty. */
} cache_rules_exchange;

CACHE_TIER_ASSERT(sizeof(cache_rules_span) == 16 && offsetof(cache_rules_span, end) == 8);
CACHE_TIER_ASSERT(sizeof(cache_rules_options) == 112 && offsetof(cache_rules_options, max_head_bytes) == 8 && offsetof(cache_rules_options,
                  max_request_line_bytes) == 16 && offsetof(cache_rules_options, max_fields) == 24 && offsetof(cache_rules_options,
                  max_ranges) == 32 && offsetof(cache_rules_options, max_heuristic_ttl) == 40 && offsetof(cache_rules_options,
                  stale_while_revalidate) == 48 && offsetof(cache_rules_options, stale_if_error) == 56 && offsetof(cache_rules_options,
                  stale_if_down) == 64 && offsetof(cache_rules_options, max_field_bytes) == 72 && offsetof(cache_rules_options, reserved) == 80 &&
                  offsetof(cache_rules_options, settings) == 96 && offsetof(cache_rules_options, settings_len) == 104);
CACHE_TIER_ASSERT(sizeof(cache_rules_request_head) == 208 && offsetof(cache_rules_request_head, buf_needed) == 8 &&
                  offsetof(cache_rules_request_head, head_len) == 16 && offsetof(cache_rules_request_head, error_code) == 24 &&
                  offsetof(cache_rules_request_head, reason) == 32 && offsetof(cache_rules_request_head, plan) == 40 &&
                  offsetof(cache_rules_request_head, minor_version) == 48 && offsetof(cache_rules_request_head, framing) == 56 &&
                  offsetof(cache_rules_request_head, body_len) == 64 && offsetof(cache_rules_request_head, flags) == 72 &&
                  offsetof(cache_rules_request_head, method) == 80 && offsetof(cache_rules_request_head, host) == 96 &&
                  offsetof(cache_rules_request_head, target) == 112 && offsetof(cache_rules_request_head, key) == 128 &&
                  offsetof(cache_rules_request_head, fields) == 144 && offsetof(cache_rules_request_head, written) == 160 &&
                  offsetof(cache_rules_request_head, decision_fields) == 176 && offsetof(cache_rules_request_head, buf) == 192 &&
                  offsetof(cache_rules_request_head, buf_len) == 200);
CACHE_TIER_ASSERT(sizeof(cache_rules_response_head) == 144 && offsetof(cache_rules_response_head, buf_needed) == 8 &&
                  offsetof(cache_rules_response_head, head_len) == 16 && offsetof(cache_rules_response_head, reason) == 24 &&
                  offsetof(cache_rules_response_head, status_code) == 32 && offsetof(cache_rules_response_head, minor_version) == 40 &&
                  offsetof(cache_rules_response_head, framing) == 48 && offsetof(cache_rules_response_head, body_len) == 56 &&
                  offsetof(cache_rules_response_head, flags) == 64 && offsetof(cache_rules_response_head, fields) == 72 &&
                  offsetof(cache_rules_response_head, written) == 88 && offsetof(cache_rules_response_head, reserved) == 104 &&
                  offsetof(cache_rules_response_head, buf) == 128 && offsetof(cache_rules_response_head, buf_len) == 136);
CACHE_TIER_ASSERT(sizeof(cache_rules_cache_status) == 64 && offsetof(cache_rules_cache_status, fwd) == 8 && offsetof(cache_rules_cache_status,
                  fwd_status) == 16 && offsetof(cache_rules_cache_status, stored) == 24 && offsetof(cache_rules_cache_status, collapsed) == 32 &&
                  offsetof(cache_rules_cache_status, detail) == 40 && offsetof(cache_rules_cache_status, fetch) == 48 &&
                  offsetof(cache_rules_cache_status, connection_close) == 56);
CACHE_TIER_ASSERT(sizeof(cache_rules_body_part) == 32 && offsetof(cache_rules_body_part, start) == 16 && offsetof(cache_rules_body_part, end) == 24);
CACHE_TIER_ASSERT(sizeof(cache_rules_message) == 640 && offsetof(cache_rules_message, buf_needed) == 8 && offsetof(cache_rules_message,
                  reason) == 16 && offsetof(cache_rules_message, status_code) == 24 && offsetof(cache_rules_message, framing) == 32 &&
                  offsetof(cache_rules_message, body_len) == 40 && offsetof(cache_rules_message, flags) == 48 && offsetof(cache_rules_message,
                  reuse) == 56 && offsetof(cache_rules_message, part_count) == 64 && offsetof(cache_rules_message, key_count) == 72 &&
                  offsetof(cache_rules_message, head) == 80 && offsetof(cache_rules_message, tail) == 96 && offsetof(cache_rules_message,
                  reserved) == 112 && offsetof(cache_rules_message, parts) == 128);
CACHE_TIER_ASSERT(sizeof(cache_rules_store_decision) == 336 && offsetof(cache_rules_store_decision, buf_needed) == 8 &&
                  offsetof(cache_rules_store_decision, reason) == 16 && offsetof(cache_rules_store_decision, purge) == 24 &&
                  offsetof(cache_rules_store_decision, predicts_uncacheable) == 32 && offsetof(cache_rules_store_decision,
                  needs_vary_index) == 40 && offsetof(cache_rules_store_decision, place) == 48 && offsetof(cache_rules_store_decision,
                  meta) == 56 && offsetof(cache_rules_store_decision, served_head) == 152 && offsetof(cache_rules_store_decision, head) == 280 &&
                  offsetof(cache_rules_store_decision, fields) == 296 && offsetof(cache_rules_store_decision, body) == 312 &&
                  offsetof(cache_rules_store_decision, reserved) == 328);
CACHE_TIER_ASSERT(sizeof(cache_rules_body_decoder) == 64);
CACHE_TIER_ASSERT(sizeof(cache_rules_body_chunk) == 64 && offsetof(cache_rules_body_chunk, buf_needed) == 8 && offsetof(cache_rules_body_chunk,
                  reason) == 16 && offsetof(cache_rules_body_chunk, start) == 24 && offsetof(cache_rules_body_chunk, end) == 32 &&
                  offsetof(cache_rules_body_chunk, consumed) == 40 && offsetof(cache_rules_body_chunk, trailers) == 48);
CACHE_TIER_ASSERT(sizeof(cache_rules_exchange) == 72 && offsetof(cache_rules_exchange, response) == 8 && offsetof(cache_rules_exchange,
                  head_request) == 16 && offsetof(cache_rules_exchange, request_time) == 24 && offsetof(cache_rules_exchange,
                  response_time) == 40 && offsetof(cache_rules_exchange, vary_index) == 56);

/* What the library exports: structs stand for their bytes before `settings`, `buf` and `parts`, whose text is beside them. Call the functions below instead. */
uint64_t cache_rules1_head_end(const uint8_t *data, size_t data_len, uint64_t start);
void cache_rules1_check_options(const cache_rules_options *options, const uint8_t *settings, size_t settings_len, cache_rules_message *out);
void cache_rules1_prepare_settings(const cache_rules_options *options, const uint8_t *settings, size_t settings_len, uint8_t *buf, size_t buf_len,
                      cache_rules_message *out);
void cache_rules1_parse_request(const cache_rules_options *options, const uint8_t *settings, size_t settings_len, const uint8_t *data,
                      size_t data_len, uint8_t *buf, size_t buf_len, cache_rules_request_head *out);
void cache_rules1_parse_response(const cache_rules_options *options, const uint8_t *settings, size_t settings_len, uint64_t head_request,
                      uint64_t response_time, uint64_t response_time_ns, const uint8_t *data, size_t data_len, uint8_t *buf, size_t buf_len,
                      cache_rules_response_head *out);
void cache_rules1_secondary_keys(const cache_rules_options *options, const uint8_t *settings, size_t settings_len,
                      const cache_rules_request_head *request, const uint8_t *request_buf, size_t request_buf_len, const uint8_t *vary_index,
                      size_t vary_index_len, uint8_t *buf, size_t buf_len, cache_rules_body_part *parts, size_t parts_len, cache_rules_message *out);
void cache_rules1_update_vary_index(const cache_rules_options *options, const uint8_t *settings, size_t settings_len,
                      const cache_rules_response_head *response, const uint8_t *response_buf, size_t response_buf_len, uint64_t now,
                      uint64_t now_ns, const uint8_t *vary_index, size_t vary_index_len, const uint8_t *token, size_t token_len, uint8_t *buf,
                      size_t buf_len, cache_rules_store_decision *out);
void cache_rules1_decide_reuse(const cache_rules_options *options, const uint8_t *settings, size_t settings_len,
                      const cache_rules_request_head *request, const uint8_t *request_buf, size_t request_buf_len, const cache_tier_head *stored,
                      const uint8_t *fields, size_t fields_len, uint64_t now, uint64_t now_ns, cache_rules_message *out);
void cache_rules1_stale_on_error(const cache_rules_options *options, const uint8_t *settings, size_t settings_len,
                      const cache_rules_request_head *request, const uint8_t *request_buf, size_t request_buf_len, const cache_tier_head *stored,
                      const uint8_t *fields, size_t fields_len, uint64_t now, uint64_t now_ns, uint64_t origin_status, cache_rules_message *out);
void cache_rules1_forward_request(const cache_rules_options *options, const uint8_t *settings, size_t settings_len,
                      const cache_rules_request_head *request, const uint8_t *request_buf, size_t request_buf_len, uint64_t fetch,
                      const cache_tier_head *stored, const uint8_t *fields, size_t fields_len, const uint8_t *peer, size_t peer_len, uint8_t *buf,
                      size_t buf_len, cache_rules_message *out);
void cache_rules1_decide_store(const cache_rules_options *options, const uint8_t *settings, size_t settings_len,
                      const cache_rules_request_head *request, const uint8_t *request_buf, size_t request_buf_len, uint64_t head_request,
                      const cache_rules_response_head *response, const uint8_t *response_buf, size_t response_buf_len, uint64_t request_time,
                      uint64_t request_time_ns, uint64_t response_time, uint64_t response_time_ns, const uint8_t *vary_index, size_t vary_index_len,
                      const cache_tier_head *stored, const uint8_t *fields, size_t fields_len, uint8_t *buf, size_t buf_len,
                      cache_rules_store_decision *out);
void cache_rules1_freshen(const cache_rules_options *options, const uint8_t *settings, size_t settings_len, const cache_rules_request_head *request,
                      const uint8_t *request_buf, size_t request_buf_len, const cache_tier_head *stored, const uint8_t *fields, size_t fields_len,
                      uint64_t body_len, const cache_rules_response_head *response, const uint8_t *response_buf, size_t response_buf_len,
                      uint64_t request_time, uint64_t request_time_ns, uint64_t response_time, uint64_t response_time_ns, uint8_t *buf,
                      size_t buf_len, cache_rules_store_decision *out);
void cache_rules1_serve_stored(const cache_rules_options *options, const uint8_t *settings, size_t settings_len,
                      const cache_rules_request_head *request, const uint8_t *request_buf, size_t request_buf_len, const cache_tier_head *stored,
                      const uint8_t *fields, size_t fields_len, uint64_t body_len, uint64_t now, uint64_t now_ns,
                      const cache_rules_cache_status *cache_status, uint8_t *buf, size_t buf_len, cache_rules_body_part *parts, size_t parts_len,
                      cache_rules_message *out);
void cache_rules1_reuse_stored(const cache_rules_options *options, const uint8_t *settings, size_t settings_len,
                      const cache_rules_request_head *request, const uint8_t *request_buf, size_t request_buf_len, const cache_tier_head *stored,
                      const uint8_t *fields, size_t fields_len, uint64_t body_len, uint64_t now, uint64_t now_ns,
                      const cache_rules_cache_status *cache_status, uint8_t *buf, size_t buf_len, cache_rules_body_part *parts, size_t parts_len,
                      cache_rules_message *out);
void cache_rules1_relay_response(const cache_rules_options *options, const uint8_t *settings, size_t settings_len,
                      const cache_rules_request_head *request, const uint8_t *request_buf, size_t request_buf_len,
                      const cache_rules_response_head *response, const uint8_t *response_buf, size_t response_buf_len, uint64_t request_time,
                      uint64_t request_time_ns, uint64_t response_time, uint64_t response_time_ns, const cache_rules_cache_status *cache_status,
                      uint8_t *buf, size_t buf_len, cache_rules_body_part *parts, size_t parts_len, cache_rules_message *out);
void cache_rules1_make_response(const cache_rules_options *options, const uint8_t *settings, size_t settings_len,
                      const cache_rules_request_head *request, const uint8_t *request_buf, size_t request_buf_len, uint64_t status_code,
                      uint64_t reason, uint64_t now, uint64_t now_ns, uint8_t *buf, size_t buf_len, cache_rules_message *out);
void cache_rules1_invalidated_keys(const cache_rules_options *options, const uint8_t *settings, size_t settings_len,
                      const cache_rules_request_head *request, const uint8_t *request_buf, size_t request_buf_len,
                      const cache_rules_response_head *response, const uint8_t *response_buf, size_t response_buf_len, uint8_t *buf, size_t buf_len,
                      cache_rules_message *out);
void cache_rules1_decode_body(cache_rules_body_decoder *decoder, const uint8_t *data, size_t data_len, uint8_t *buf, size_t buf_len,
                      cache_rules_body_chunk *out);
void cache_rules1_encode_chunk(uint64_t chunk_len, uint8_t *buf, size_t buf_len, cache_rules_message *out);
/* ---- helpers */

/* The text of a span, in the buffer that it was written to. */
static inline cache_tier_slice cache_rules_slice(const uint8_t *buf, cache_rules_span span) {
    cache_tier_slice slice = {buf + span.start, (size_t)(span.end - span.start)};
    return slice;
}
static inline cache_tier_slice cache_rules_request_key(const cache_rules_request_head *request) { return cache_rules_slice(request->buf, request->key); }
/* The defaults: flags HONOR_REQUEST_DIRECTIVES, FILL_ON_RANGE, FILL_ON_HEAD, FILL_ON_CONDITIONAL, HEURISTIC_FRESHNESS, TRUST_DATE; max_head_bytes
   65536; max_request_line_bytes 16384; max_fields 250; max_ranges 8; max_heuristic_ttl 86400; stale_while_revalidate 0; stale_if_error 0;
   stale_if_down 0; max_field_bytes 8192. No settings. */
static inline cache_rules_options cache_rules_default_options(void) {
    cache_rules_options o = {CACHE_RULES_HONOR_REQUEST_DIRECTIVES | CACHE_RULES_FILL_ON_RANGE | CACHE_RULES_FILL_ON_HEAD |
        CACHE_RULES_FILL_ON_CONDITIONAL | CACHE_RULES_HEURISTIC_FRESHNESS | CACHE_RULES_TRUST_DATE, 65536, 16384, 250, 8, 86400, 0, 0, 0, 8192, {0},
        NULL, 0};
    return o;
}
static inline const cache_tier_head *cache_rules_i_stored(const cache_tier_head *stored) { /* internal */
    static const cache_tier_head none = {0, 0, {0, 0}, {0, 0}, {0, 0}, {0, 0}, 0, 0, 0, {NULL, 0}, 0};
    return stored ? stored : &none;
}
static inline void cache_rules_i_served(cache_rules_store_decision *decision, const uint8_t *buf) { /* internal */
    decision->served_head.fields = cache_rules_slice(buf, decision->fields);
}
/* A decoder of a body: `framing` and `body_len` of its head; its trailers have at most `max_trailer_bytes`. */
static inline cache_rules_body_decoder cache_rules_make_body_decoder(uint64_t framing, uint64_t body_len, uint64_t max_trailer_bytes) {
    cache_rules_body_decoder decoder = {{framing, body_len, max_trailer_bytes, 0, 0, 0, 0, 0}};
    return decoder;
}

/* ---- calls */

/* Prepares the settings, so that no call reads and checks them anew: once, at the start. DONE: they are in the buffer, which stays; prepared ones can't be
   prepared again. BAD_ARGUMENT: check_options says which line. `settings_len` + 2 bytes suffice. */
static inline int cache_rules_prepare_settings(cache_rules_options *options, uint8_t *buf, size_t buf_len, cache_rules_message *message) {
    cache_rules1_prepare_settings(options, cache_tier_i_bytes(options->settings), options->settings_len, buf, buf_len, message);
    if (message->status == CACHE_RULES_DONE) options->settings = (const char *)buf, options->settings_len = (size_t)message->head.end;
    return (int)message->status;
}
/* Where a head ends in the bytes that came: how many it has, or 0. `start`: how many were there at the last call, 0 at the first. For a head that
   parse_request answered NEED_MORE of: call that first, and this only then, to see cheaply whether the rest has come. */
static inline uint64_t cache_rules_head_end(const void *data, size_t data_len, size_t start) {
    return cache_rules1_head_end(cache_tier_i_bytes(data), data_len, start);
}
/* Checks options once, at the start. BAD_ARGUMENT: `bad_line` is the wrong line of `settings`, from 1; 0 if a number is wrong. Answers DONE. */
static inline int cache_rules_check_options(const cache_rules_options *options, cache_rules_message *message) {
    cache_rules1_check_options(options, cache_tier_i_bytes(options->settings), options->settings_len, message);
    return (int)message->status;
}

/* Parses a request's head, and plans. REJECTED: by `error_code` and `reason`. Answers PARSED, NEED_MORE, REJECTED. */
static inline int cache_rules_parse_request(const cache_rules_options *options, const void *data, size_t data_len, uint8_t *buf, size_t buf_len,
        cache_rules_request_head *request) {
    cache_rules1_parse_request(options, cache_tier_i_bytes(options->settings), options->settings_len, cache_tier_i_bytes(data), data_len, buf,
        buf_len, request);
    request->buf = buf, request->buf_len = (size_t)request->written.end;
    return (int)request->status;
}

/* Parses a response's head. `head_request`: the request was a HEAD. `response_time`: when its first byte came. Answers PARSED, NEED_MORE, REJECTED.
   */
static inline int cache_rules_parse_response(const cache_rules_options *options, int head_request, cache_tier_moment response_time,
        const void *data, size_t data_len, uint8_t *buf, size_t buf_len, cache_rules_response_head *response) {
    cache_rules1_parse_response(options, cache_tier_i_bytes(options->settings), options->settings_len, head_request != 0, response_time.seconds,
        response_time.nanoseconds, cache_tier_i_bytes(data), data_len, buf, buf_len, response);
    response->buf = buf, response->buf_len = (size_t)response->written.end;
    return (int)response->status;
}

/* The secondary keys of a request (RFC 9111, 4.1) by the body of a vary index, one for each of its sets: `key_count`, each as parts[i].prefix. Get
   each: of what is found the greatest `updated` counts, of equals the one in front, fresh or not; where nothing is found go on by the first. Answers
   DONE. */
static inline int cache_rules_secondary_keys(const cache_rules_options *options, const cache_rules_request_head *request,
        cache_tier_slice vary_index, uint8_t *buf, size_t buf_len, cache_rules_message *message) {
    cache_rules1_secondary_keys(options, cache_tier_i_bytes(options->settings), options->settings_len, request, cache_tier_i_bytes(request->buf),
        request->buf_len, cache_tier_i_bytes(vary_index.ptr), vary_index.len, buf, buf_len, message->parts, CACHE_RULES_MAX_RANGES, message);
    return (int)message->status;
}

/* Under which key a response that is stored goes, if it varies or there is a vary index: `vary_index` is the body of the one that is stored under the
   first key now, looked up again, or empty. DONE: under the secondary key of the set at `place`, or if `vary_index` is empty under the first key.
   STORE: put `head` and `body` with `meta` under the first key, then store it under the secondary key of the set in front. If that is not the key of
   what was found, give up its permit and take one there. `token`: 8 to 64 bytes that cannot be guessed, none of them LF (hexadecimal digits of 16
   random bytes). Answers STORE, DONE. */
static inline int cache_rules_update_vary_index(const cache_rules_options *options, const cache_rules_response_head *response,
        cache_tier_moment now, cache_tier_slice vary_index, const void *token, size_t token_len, uint8_t *buf, size_t buf_len,
        cache_rules_store_decision *decision) {
    cache_rules1_update_vary_index(options, cache_tier_i_bytes(options->settings), options->settings_len, response,
        cache_tier_i_bytes(response->buf), response->buf_len, now.seconds, now.nanoseconds, cache_tier_i_bytes(vary_index.ptr), vary_index.len,
        cache_tier_i_bytes(token), token_len, buf, buf_len, decision);
    return (int)decision->status;
}

/* Whether a stored response may answer (RFC 9111, 4): `reuse`. Answers DONE. */
static inline int cache_rules_decide_reuse(const cache_rules_options *options, const cache_rules_request_head *request,
        const cache_tier_head *stored, cache_tier_moment now, cache_rules_message *message) {
    cache_rules1_decide_reuse(options, cache_tier_i_bytes(options->settings), options->settings_len, request, cache_tier_i_bytes(request->buf),
        request->buf_len, stored, cache_tier_i_bytes(stored->fields.ptr), stored->fields.len, now.seconds, now.nanoseconds, message);
    return (int)message->status;
}

/* Whether a stale response (NULL: there is none) answers in place of an error (RFC 5861, 4): `serve_stale` 1, else `status_code`. `origin_status`:
   the origin's; 0: it gave no answer. It does not look at Authorization: ask it only after REUSE_AFTER_VALIDATION or REUSE_WHILE_REVALIDATING.
   Answers DONE. */
static inline int cache_rules_stale_on_error(const cache_rules_options *options, const cache_rules_request_head *request,
        const cache_tier_head *stored, cache_tier_moment now, uint64_t origin_status, cache_rules_message *message) {
    stored = cache_rules_i_stored(stored);
    cache_rules1_stale_on_error(options, cache_tier_i_bytes(options->settings), options->settings_len, request, cache_tier_i_bytes(request->buf),
        request->buf_len, stored, cache_tier_i_bytes(stored->fields.ptr), stored->fields.len, now.seconds, now.nanoseconds, origin_status, message);
    return (int)message->status;
}

/* The head of the request to the origin; its body is sent by `framing`. `fetch`: one of cache_rules_fetch. `stored`: for FETCH_CONDITIONAL, else
   NULL. `peer`: the client's address, for X-Forwarded-For, or empty. Answers DONE. */
static inline int cache_rules_forward_request(const cache_rules_options *options, const cache_rules_request_head *request, uint64_t fetch,
        const cache_tier_head *stored, cache_tier_slice peer, uint8_t *buf, size_t buf_len, cache_rules_message *message) {
    stored = cache_rules_i_stored(stored);
    cache_rules1_forward_request(options, cache_tier_i_bytes(options->settings), options->settings_len, request, cache_tier_i_bytes(request->buf),
        request->buf_len, fetch, stored, cache_tier_i_bytes(stored->fields.ptr), stored->fields.len, cache_tier_i_bytes(peer.ptr), peer.len, buf,
        buf_len, message);
    return (int)message->status;
}

/* Whether a response is stored (RFC 9111, 3), and as what. `stored`: the head that was found under the key that was looked up (NULL: nothing), never
   a vary index's: what is good for others keeps its place (REASON_STORED_IS_GOOD). `served_head` holds while the buffer does. Answers STORE,
   DO_NOT_STORE. */
static inline int cache_rules_decide_store(const cache_rules_options *options, const cache_rules_exchange *exchange, const cache_tier_head *stored,
        uint8_t *buf, size_t buf_len, cache_rules_store_decision *decision) {
    stored = cache_rules_i_stored(stored);
    cache_rules1_decide_store(options, cache_tier_i_bytes(options->settings), options->settings_len, exchange->request,
        cache_tier_i_bytes(exchange->request->buf), exchange->request->buf_len, exchange->head_request != 0, exchange->response,
        cache_tier_i_bytes(exchange->response->buf), exchange->response->buf_len, exchange->request_time.seconds,
        exchange->request_time.nanoseconds, exchange->response_time.seconds, exchange->response_time.nanoseconds,
        cache_tier_i_bytes(exchange->vary_index.ptr), exchange->vary_index.len, stored, cache_tier_i_bytes(stored->fields.ptr), stored->fields.len,
        buf, buf_len, decision);
    cache_rules_i_served(decision, buf);
    return (int)decision->status;
}

/* What a 304 makes of a stored response (RFC 9111, 4.3.4; `body_len` NONE), or a 200 to HEAD (`body_len`: of the stored body). STORE: revalidate.
   DO_NOT_STORE: purge if `purge`, and the client is served over `served_head` all the same. MISMATCH: purge if `purge`, and after a 304 fetch again.
   Only after a forward_request whose `fetch` was FETCH_CONDITIONAL: a 304 after FETCH_FULL answers the client's own condition, and goes to
   decide_store. The client of a 200 gets relay_response. Answers STORE, DO_NOT_STORE, MISMATCH. */
static inline int cache_rules_freshen(const cache_rules_options *options, const cache_rules_exchange *exchange, const cache_tier_head *stored,
        uint64_t body_len, uint8_t *buf, size_t buf_len, cache_rules_store_decision *decision) {
    cache_rules1_freshen(options, cache_tier_i_bytes(options->settings), options->settings_len, exchange->request,
        cache_tier_i_bytes(exchange->request->buf), exchange->request->buf_len, stored, cache_tier_i_bytes(stored->fields.ptr), stored->fields.len,
        body_len, exchange->response, cache_tier_i_bytes(exchange->response->buf), exchange->response->buf_len, exchange->request_time.seconds,
        exchange->request_time.nanoseconds, exchange->response_time.seconds, exchange->response_time.nanoseconds, buf, buf_len, decision);
    cache_rules_i_served(decision, buf);
    return (int)decision->status;
}

/* The response from what is stored, or is being stored: `head`, then each part, then `tail`. `body_len`: of the body if all of it is there (of one in
   a file its own length, which external_bytes is not), else NONE. Answers DONE. */
static inline int cache_rules_serve_stored(const cache_rules_options *options, const cache_rules_request_head *request,
        const cache_tier_head *stored, uint64_t body_len, cache_tier_moment now, const cache_rules_cache_status *cache_status, uint8_t *buf,
        size_t buf_len, cache_rules_message *message) {
    cache_rules1_serve_stored(options, cache_tier_i_bytes(options->settings), options->settings_len, request, cache_tier_i_bytes(request->buf),
        request->buf_len, stored, cache_tier_i_bytes(stored->fields.ptr), stored->fields.len, body_len, now.seconds, now.nanoseconds, cache_status,
        buf, buf_len, message->parts, CACHE_RULES_MAX_RANGES, message);
    return (int)message->status;
}

/* decide_reuse, and where `reuse` is REUSE_FRESH, REUSE_STALE or REUSE_WHILE_REVALIDATING serve_stored too, in one call: `cache_status` is of a hit.
   Else `reuse` alone. Answers DONE. */
static inline int cache_rules_reuse_stored(const cache_rules_options *options, const cache_rules_request_head *request,
        const cache_tier_head *stored, uint64_t body_len, cache_tier_moment now, const cache_rules_cache_status *cache_status, uint8_t *buf,
        size_t buf_len, cache_rules_message *message) {
    cache_rules1_reuse_stored(options, cache_tier_i_bytes(options->settings), options->settings_len, request, cache_tier_i_bytes(request->buf),
        request->buf_len, stored, cache_tier_i_bytes(stored->fields.ptr), stored->fields.len, body_len, now.seconds, now.nanoseconds, cache_status,
        buf, buf_len, message->parts, CACHE_RULES_MAX_RANGES, message);
    return (int)message->status;
}

/* The head of a response that is handed on and not stored, and in `parts` what of its body is sent; also of one from 100 to 199, which is not handed
   on to a client of HTTP/1.0 (RFC 9110, 15.2). By `cache_status.fetch` the client's conditions and its Range, which were not sent, are answered here:
   304, 206 of one part, 416. Bytes that are in no part are passed over, or the origin's connection is closed. Answers DONE. */
static inline int cache_rules_relay_response(const cache_rules_options *options, const cache_rules_exchange *exchange,
        const cache_rules_cache_status *cache_status, uint8_t *buf, size_t buf_len, cache_rules_message *message) {
    cache_rules1_relay_response(options, cache_tier_i_bytes(options->settings), options->settings_len, exchange->request,
        cache_tier_i_bytes(exchange->request->buf), exchange->request->buf_len, exchange->response, cache_tier_i_bytes(exchange->response->buf),
        exchange->response->buf_len, exchange->request_time.seconds, exchange->request_time.nanoseconds, exchange->response_time.seconds,
        exchange->response_time.nanoseconds, cache_status, buf, buf_len, message->parts, CACHE_RULES_MAX_RANGES, message);
    return (int)message->status;
}

/* A response of the proxy's own, to a request that may have been rejected: `head`, and its body in `tail`. `reason`: a cache_rules_reason. Answers
   DONE. */
static inline int cache_rules_make_response(const cache_rules_options *options, const cache_rules_request_head *request, uint64_t status_code,
        uint64_t reason, cache_tier_moment now, uint8_t *buf, size_t buf_len, cache_rules_message *message) {
    cache_rules1_make_response(options, cache_tier_i_bytes(options->settings), options->settings_len, request, cache_tier_i_bytes(request->buf),
        request->buf_len, status_code, reason, now.seconds, now.nanoseconds, buf, buf_len, message);
    return (int)message->status;
}

/* The keys to purge once this response has come (RFC 9111, 4.4): `key_count`, in `tail`. Answers DONE. */
static inline int cache_rules_invalidated_keys(const cache_rules_options *options, const cache_rules_request_head *request,
        const cache_rules_response_head *response, uint8_t *buf, size_t buf_len, cache_rules_message *message) {
    cache_rules1_invalidated_keys(options, cache_tier_i_bytes(options->settings), options->settings_len, request, cache_tier_i_bytes(request->buf),
        request->buf_len, response, cache_tier_i_bytes(response->buf), response->buf_len, buf, buf_len, message);
    return (int)message->status;
}

/* Decodes a body's bytes as they come; the buffer is for trailers. A body that stops before BODY_END is not whole, but for FRAMING_CLOSE, which ends
   with the connection. After BUFFER_TOO_SMALL and MEMORY the decoder is as it was, and the same bytes can be given again. Answers DATA, NEED_MORE,
   BODY_END, REJECTED. */
static inline int cache_rules_decode_body(cache_rules_body_decoder *decoder, const void *data, size_t data_len, uint8_t *buf, size_t buf_len,
        cache_rules_body_chunk *chunk) {
    cache_rules1_decode_body(decoder, cache_tier_i_bytes(data), data_len, buf, buf_len, chunk);
    return (int)chunk->status;
}

/* What goes round a chunk of `chunk_len` bytes of a body (RFC 9112, 7.1): `head` in front of it, `tail` behind; of 0 the last chunk, without
   trailers. Answers DONE. */
static inline int cache_rules_encode_chunk(uint64_t chunk_len, uint8_t *buf, size_t buf_len, cache_rules_message *message) {
    cache_rules1_encode_chunk(chunk_len, buf, buf_len, message);
    return (int)message->status;
}
#ifdef __cplusplus
}
#endif
#endif
