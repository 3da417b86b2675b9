/* Answers events by the header's functions, a line each, as embed/replay.py asks for them: what an event is given stands behind its name, bytes in hex,
   `-` for none. */
#include "cache_tier.h"
#include <stdio.h>

#define MOST 16
static cache_tier *tier;
static cache_tier_response found = CACHE_TIER_RESPONSE_INIT;
static cache_tier_result a;
static char *word[MOST];
static size_t words;
typedef struct {
    uint8_t *at;
    size_t len;
} bytes;
static bytes texts[MOST];

static uint64_t number(size_t i) { return strtoull(word[i], NULL, 10); }
static cache_tier_moment moment(size_t i) { return (cache_tier_moment){number(i), 0}; }
static uint8_t digit(char c) { return (uint8_t)(c <= '9' ? c - '0' : c - 'a' + 10); }
static void text(size_t i) { /* in place: two digits make a byte */
    bytes it = {(uint8_t *)word[i], 0};
    if (*word[i] != '-')
        for (size_t len = strlen(word[i]); 2 * it.len < len; it.len++) it.at[it.len] = (uint8_t)(digit(word[i][2 * it.len]) << 4 | digit(word[i][2 * it.len + 1]));
    texts[i] = it;
}
static cache_tier_key key(size_t i) { /* digested, key, tag */
    text(i + 1), text(i + 2);
    cache_tier_key k = cache_tier_key_from_name(texts[i + 1].at, texts[i + 1].len);
    k.is_digest = number(i);
    return cache_tier_key_with_tag(k, (const char *)texts[i + 2].at, texts[i + 2].len);
}
static const cache_tier_meta *given(size_t i) { /* `-`, or seven numbers with commas */
    static cache_tier_meta meta;
    uint64_t n[7];
    char *at = word[i];
    if (*at == '-') return NULL;
    for (int j = 0; j < 7; j++) n[j] = strtoull(at, &at, 10), at++;
    meta = cache_tier_meta_until((cache_tier_moment){n[0], 0}, (cache_tier_moment){n[1], 0}), meta.updated.seconds = n[2], meta.provenance.seconds = n[3];
    meta.stale_while_revalidate = n[4], meta.stale_if_error = n[5], meta.external_bytes = n[6];
    return &meta;
}
static void hex(cache_tier_slice l) {
    if (!l.len) putchar('-');
    for (size_t i = 0; i < l.len; i++) printf("%02x", l.ptr[i]);
}
/* What an event was answered, as numbers: the script names them. */
static void told(const cache_tier_result *it) {
    printf("%llu %llu %llu %llu %llu %llu ", (unsigned long long)it->status, (unsigned long long)it->body_len, (unsigned long long)it->evicted,
           (unsigned long long)it->fresh, (unsigned long long)it->complete, (unsigned long long)it->permit);
}
static void starts(void) {
    cache_tier_options o = cache_tier_default_options(number(1), 0);
    o.max_body_bytes = CACHE_TIER_NONE;
    cache_tier_free(tier);
    o.max_entries = number(2), o.lock_age = number(3), o.lock_timeout = number(4), o.lru_shards = number(5), o.eviction_seed = number(6);
    a.status = (uint64_t)cache_tier_new(&tier, &o);
}
static void file(uint64_t shard) {
    cache_tier_file f;
    if (cache_tier_lru_file(tier, shard, &f) == CACHE_TIER_ITEM) hex(f.content);
    else putchar('!');
}
static void report(void) {
    cache_tier_stats c;
    cache_tier_get_stats(tier, &c);
    const uint64_t all[9] = {c.found, c.misses, c.bodies, c.body_bytes, c.head_bytes, c.entries, c.weight, c.evicted, c.external_bytes};
    for (int i = 0; i < 9; i++) printf("%llu ", (unsigned long long)all[i]);
}
/* Traces have heads that the tier judges itself: these calls are the exports', which the header gives metadata always. */
typedef void judging(cache_tier *, uint64_t, uint64_t, uint64_t, const uint8_t *, size_t, uint64_t, const cache_tier_meta *, cache_tier_result *);
static const cache_tier_meta none = {{0, 0}, {0, 0}, {0, 0}, {0, 0}, 0, 0, 0, 0};
static void judged(judging *call, size_t i) {
    const cache_tier_meta *meta = given(i);
    call(tier, number(1), 0, number(2), texts[3].at, texts[3].len, meta != NULL, meta ? meta : &none, &a);
}
static void puts_by(cache_tier_key k, const cache_tier_meta *meta) {
    cache_tier1_put(tier, number(1), 0, k.is_digest, k.name, k.len, k.user_tag, k.user_tag_len, texts[5].at, texts[5].len, texts[6].at, texts[6].len,
                    meta != NULL, meta ? meta : &none, &a);
}
static void event(const char *op) {
    memset(&a, 0, sizeof a);
    if (!strcmp(op, "new")) starts();
    else if (!strcmp(op, "open")) cache_tier_open(tier, number(1), key(3), (int)number(2), &a);
    else if (!strcmp(op, "look") || !strcmp(op, "find")) cache_tier_lookup(tier, moment(1), number(2), &found), a = found.result;
    else if (!strcmp(op, "poll")) cache_tier_poll(tier, moment(1), number(2), &a);
    else if (!strcmp(op, "begin")) text(3), judged(cache_tier1_begin, 4);
    else if (!strcmp(op, "revalidate")) text(3), judged(cache_tier1_revalidate, 4);
    else if (!strcmp(op, "piece")) text(3), cache_tier_write(tier, number(1), texts[3].at, texts[3].len, (int)number(2), &a);
    else if (!strcmp(op, "finish")) cache_tier_finish(tier, number(1), &a);
    else if (!strcmp(op, "read")) cache_tier_read(tier, number(1), &found), a = found.result;
    else if (!strcmp(op, "drop")) a.status = (uint64_t)cache_tier_close(tier, number(1));
    else if (!strcmp(op, "purge")) cache_tier_purge(tier, key(1), &a);
    else if (!strcmp(op, "put"))
        text(5), text(6), puts_by(key(2), given(7));
    else if (!strcmp(op, "hand_file")) text(2), a.status = (uint64_t)cache_tier_lru_load(tier, number(1), texts[2].at, texts[2].len);
    else if (!strcmp(op, "start")) cache_tier_lru_restore(tier, &a), a.evicted = a.shards_missing, a.fresh = a.shards_corrupt;
    else if (!strcmp(op, "save")) cache_tier_lru_save(tier, &a), a.evicted = a.shards_failed;
}
int main(void) {
    char *line = NULL;
    size_t room = 0;
    for (ssize_t len; (len = getline(&line, &room, stdin)) > 0;) {
        line[len - 1] = 0;
        words = 0;
        for (char *at = strtok(line, " "); at && words < MOST; at = strtok(NULL, " ")) word[words++] = at;
        if (!strcmp(word[0], "file")) file(number(1));
        else if (!strcmp(word[0], "report")) report();
        else event(word[0]), told(&a), hex(strcmp(word[0], "read") ? (cache_tier_slice){NULL, 0} : found.body);
        putchar('\n');
    }
    cache_tier_free(tier), cache_tier_release(&found), free(line);
    return 0;
}
