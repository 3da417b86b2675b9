/* The files of a tier's order of use, for programs in C: each is replaced whole, so that a stop leaves it as before or new. No body is in them. */
#ifndef CACHE_TIER_FILES_H
#define CACHE_TIER_FILES_H
#include "cache_tier.h"
#include <errno.h>
#include <fcntl.h>
#include <limits.h>
#include <stdio.h>
#include <unistd.h>
#ifndef __cplusplus
extern int fsync(int); /* (-std=c11 hides it) */
#endif

/* Hands in the file of each shard that is there, and starts the tier, which is new. False where a file is there but can't be read. */
static inline int cache_tier_lru_load_files(cache_tier *tier, const char *folder, unsigned shards) {
    char path[4096];
    cache_tier_result answer;
    for (unsigned i = 0; i < shards; i++) {
        if (snprintf(path, sizeof path, "%s/lru.data.%u", folder, i) >= (int)sizeof path) return 0;
        FILE *in = fopen(path, "rb");
        if (!in && errno == ENOENT) continue;
        if (!in) return 0;
        long len = fseek(in, 0, SEEK_END) ? -1 : ftell(in);
        char *file = len < 0 || len == LONG_MAX ? NULL : (char *)malloc((size_t)len + 1); /* a folder has no length */
        rewind(in);
        int ok = file && fread(file, 1, (size_t)len, in) == (size_t)len && cache_tier_lru_load(tier, i, file, (size_t)len) == CACHE_TIER_OK;
        free(file);
        fclose(in);
        if (!ok) return 0;
    }
    return cache_tier_lru_restore(tier, &answer) == CACHE_TIER_RESTORED;
}
/* Writes a new file, and syncs it. */
static inline int cache_tier_write_file(const char *path, const uint8_t *bytes, size_t len) {
    int out = open(path, O_WRONLY | O_CREAT | O_TRUNC, 0666);
    int ok = out >= 0;
    while (ok && len) {
        ssize_t wrote = write(out, bytes, len);
        if (wrote < 0 && errno == EINTR) continue;
        if (wrote <= 0) ok = 0;
        else bytes += wrote, len -= (size_t)wrote;
    }
    ok = ok && !fsync(out);
    if (out >= 0 && close(out)) ok = 0;
    return ok;
}
/* Saves the order of use: each file is written under a temporary name, synced, renamed; then the folder is synced. False where one wasn't saved. */
static inline int cache_tier_lru_save_files(cache_tier *tier, const char *folder, unsigned shards) {
    char path[4096], temp[4200];
    cache_tier_result answer;
    int all = cache_tier_lru_save(tier, &answer) == CACHE_TIER_SAVED;
    for (unsigned i = 0; all && i < shards; i++) {
        cache_tier_file file;
        if (cache_tier_lru_file(tier, i, &file) != CACHE_TIER_ITEM) return 0;
        if (snprintf(path, sizeof path, "%s/lru.data.%u", folder, i) >= (int)sizeof path) return 0;
        snprintf(temp, sizeof temp, "%s.%ld.tmp", path, (long)getpid());
        all = cache_tier_write_file(temp, cache_tier_i_bytes(file.content.ptr), file.content.len) && !rename(temp, path);
        if (!all) unlink(temp);
    }
    int at = all ? open(folder, O_RDONLY) : -1;
    all = at >= 0 && !fsync(at);
    if (at >= 0) close(at);
    return all;
}
#endif
