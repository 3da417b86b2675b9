//! The exports of `cache_tier.h`, and each as a safe call. Written by tools/dev/interface.py: change the tables in embed, and run it with --write.
use super::{answered, entry, Held, Key, OwnedEntry, Room};
use crate::raw::*;

#[rustfmt::skip]
extern "C" {
    pub(super) fn cache_tier1_version() -> u64;
    pub(super) fn cache_tier1_sizeof() -> usize;
    pub(super) fn cache_tier1_digest(name: *const u8, name_len: usize, out: *mut u8, out_len: usize);
    pub(super) fn cache_tier1_release(keep: *mut u64);
    pub(super) fn cache_tier1_init(tier: *mut Raw, options: *const Options, out: *mut Result);
    pub(super) fn cache_tier1_end(tier: *mut Raw);
    pub(super) fn cache_tier1_open(tier: *mut Raw, id: u64, lock: u64, is_digest: u64, key: *const u8, key_len: usize, user_tag: *const u8, user_tag_len: usize, out: *mut Result);
    pub(super) fn cache_tier1_poll(tier: *mut Raw, seconds: u64, nanoseconds: u64, id: u64, out: *mut Result);
    pub(super) fn cache_tier1_begin(tier: *mut Raw, seconds: u64, nanoseconds: u64, id: u64, head: *const u8, head_len: usize, has_meta: u64, meta: *const Meta, out: *mut Result);
    pub(super) fn cache_tier1_revalidate(tier: *mut Raw, seconds: u64, nanoseconds: u64, id: u64, head: *const u8, head_len: usize, has_meta: u64, meta: *const Meta, out: *mut Result);
    pub(super) fn cache_tier1_write(tier: *mut Raw, id: u64, last: u64, data: *const u8, data_len: usize, out: *mut Result);
    pub(super) fn cache_tier1_finish(tier: *mut Raw, id: u64, out: *mut Result);
    pub(super) fn cache_tier1_close(tier: *mut Raw, id: u64, out: *mut Result);
    pub(super) fn cache_tier1_give_up(tier: *mut Raw, id: u64, out: *mut Result);
    pub(super) fn cache_tier1_purge(tier: *mut Raw, is_digest: u64, key: *const u8, key_len: usize, user_tag: *const u8, user_tag_len: usize, out: *mut Result);
    pub(super) fn cache_tier1_put(tier: *mut Raw, seconds: u64, nanoseconds: u64, is_digest: u64, key: *const u8, key_len: usize, user_tag: *const u8, user_tag_len: usize, head: *const u8, head_len: usize, body: *const u8, body_len: usize, has_meta: u64, meta: *const Meta, out: *mut Result);
    pub(super) fn cache_tier1_get(tier: *mut Raw, seconds: u64, nanoseconds: u64, is_digest: u64, key: *const u8, key_len: usize, user_tag: *const u8, user_tag_len: usize, out: *mut Response, keep: *mut u64);
    pub(super) fn cache_tier1_lookup(tier: *mut Raw, seconds: u64, nanoseconds: u64, id: u64, out: *mut Response, keep: *mut u64);
    pub(super) fn cache_tier1_lookup_stale(tier: *mut Raw, id: u64, out: *mut Response, keep: *mut u64);
    pub(super) fn cache_tier1_read(tier: *mut Raw, id: u64, out: *mut Response, keep: *mut u64);
    pub(super) fn cache_tier1_peek(tier: *const Raw, is_digest: u64, key: *const u8, key_len: usize, out: *mut Response, keep: *mut u64);
    pub(super) fn cache_tier1_evicted_entry(tier: *const Raw, index: u64, out: *mut Entry);
    pub(super) fn cache_tier1_lru_snapshot(tier: *mut Raw, shard: u64, out: *mut Result);
    pub(super) fn cache_tier1_lru_entry(tier: *const Raw, index: u64, out: *mut Entry);
    pub(super) fn cache_tier1_lru_save(tier: *mut Raw, out: *mut Result);
    pub(super) fn cache_tier1_lru_file(tier: *const Raw, shard: u64, out: *mut File);
    pub(super) fn cache_tier1_lru_load(tier: *mut Raw, shard: u64, content: *const u8, content_len: usize, out: *mut Result);
    pub(super) fn cache_tier1_lru_restore(tier: *mut Raw, out: *mut Result);
    pub(super) fn cache_tier1_weight(tier: *const Raw, out: *mut Result);
    pub(super) fn cache_tier1_get_stats(tier: *const Raw, out: *mut Stats);
}

#[rustfmt::skip]
impl Room {
    /// Opens request `id` for a key. With `lock` its lookups ask for the permit to write if they find nothing fresh.
    pub fn open(&mut self, id: u64, lock: bool, key: &Key<'_>) -> Result {
        answered(|out| unsafe { cache_tier1_open(self.at.as_ptr(), id, lock.into(), key.is_digest, key.bytes.as_ptr(), key.bytes.len(), key.user_tag.as_ptr(), key.user_tag.len(), out) })
    }
    /// Asks whether the wait for another request's permit has ended.
    pub fn poll(&mut self, now: Moment, id: u64) -> Result {
        answered(|out| unsafe { cache_tier1_poll(self.at.as_ptr(), now.seconds, now.nanoseconds, id, out) })
    }
    /// Begins a write with the head of the response, up to its empty line. Other requests find it from now on; the permit is given back. BAD_HEAD also of a status code below 200, or 304; BODY_TOO_LARGE by its external bytes.
    pub fn begin(&mut self, now: Moment, id: u64, head: &[u8], meta: &Meta) -> Result {
        answered(|out| unsafe { cache_tier1_begin(self.at.as_ptr(), now.seconds, now.nanoseconds, id, head.as_ptr(), head.len(), 1, meta, out) })
    }
    /// Replaces head and metadata of the stale response that the last lookup found, by a whole head of a status code from 200 on, and not 304. NOT_STORED: it was removed or replaced meanwhile.
    pub fn revalidate(&mut self, now: Moment, id: u64, head: &[u8], meta: &Meta) -> Result {
        answered(|out| unsafe { cache_tier1_revalidate(self.at.as_ptr(), now.seconds, now.nanoseconds, id, head.as_ptr(), head.len(), 1, meta, out) })
    }
    /// Adds bytes to the body. `last`: none follow. BODY_TOO_LARGE: nothing was written; close the request.
    pub fn write(&mut self, id: u64, last: bool, data: &[u8]) -> Result {
        answered(|out| unsafe { cache_tier1_write(self.at.as_ptr(), id, last.into(), data.as_ptr(), data.len(), out) })
    }
    /// Ends the write: the bytes so far are the body, whatever Content-Length says. If bytes are missing, close the request instead.
    pub fn finish(&mut self, id: u64) -> Result {
        answered(|out| unsafe { cache_tier1_finish(self.at.as_ptr(), id, out) })
    }
    /// Closes the request, and abandons its write and its permit. Takes no memory: CLOSED or NO_REQUEST.
    pub fn close(&mut self, id: u64) -> Result {
        answered(|out| unsafe { cache_tier1_close(self.at.as_ptr(), id, out) })
    }
    /// Says that the response will not be stored, as a private one. Those who wait for the permit go on at once (LOCK_GIVE_UP), where after a close one after the other would fetch; what is stale stays. After it only close is allowed. Takes no memory.
    pub fn give_up(&mut self, id: u64) -> Result {
        answered(|out| unsafe { cache_tier1_give_up(self.at.as_ptr(), id, out) })
    }
    /// Removes what is stored or being written under the key.
    pub fn purge(&mut self, key: &Key<'_>) -> Result {
        answered(|out| unsafe { cache_tier1_purge(self.at.as_ptr(), key.is_digest, key.bytes.as_ptr(), key.bytes.len(), key.user_tag.as_ptr(), key.user_tag.len(), out) })
    }
    /// Stores a whole response.
    pub fn put(&mut self, now: Moment, key: &Key<'_>, head: &[u8], body: &[u8], meta: &Meta) -> Result {
        answered(|out| unsafe { cache_tier1_put(self.at.as_ptr(), now.seconds, now.nanoseconds, key.is_digest, key.bytes.as_ptr(), key.bytes.len(), key.user_tag.as_ptr(), key.user_tag.len(), head.as_ptr(), head.len(), body.as_ptr(), body.len(), 1, meta, out) })
    }
    /// The stored response if it is fresh and complete; counts as a use. NO_HIT changes nothing, not even a counter. The key may not lie in `response`.
    pub fn get(&mut self, now: Moment, key: &Key<'_>) -> Held {
        Held::filled(|out, keep| unsafe { cache_tier1_get(self.at.as_ptr(), now.seconds, now.nanoseconds, key.is_digest, key.bytes.as_ptr(), key.bytes.len(), key.user_tag.as_ptr(), key.user_tag.len(), out, keep) })
    }
    /// Looks up what is stored or being written under the request's key, with its head. A complete one counts as a use.
    pub fn lookup(&mut self, now: Moment, id: u64) -> Held {
        Held::filled(|out, keep| unsafe { cache_tier1_lookup(self.at.as_ptr(), now.seconds, now.nanoseconds, id, out, keep) })
    }
    /// As lookup, but what it finds counts as stale, as for a request with `Cache-Control: no-cache`: it is fresh only if it is fresh for ever. WRONG_PHASE of a request that was opened with `lock`, so such validations are not collapsed.
    pub fn lookup_stale(&mut self, id: u64) -> Held {
        Held::filled(|out, keep| unsafe { cache_tier1_lookup_stale(self.at.as_ptr(), id, out, keep) })
    }
    /// Reads on in what was found or is being written: DATA (response->body), PENDING or END.
    pub fn read(&mut self, id: u64) -> Held {
        Held::filled(|out, keep| unsafe { cache_tier1_read(self.at.as_ptr(), id, out, keep) })
    }
    /// The finished response of a key, fresh or stale; no lookup and no use. NO_ITEM also if a write is all there is.
    pub fn peek(&mut self, key: &Key<'_>) -> Held {
        Held::filled(|out, keep| unsafe { cache_tier1_peek(self.at.as_ptr(), key.is_digest, key.bytes.as_ptr(), key.bytes.len(), out, keep) })
    }
    /// One of the entries that the last event evicted, also a refused one. Lent until the next event or get.
    pub fn evicted_entry(&mut self, index: u64) -> Option<OwnedEntry> {
        entry(|out| unsafe { cache_tier1_evicted_entry(self.at.as_ptr(), index, out) })
    }
    /// Takes a snapshot of a shard's LRU order, most recently used first; kept until the next snapshot.
    pub fn lru_snapshot(&mut self, shard: u64) -> Result {
        answered(|out| unsafe { cache_tier1_lru_snapshot(self.at.as_ptr(), shard, out) })
    }
    /// An entry of the snapshot, lent until the next snapshot.
    pub fn lru_entry(&mut self, index: u64) -> Option<OwnedEntry> {
        entry(|out| unsafe { cache_tier1_lru_entry(self.at.as_ptr(), index, out) })
    }
    /// Serializes the LRU order of each shard.
    pub fn lru_save(&mut self) -> Result {
        answered(|out| unsafe { cache_tier1_lru_save(self.at.as_ptr(), out) })
    }
    /// Hands the serialized order of a shard to a new tier: OK or MEMORY.
    pub fn lru_load(&mut self, shard: u64, content: &[u8]) -> Result {
        answered(|out| unsafe { cache_tier1_lru_load(self.at.as_ptr(), shard, content.as_ptr(), content.len(), out) })
    }
    /// Restores the LRU order from what was loaded; refused as NOT_NEW once the tier was used.
    pub fn lru_restore(&mut self) -> Result {
        answered(|out| unsafe { cache_tier1_lru_restore(self.at.as_ptr(), out) })
    }
    /// The sum of the entries' weights, which max_bytes bounds, and how many there are: `weight` and `entries`, in constant time.
    pub fn weight(&mut self) -> Result {
        answered(|out| unsafe { cache_tier1_weight(self.at.as_ptr(), out) })
    }
    /// The counters. It takes time in proportion to the number of bodies.
    pub fn get_stats(&mut self) -> Stats {
        let mut out = Stats::default();
        unsafe { cache_tier1_get_stats(self.at.as_ptr(), &mut out) };
        out
    }
}
