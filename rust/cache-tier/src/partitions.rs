//! Several tiers, each with a lock of its own.
use crate::given::{Digest, Meta, Moment, Options};
use crate::raw::status;
use crate::response::Response;
use crate::tier::{Lookup, Read, Tier};
use crate::words::{Error, LockStatus, Stats, Stored};
use std::fmt;
use std::sync::{Arc, Mutex, MutexGuard, PoisonError};

struct Partition {
    tier: Tier,
    next: u64,
}
/// Several tiers, each with its own lock and its share of the limits. A clone is the same partitions. A lock is held for one call, and for `with_tier`,
/// `with_tier_of` and `for_each_tier`; never over an await. Within them no other call of the partitions is made, and no request of them dropped. All calls
/// for a key go to the tier of its digest, so each key has the promise of one tier.
///
/// ```
/// use cache_tier::{Digest, Meta, Moment, Options, Partitions};
/// let partitions = Partitions::new(&Options::new(1 << 30, 2), 4)?;
/// let (key, now) = (Digest::of(b"/a"), Moment::at(1000));
/// partitions.put(now, &key, b"HTTP/1.1 200 OK\r\n\r\n", b"hello", &Meta::ttl(now, 60))?;
/// assert_eq!(partitions.get(Moment::at(1030), &key)?.unwrap().body(), b"hello");
/// # Ok::<(), cache_tier::Error>(())
/// ```
#[derive(Clone)]
pub struct Partitions {
    every: Arc<[Mutex<Partition>]>,
}
impl fmt::Debug for Partitions {
    fn fmt(&self, f: &mut fmt::Formatter<'_>) -> fmt::Result {
        write!(f, "Partitions({})", self.every.len())
    }
}
fn share(limit: u64, count: u64, partition: u64) -> u64 {
    limit / count + u64::from(partition < limit % count)
}
#[allow(clippy::len_without_is_empty)] // there is one at least
impl Partitions {
    /// One partition is a shared tier. Each has one LRU shard, and its share of `max_bytes` and `max_entries`: what is larger than its share never stays.
    pub fn new(options: &Options, count: usize) -> Result<Partitions, Error> {
        let all = count as u64;
        if all == 0 || all >= 1 << 32 {
            return Err(Error::plain(status::BAD_ARGUMENT));
        }
        let of = |partition: u64| {
            let mut own = Options { lru_shards: 1, max_bytes: share(options.max_bytes, all, partition), ..options.clone() };
            own.max_entries = options.max_entries.map(|it| share(it, all, partition));
            own.eviction_seed = options.eviction_seed.wrapping_add(partition);
            Ok(Mutex::new(Partition { tier: Tier::new(&own)?, next: 0 }))
        };
        let every = (0..all).map(of).collect::<Result<Vec<_>, Error>>()?;
        Ok(Partitions { every: every.into() })
    }
    /// How many tiers there are.
    pub fn len(&self) -> usize {
        self.every.len()
    }
    /// The partition, also where a caller's own code panicked under its lock: each call of the library was whole.
    fn partition(&self, at: usize) -> MutexGuard<'_, Partition> {
        self.every[at].lock().unwrap_or_else(PoisonError::into_inner)
    }
    /// Several calls while the lock of a key's partition is held.
    pub fn with_tier_of<R>(&self, key: &Digest, run: impl FnOnce(&mut Tier) -> R) -> R {
        run(&mut self.partition(key.partition(self.every.len())).tier)
    }
    /// [`Tier::get`], by the digest, which is computed before, outside the lock.
    pub fn get(&self, now: Moment, key: &Digest) -> Result<Option<Response>, Error> {
        self.with_tier_of(key, |tier| tier.get(now, key))
    }
    /// Opens a request, which its drop closes.
    pub fn open(&self, key: &Digest, lock: bool) -> Result<Request, Error> {
        self.open_in(key.partition(self.every.len()), key, lock)
    }
    /// The same in a partition by its place.
    pub(crate) fn open_in(&self, at: usize, key: &Digest, lock: bool) -> Result<Request, Error> {
        let mut partition = self.partition(at);
        let id = partition.next;
        partition.next = id.wrapping_add(1); // first, so that a number at which an open is refused is not asked for again
        partition.tier.open(id, key, lock)?;
        drop(partition);
        Ok(Request { of: self.clone(), partition: at, id })
    }
    /// [`Tier::purge`].
    pub fn purge(&self, key: &Digest) -> Result<bool, Error> {
        self.with_tier_of(key, |tier| tier.purge(key))
    }
    /// [`Tier::put`].
    pub fn put(&self, now: Moment, key: &Digest, head: &[u8], body: &[u8], meta: &Meta) -> Result<Stored, Error> {
        self.with_tier_of(key, |tier| tier.put(now, key, head, body, meta))
    }
    /// [`Tier::peek`].
    pub fn peek(&self, key: &Digest) -> Result<Option<Response>, Error> {
        self.with_tier_of(key, |tier| tier.peek(key))
    }
    /// Each tier, one after the other, as for a save.
    pub fn for_each_tier<R>(&self, mut run: impl FnMut(usize, &mut Tier) -> R) -> Vec<R> {
        (0..self.every.len()).map(|at| self.with_tier(at, |tier| run(at, tier))).collect()
    }
    /// Several calls while the lock of one partition is held, by its place.
    pub fn with_tier<R>(&self, at: usize, run: impl FnOnce(&mut Tier) -> R) -> R {
        run(&mut self.partition(at).tier)
    }
    /// [`Tier::weight`], summed over the tiers.
    pub fn weight(&self) -> (u64, u64) {
        self.for_each_tier(|_, tier| tier.weight()).into_iter().fold((0, 0), |all, it| (all.0 + it.0, all.1 + it.1))
    }
    /// Summed over the tiers, one after the other.
    pub fn stats(&self) -> Stats {
        self.for_each_tier(|_, tier| tier.stats()).into_iter().fold(Stats::default(), Stats::plus)
    }
}

/// An open request. It keeps its partitions; its drop takes the lock and closes it. What it read doesn't need it.
pub struct Request {
    of: Partitions,
    partition: usize,
    id: u64,
}
impl fmt::Debug for Request {
    fn fmt(&self, f: &mut fmt::Formatter<'_>) -> fmt::Result {
        write!(f, "Request({} of partition {})", self.id, self.partition)
    }
}
impl Request {
    /// [`Tier::lookup`].
    pub fn lookup(&mut self, now: Moment) -> Result<Lookup, Error> {
        self.with_tier(|tier, id| tier.lookup(now, id))
    }
    /// [`Tier::lookup_stale`], of a request that was opened without `lock`.
    pub fn lookup_stale(&mut self) -> Result<Lookup, Error> {
        self.with_tier(|tier, id| tier.lookup_stale(id))
    }
    /// [`Tier::poll`].
    pub fn poll(&mut self, now: Moment) -> Result<Option<LockStatus>, Error> {
        self.with_tier(|tier, id| tier.poll(now, id))
    }
    /// [`Tier::begin`].
    pub fn begin(&mut self, now: Moment, head: &[u8], meta: &Meta) -> Result<(), Error> {
        self.with_tier(|tier, id| tier.begin(now, id, head, meta))
    }
    /// [`Tier::revalidate`].
    pub fn revalidate(&mut self, now: Moment, head: &[u8], meta: &Meta) -> Result<Vec<Digest>, Error> {
        self.with_tier(|tier, id| tier.revalidate(now, id, head, meta))
    }
    /// [`Tier::write`].
    pub fn write(&mut self, data: &[u8], last: bool) -> Result<(), Error> {
        self.with_tier(|tier, id| tier.write(id, data, last))
    }
    /// [`Tier::finish`].
    pub fn finish(&mut self) -> Result<Stored, Error> {
        self.with_tier(|tier, id| tier.finish(id))
    }
    /// [`Tier::give_up`].
    pub fn give_up(&mut self) -> Result<(), Error> {
        self.with_tier(|tier, id| tier.give_up(id))
    }
    /// [`Tier::read`].
    pub fn read(&mut self) -> Result<Read, Error> {
        self.with_tier(|tier, id| tier.read(id))
    }
    /// Several calls while the lock is held, as a finish and the renames of files.
    pub fn with_tier<R>(&mut self, run: impl FnOnce(&mut Tier, u64) -> R) -> R {
        run(&mut self.of.partition(self.partition).tier, self.id)
    }
}
impl Drop for Request {
    fn drop(&mut self) {
        let _closed = self.with_tier(|tier, id| tier.close(id)); // it takes no memory, and is never refused for want of it
    }
}
