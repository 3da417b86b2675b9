//! A tier.
use crate::ffi::{self, Held, Room};
use crate::given::{Digest, Key, Meta, Moment, Options};
use crate::raw::{self, status};
use crate::response::Response;
use crate::words::{Entry, Error, LockStatus, LruRestored, Permit, Stats, Stored};
use std::fmt;

/// What a lookup found. `complete`: all of the body is there; else it is still being written.
#[derive(Debug)]
#[allow(clippy::large_enum_variant)] // it is taken apart at once
pub enum Lookup {
    /// It may be read. It asked for no permit.
    Fresh { response: Response, complete: bool },
    /// It is past its moment: revalidate it, or fetch it anew, by the permit.
    Stale { response: Response, complete: bool, permit: Permit },
    Miss { permit: Permit },
}
impl Lookup {
    /// What was found, fresh or stale.
    pub fn into_response(self) -> Option<Response> {
        match self {
            Lookup::Fresh { response, .. } | Lookup::Stale { response, .. } => Some(response),
            Lookup::Miss { .. } => None,
        }
    }
    /// The permit that was got: none of what is fresh.
    pub fn permit(&self) -> Permit {
        match self {
            Lookup::Fresh { .. } => Permit::None,
            Lookup::Stale { permit, .. } | Lookup::Miss { permit } => *permit,
        }
    }
}
/// What a read gave.
#[derive(Debug)]
#[non_exhaustive]
#[allow(clippy::large_enum_variant)] // it is taken apart at once
pub enum Read {
    /// Bytes of the body, perhaps none.
    Data(Response),
    /// More may come.
    Pending,
    /// No more comes. `complete`: what was read is a whole body; else its write was abandoned.
    End {
        complete: bool,
    },
}

/// One tier. It is called through `&mut`, so one call at a time is what the compiler checks; [`Partitions`](crate::Partitions) are shared among threads.
/// Each number that a request is named by is the caller's, unique among the open ones.
pub struct Tier {
    room: Room,
    shards: u64,
}
impl fmt::Debug for Tier {
    fn fmt(&self, f: &mut fmt::Formatter<'_>) -> fmt::Result {
        write!(f, "Tier({} shards)", self.shards)
    }
}
impl Tier {
    /// A new tier, with nothing in it.
    pub fn new(options: &Options) -> Result<Tier, Error> {
        let room = Room::new(&options.raw()).map_err(Error::plain)?;
        Ok(Tier { room, shards: options.lru_shards })
    }
    fn evicted(&mut self, result: &raw::Result) -> Vec<Digest> {
        (0..result.evicted).filter_map(|index| self.room.evicted_entry(index)).filter_map(Entry::of).map(|it| it.key()).collect()
    }
    /// The result of a call that wasn't refused.
    fn done(&mut self, result: raw::Result) -> Result<raw::Result, Error> {
        if result.status >= status::FIRST_DONE {
            return Ok(result);
        }
        let (body_removed, entry_removed) = (result.body_removed != 0, result.entry_removed != 0);
        Err(Error { body_removed, entry_removed, evicted: self.evicted(&result), ..Error::plain(result.status) })
    }
    /// The stored response if it is fresh and complete, in one call; counts as a use. None: nothing has changed, not even a counter; go on with `open`.
    pub fn get<'a>(&mut self, now: Moment, key: impl Into<Key<'a>>) -> Result<Option<Response>, Error> {
        let held = key.into().lent(|key| self.room.get(now.raw(), key));
        Ok(if self.done(held.raw.result)?.status == status::NO_HIT { None } else { Some(Response { held }) })
    }
    /// Opens a request by a number that isn't open. With `lock` its lookups ask for the permit to write if they find nothing fresh.
    pub fn open<'a>(&mut self, id: u64, key: impl Into<Key<'a>>, lock: bool) -> Result<(), Error> {
        let result = key.into().lent(|key| self.room.open(id, lock, key));
        self.done(result).map(|_| ())
    }
    /// Looks up what is stored or being written under the request's key, with its head. A complete one counts as a use. What `read` gives then is of the
    /// same response.
    pub fn lookup(&mut self, now: Moment, id: u64) -> Result<Lookup, Error> {
        let held = self.room.lookup(now.raw(), id);
        self.found(held)
    }
    /// The same, but what it finds counts as stale, as for a request with `Cache-Control: no-cache`: it is fresh only if it is fresh for ever. `WrongPhase`
    /// of a request that was opened with `lock`, so such validations are not collapsed.
    pub fn lookup_stale(&mut self, id: u64) -> Result<Lookup, Error> {
        let held = self.room.lookup_stale(id);
        self.found(held)
    }
    fn found(&mut self, held: Held) -> Result<Lookup, Error> {
        let result = self.done(held.raw.result)?;
        let (complete, permit) = (result.complete != 0, Permit::from_word(result.permit));
        Ok(match (result.status == status::FOUND, result.fresh != 0) {
            (false, _) => Lookup::Miss { permit },
            (true, true) => Lookup::Fresh { response: Response { held }, complete },
            (true, false) => Lookup::Stale { response: Response { held }, complete, permit },
        })
    }
    /// How the wait for another request's permit ended; none: it goes on.
    pub fn poll(&mut self, now: Moment, id: u64) -> Result<Option<LockStatus>, Error> {
        let result = self.room.poll(now.raw(), id);
        let result = self.done(result)?;
        Ok(if result.status == status::WAIT_ENDED { Some(LockStatus::from_word(result.lock_status())) } else { None })
    }
    /// Begins a write with the head of the response, up to its empty line. Other requests find it from now on; the permit is given back.
    pub fn begin(&mut self, now: Moment, id: u64, head: &[u8], meta: &Meta) -> Result<(), Error> {
        let result = self.room.begin(now.raw(), id, head, &meta.raw());
        self.done(result).map(|_| ())
    }
    /// Replaces head and metadata of the stale response that the last lookup found, and gives the keys of the bodies that were evicted. `NotStored`: it
    /// was removed or replaced meanwhile.
    pub fn revalidate(&mut self, now: Moment, id: u64, head: &[u8], meta: &Meta) -> Result<Vec<Digest>, Error> {
        let result = self.room.revalidate(now.raw(), id, head, &meta.raw());
        let result = self.done(result)?;
        Ok(self.evicted(&result))
    }
    /// Adds bytes to the body. `last`: none follow. `BodyTooLarge`: nothing was written; close the request.
    pub fn write(&mut self, id: u64, data: &[u8], last: bool) -> Result<(), Error> {
        let result = self.room.write(id, last, data);
        self.done(result).map(|_| ())
    }
    /// Ends the write: the bytes so far are the body, whatever Content-Length says. If bytes are missing, close the request instead.
    pub fn finish(&mut self, id: u64) -> Result<Stored, Error> {
        let result = self.room.finish(id);
        let result = self.done(result)?;
        Ok(Stored { body_len: result.body_len(), evicted: self.evicted(&result) })
    }
    /// Reads on in what was found or is being written.
    pub fn read(&mut self, id: u64) -> Result<Read, Error> {
        let held = self.room.read(id);
        let result = self.done(held.raw.result)?;
        Ok(match result.status {
            status::DATA => Read::Data(Response { held }),
            status::PENDING => Read::Pending,
            _ => Read::End { complete: result.complete != 0 },
        })
    }
    /// Closes the request, and abandons its write and its permit. False: no request with this number is open. It takes no memory.
    pub fn close(&mut self, id: u64) -> bool {
        self.room.close(id).status == status::CLOSED
    }
    /// Says that the response will not be stored, as a private one: who waits for the permit goes on at once, and what is stale stays. After it only
    /// `close` is allowed. It takes no memory.
    pub fn give_up(&mut self, id: u64) -> Result<(), Error> {
        let result = self.room.give_up(id);
        self.done(result).map(|_| ())
    }
    /// Removes what is stored or being written under the key: whether anything was.
    pub fn purge<'a>(&mut self, key: impl Into<Key<'a>>) -> Result<bool, Error> {
        let result = key.into().lent(|key| self.room.purge(key));
        Ok(self.done(result)?.status == status::PURGED)
    }
    /// Stores a whole response: the bytes of `head`, up to its empty line, and of `body`, whatever Content-Length says.
    pub fn put<'a>(&mut self, now: Moment, key: impl Into<Key<'a>>, head: &[u8], body: &[u8], meta: &Meta) -> Result<Stored, Error> {
        let result = key.into().lent(|key| self.room.put(now.raw(), key, head, body, &meta.raw()));
        let result = self.done(result)?;
        Ok(Stored { body_len: result.body_len(), evicted: self.evicted(&result) })
    }
    /// The finished response of a key, fresh or stale; no lookup and no use.
    pub fn peek<'a>(&mut self, key: impl Into<Key<'a>>) -> Result<Option<Response>, Error> {
        let held = key.into().lent(|key: &ffi::Key<'_>| self.room.peek(key));
        match held.raw.result.status {
            status::NO_ITEM => Ok(None),
            _ => self.done(held.raw.result).map(|_| Some(Response { held })),
        }
    }
    /// The entries of a shard, most recently used first.
    pub fn lru_entries(&mut self, shard: u64) -> Result<Vec<Entry>, Error> {
        let count = self.lru_snapshot(shard)?;
        Ok((0..count).filter_map(|index| self.lru_entry(index)).collect())
    }
    /// Takes a snapshot of a shard's LRU order for `lru_entry`, and tells how many entries it has.
    pub(crate) fn lru_snapshot(&mut self, shard: u64) -> Result<u64, Error> {
        let result = self.room.lru_snapshot(shard);
        Ok(self.done(result)?.entry_count())
    }
    /// An entry of the last snapshot.
    pub(crate) fn lru_entry(&mut self, index: u64) -> Option<Entry> {
        self.room.lru_entry(index).and_then(Entry::of)
    }
    /// The serialized LRU order, by shard; none where one wasn't saved. It has no body.
    pub fn lru_save(&mut self) -> Result<Vec<Option<Vec<u8>>>, Error> {
        let result = self.room.lru_save();
        self.done(result)?;
        let file = |shard| match self.room.lru_file(shard) {
            Ok(bytes) => Ok(Some(bytes)),
            Err(status::NO_ITEM) => Ok(None),
            Err(other) => Err(Error::plain(other)),
        };
        (0..self.shards).map(file).collect()
    }
    /// Restores the LRU order of a new tier from what was saved.
    pub fn lru_restore(&mut self, files: &[Option<&[u8]>]) -> Result<LruRestored, Error> {
        for (shard, file) in files.iter().enumerate() {
            if let Some(bytes) = file {
                let status = self.room.lru_load(shard as u64, bytes).status;
                if status != status::OK {
                    return Err(Error::plain(status));
                }
            }
        }
        let result = self.room.lru_restore();
        self.done(result).map(|it| LruRestored { ok: it.shards_ok(), missing: it.shards_missing(), corrupt: it.shards_corrupt })
    }
    /// The sum of the entries' weights, which `max_bytes` bounds, and how many there are, in constant time.
    pub fn weight(&mut self) -> (u64, u64) {
        let result = self.room.weight();
        (result.weight(), result.entries())
    }
    /// The counters. It takes time in proportion to the number of bodies.
    pub fn stats(&mut self) -> Stats {
        Stats::of(&self.room.get_stats())
    }
}
