//! A body that is fetched.
use super::directory::Directory;
use super::flight::Flight;
use super::folder::held;
use super::index::{BodyKey, HotIndex, StoreError};
use super::key_lock::{takes_back, KeyLock};
use super::landing::Taken;
use super::new_body::NewBody;
use super::partitions::{id_of, token_rest};
use super::store::Inner;
use crate::response::Response;
use crate::given::{Digest, Meta, Moment};
use crate::partitions::Request;
use crate::tier::Tier;
use crate::words::{Error, ErrorKind};
use std::fmt;
use std::io;
use std::sync::Arc;

/// Why a response is not stored. The answer to the client goes on.
#[derive(Debug)]
#[non_exhaustive]
pub enum WhyNotStored {
    /// Longer than `max_body` or than its partition's share.
    TooLarge,
    Disk(io::Error),
    /// A purge, another's write, or an eviction came meanwhile.
    Removed,
    /// Another length was announced: the response isn't whole.
    Length { announced: u64, came: u64 },
    /// Nothing was begun.
    NotBegun,
}
/// What a begin did.
#[derive(Debug)]
pub enum Begin {
    /// Others find it from now on.
    Storing,
    NotStored(WhyNotStored),
}
/// How a fetch or a put ended.
#[derive(Debug)]
pub enum Finish {
    /// It is stored, and has its file. The keys that the tier gave up for it: cold from now on, or gone.
    Stored { evicted: Vec<Digest> },
    NotStored(WhyNotStored),
}

/// What is being written.
struct Write {
    body: NewBody,
    flight: Arc<Flight>,
    /// The body so far, where it may stay in memory.
    inline: Option<Vec<u8>>,
    head: Vec<u8>,
    meta: Meta,
    failed: Option<WhyNotStored>,
}
/// A request that may fetch its key. Its drop gives up what was begun.
pub struct Fetch<D: Directory> {
    of: Arc<Inner<D>>,
    key: Digest,
    first: Digest,
    text: Vec<u8>,
    request: Option<Request>,
    write: Option<Write>,
}
impl<D: Directory> fmt::Debug for Fetch<D> {
    fn fmt(&self, f: &mut fmt::Formatter<'_>) -> fmt::Result {
        write!(f, "Fetch({})", self.key)
    }
}
impl<D: Directory> Fetch<D> {
    pub(crate) fn new(of: Arc<Inner<D>>, key: &BodyKey<'_>, request: Request) -> Fetch<D> {
        Fetch { of, key: key.key, first: key.first, text: key.text.to_vec(), request: Some(request), write: None }
    }
    /// Begins to store the response, with its head to its empty line, and what the caller says of it. `length`: of its body, where it is known.
    pub fn begin(&mut self, now: Moment, head: &[u8], meta: &Meta, length: Option<u64>) -> Result<Begin, Error> {
        let of = self.of.clone();
        if self.write.is_some() || self.request.is_none() {
            return Ok(Begin::NotStored(WhyNotStored::NotBegun));
        }
        if !of.fits(length.unwrap_or(0), head.len()) {
            let _told_by_its_end = self.request.as_mut().map(Request::give_up);
            self.end_request();
            return Ok(Begin::NotStored(WhyNotStored::TooLarge));
        }
        let (id, key) = (of.new_id(), BodyKey { key: self.key, first: self.first, text: &self.text });
        let body = match of.folder.create(&id, &key, head.len(), length) {
            Ok(it) => it,
            Err(why) => {
                self.end_request();
                return Ok(Begin::NotStored(WhyNotStored::Disk(why)));
            }
        };
        let flight = Arc::new(Flight::new(id, body.file.clone(), body.body_start(), length, of.options.max_tail));
        held(&of.flights).insert(id, flight.clone()); // before the tier shows it
        let meta = Meta { external_bytes: length.map_or(0, |it| body.file_bytes(it)), ..*meta };
        let inline = if length.unwrap_or(0) <= of.options.max_inline { Some(Vec::new()) } else { None };
        self.write = Some(Write { body, flight, inline, head: head.to_vec(), meta, failed: None });
        let begun = self.request.as_mut().map_or(Ok(()), |request| {
            request.with_tier(|tier, number| {
                tier.begin(now, number, head, &meta)?;
                tier.write(number, &id, false)
            })
        });
        if let Err(why) = begun {
            self.abandon();
            return Err(why);
        }
        of.waits.wake(&self.key);
        Ok(Begin::Storing)
    }
    /// Adds bytes. False: the response isn't stored (any more); go on with the answer, and with `write` for those who follow.
    pub fn write(&mut self, bytes: &[u8]) -> bool {
        let of = self.of.clone();
        let it = match &mut self.write {
            Some(it) => it,
            None => return false,
        };
        if it.failed.is_some() {
            it.flight.add_unfiled(bytes);
            return false;
        }
        let length = it.body.length().saturating_add(bytes.len() as u64);
        let appended = if of.fits(length, it.head.len()) {
            of.folder.append(&mut it.body, bytes).map_err(WhyNotStored::Disk)
        } else {
            Err(WhyNotStored::TooLarge)
        };
        if let Err(why) = appended {
            // Who asks from now on fetches for himself; who follows already is served on, from what is kept for him.
            it.failed = Some(why);
            it.flight.add_unfiled(bytes);
            self.end_request();
            self.end_storing();
            return false;
        }
        match &mut it.inline {
            Some(all) if length <= of.options.max_inline => all.extend_from_slice(bytes),
            _ => it.inline = None,
        }
        it.flight.add_filed(bytes.len() as u64);
        true
    }
    /// Bytes that are kept in memory for those who follow: where this grows to `max_tail` the slowest is cut off unless the next write waits.
    pub fn lag(&self) -> u64 {
        self.write.as_ref().map_or(0, |it| it.flight.lag())
    }
    /// Ends the write: what was written is the whole body.
    pub fn finish(mut self, now: Moment) -> Result<Finish, StoreError> {
        let mut it = match self.write.take() {
            Some(it) => it,
            None => return Ok(Finish::NotStored(WhyNotStored::NotBegun)),
        };
        let came = it.flight.came();
        let wrong = it.flight.announced.filter(|it| *it != came);
        if let Some(why) = it.failed.take() {
            it.flight.end(wrong.is_none());
            return Ok(Finish::NotStored(why));
        }
        if let Some(announced) = wrong {
            self.write = Some(it); // (its drop gives it up)
            return Ok(Finish::NotStored(WhyNotStored::Length { announced, came }));
        }
        let key = BodyKey { key: self.key, first: self.first, text: &[] };
        let rest = token_rest(key.partition(), it.inline.as_deref());
        let (head, meta) = (std::mem::take(&mut it.head), it.meta);
        let mut request = self.request.take();
        let ended = self.of.land(&key, &mut it.body, (&head, &meta), |external| match &mut request {
            Some(request) => {
                let write = Finished { now, key: &self.key, id: &it.flight.id, rest: &rest, head: &head, meta: Meta { external_bytes: external, ..meta } };
                request.with_tier(|tier, number| write.taken_by(tier, number, external != meta.external_bytes))
            }
            None => Err(Error::plain(crate::raw::status::BAD_ARGUMENT)), // (a write has its request)
        });
        it.flight.end(true); // (all of it came, and can be read)
        drop(request);
        held(&self.of.flights).remove(&it.flight.id);
        self.of.waits.wake(&self.key);
        ended
    }
    /// Renews what was found stale by the whole new head, and what the caller says of it. False: it was removed or replaced meanwhile: fetch it.
    pub fn revalidate(&mut self, now: Moment, head: &[u8], meta: &Meta) -> Result<bool, Error> {
        let (of, key) = (self.of.clone(), BodyKey { key: self.key, first: self.first, text: &[] });
        let request = match (&mut self.request, &self.write) {
            (Some(request), None) => request,
            _ => return Ok(false),
        };
        let done = of.folder.with_key(&key.key, |lock| {
            let (evicted, old, kept) = request.with_tier(|tier, number| {
                let old = tier.peek(&key.key)?;
                let evicted = tier.revalidate(now, number, head, meta)?;
                Ok::<_, Error>((evicted, old, tier.peek(&key.key)?))
            })?;
            let stays = match (old, kept) {
                (Some(old), Some(kept)) => of.renew_file(lock, &key, &old.meta(), &kept)?,
                _ => true,
            };
            Ok::<_, Error>((stays, evicted))
        });
        let (renewed, evicted) = match done {
            Ok((stays, evicted)) => (Ok(stays), evicted),
            Err(why) if why.kind == ErrorKind::NotStored => (Ok(false), Vec::new()),
            Err(why) => (Err(why.clone()), why.evicted),
        };
        of.folder.unlink_evicted(&of.index, &evicted, key.partition());
        of.waits.wake(&self.key);
        renewed
    }
    /// Says that the response won't be stored, as where it is private: who waits for it goes on at once, and what is stale stays.
    pub fn give_up(mut self) -> Result<(), Error> {
        match (&mut self.request, &self.write) {
            (Some(request), None) => request.give_up(), // (the drop wakes)
            _ => Ok(()),
        }
    }
    /// Gives the request back, and wakes who waits for it.
    fn end_request(&mut self) {
        if self.request.take().is_some() {
            self.of.waits.wake(&self.key);
        }
    }
    /// Nobody finds the flight any more; its file goes.
    fn end_storing(&self) {
        if let Some(it) = &self.write {
            held(&self.of.flights).remove(&it.flight.id);
            self.of.folder.discard(&it.flight.id);
        }
    }
    /// First the request, so that who finds the write finds its flight.
    fn abandon(&mut self) {
        self.end_request();
        if self.write.as_ref().map_or(false, |it| it.failed.is_none()) {
            self.end_storing();
        }
        if let Some(it) = self.write.take() {
            it.flight.end(false);
        }
    }
}
impl<D: Directory> Inner<D> {
    /// Writes a renewed head into its file. False: that failed, and the file's head allows what the new one takes back, so the body went.
    fn renew_file(&self, lock: &KeyLock<'_, D>, key: &BodyKey<'_>, old: &Meta, kept: &Response) -> Result<bool, Error> {
        let (meta, id) = (Meta { external_bytes: 0, ..kept.meta() }, id_of(kept.body()));
        let written = id.map_or(Ok(()), |id| lock.freshen(&id, &kept.to_head(), &meta));
        if written.is_ok() || !takes_back(old, &meta) {
            return Ok(true); // (a later start asks the origin once more)
        }
        let _told_by_the_stats = lock.unlink(self.index.purge(&key.key, key.partition())?.file_bytes);
        Ok(false)
    }
}
impl<D: Directory> Drop for Fetch<D> {
    fn drop(&mut self) {
        self.abandon();
    }
}
/// A finished write, as a tier takes it.
struct Finished<'a> {
    now: Moment,
    key: &'a Digest,
    id: &'a super::FileId,
    rest: &'a [u8],
    head: &'a [u8],
    meta: Meta,
}
impl Finished<'_> {
    /// `weigh`: the length wasn't known at the begin, so the same is put again, weighed with its file.
    fn taken_by(&self, tier: &mut Tier, number: u64, weigh: bool) -> Taken {
        let before = tier.peek(self.key)?.map(|it| it.external_bytes());
        tier.write(number, self.rest, true)?;
        let mut evicted = tier.finish(number)?.evicted;
        if weigh {
            let whole = [&self.id[..], self.rest].concat();
            match tier.put(self.now, self.key, self.head, &whole, &self.meta) {
                Ok(again) => evicted.extend(again.evicted),
                Err(mut why) => {
                    let _removed_or_absent = tier.purge(self.key);
                    why.evicted.extend(evicted);
                    why.body_removed = true;
                    return Err(why);
                }
            }
        }
        Ok((before, evicted))
    }
}
