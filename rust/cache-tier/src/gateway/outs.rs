//! What a call answers.
use super::enums::{ClientEnd, Fetch, OriginAction, Reuse};
use super::partitions::Handle;
use super::raw::{event, list, status};
use crate::ffi::gateway::HeldOut;
use crate::{Digest, Moment};
use std::convert::TryFrom;
use std::fmt;

/// How a call ended. Of the last five nothing was changed, but that `Memory` may come in the middle: then the exchange is to be ended, by `client_closed` and
/// `origin_closed`, and all others are to be polled.
#[derive(Clone, Copy, Debug, PartialEq, Eq, Hash)]
#[non_exhaustive]
pub enum Status {
    Done,
    /// Come again with more bytes.
    NeedMore,
    /// The client lacks so much that nothing more is taken, before [`OriginAction::Continue`].
    Blocked,
    NoExchange,
    WrongPhase,
    BadArgument,
    Memory,
    /// A status that this crate doesn't know.
    Unknown,
}

/// What was done, for logs and counts: keys by their digests.
#[derive(Clone, Copy, Debug, PartialEq, Eq)]
#[non_exhaustive]
pub enum Event {
    /// `leads`: others wait for it.
    Requested {
        fetch: Fetch,
        key: Option<Digest>,
        leads: bool,
    },
    Hit(Reuse),
    Waiting,
    Collapsed(Reuse),
    StaleOnError,
    Stored(Option<Digest>),
    Completed(Option<Digest>),
    Truncated,
    /// With its status code.
    Relayed(u64),
    Revalidated,
    Freshened(Option<Digest>),
    /// The status code, and the number of a reason of the rules, which [`Reason::from_word`](crate::rules::Reason::from_word) names.
    Generated(u64, u64),
    Purged(Option<Digest>),
    /// Under the key stands now which request fields choose among responses.
    VaryIndex(Option<Digest>),
    PurgedAll,
    Unknown,
}

/// What a call answers. It owns what it lends, whatever is called meanwhile, and after the gateway's end; it may be sent to other threads.
pub struct Out {
    held: HeldOut,
    // Where its exchange is, and which exchanges of other partitions are woken, or its own.
    partition: usize,
    others: Vec<Handle>,
}
impl Out {
    pub(super) fn of(held: HeldOut) -> Out {
        Out { held, partition: 0, others: Vec::new() }
    }
    /// A wait, of an exchange that gives nothing before others were purged.
    pub(super) fn waits(exchange: u64) -> Out {
        let mut held = HeldOut::plain(status::DONE, exchange);
        held.raw.client = ClientEnd::Wait.word();
        Out::of(held)
    }
    /// Of an exchange that no partition has.
    pub(super) fn unknown() -> Out {
        Out::of(HeldOut::plain(status::NO_EXCHANGE, 0))
    }
    pub(super) fn in_partition(mut self, partition: usize) -> Out {
        self.partition = partition;
        self
    }
    pub(super) fn wake(&mut self, handle: Handle) {
        if !self.wakes().any(|it| it == handle) {
            self.others.push(handle);
        }
    }
    /// Of a purge, with what the same one did in another partition.
    pub(super) fn also(&mut self, other: &Out) {
        self.held.raw.found |= other.held.raw.found;
        other.wakes().for_each(|it| self.wake(it));
    }
    pub fn status(&self) -> Status {
        match self.held.raw.status {
            status::DONE => Status::Done,
            status::NEED_MORE => Status::NeedMore,
            status::BLOCKED => Status::Blocked,
            status::NO_EXCHANGE => Status::NoExchange,
            crate::raw::status::WRONG_PHASE => Status::WrongPhase,
            crate::raw::status::BAD_ARGUMENT => Status::BadArgument,
            crate::raw::status::MEMORY => Status::Memory,
            _ => Status::Unknown,
        }
    }
    /// Of `start`: its number.
    pub fn exchange(&self) -> u64 {
        self.held.raw.exchange
    }
    /// Bytes that are done with.
    pub fn used(&self) -> usize {
        self.held.raw.used as usize
    }
    /// What comes behind the pieces.
    pub fn client(&self) -> ClientEnd {
        ClientEnd::from_word(self.held.raw.client)
    }
    /// The pieces for the client, in their order; a stored body is lent without a copy.
    pub fn pieces(&self) -> impl ExactSizeIterator<Item = &[u8]> {
        (0..self.held.raw.pieces as usize).map(move |it| self.held.bytes(list::PIECES, it))
    }
    pub fn origin(&self) -> OriginAction {
        OriginAction::from_word(self.held.raw.origin)
    }
    /// What goes on the origin's connection.
    pub fn to_origin(&self) -> &[u8] {
        self.held.to_origin()
    }
    /// Of `start`: the request's body goes to `request_data`.
    pub fn body_follows(&self) -> bool {
        self.held.raw.body_follows != 0
    }
    /// Of `request_data`: the request's body is over.
    pub fn last(&self) -> bool {
        self.held.raw.last != 0
    }
    /// Of `purge`: something was there.
    pub fn found(&self) -> bool {
        self.held.raw.found != 0
    }
    /// Poll at that moment.
    pub fn at(&self) -> Option<Moment> {
        Some(Moment::of(self.held.raw.at)).filter(|_| self.held.raw.has_at != 0)
    }
    /// Exchanges to poll; of one gateway all are of partition 0.
    pub fn wakes(&self) -> impl Iterator<Item = Handle> + '_ {
        let own = (0..self.held.raw.wakes as usize).map(move |it| Handle { partition: self.partition, exchange: self.held.item(list::WAKES, it).number });
        own.chain(self.others.iter().copied())
    }
    /// Keys to purge in the other partitions.
    pub fn purges(&self) -> impl ExactSizeIterator<Item = &[u8]> {
        (0..self.held.raw.purges as usize).map(move |it| self.held.bytes(list::PURGES, it))
    }
    /// Keys that went for room.
    pub fn evicted(&self) -> impl ExactSizeIterator<Item = Digest> + '_ {
        (0..self.held.raw.evicted as usize).map(move |it| digest(self.held.bytes(list::EVICTED, it)).unwrap_or(Digest([0; 16])))
    }
    /// What was done.
    pub fn events(&self) -> impl ExactSizeIterator<Item = Event> + '_ {
        (0..self.held.raw.events as usize).map(move |it| self.event(it))
    }
    fn event(&self, place: usize) -> Event {
        let (it, key) = (self.held.item(list::EVENTS, place), digest(self.held.bytes(list::EVENTS, place)));
        match it.number {
            event::REQUESTED => Event::Requested { fetch: Fetch::from_word(it.first), key, leads: it.second != 0 },
            event::HIT => Event::Hit(Reuse::from_word(it.first)),
            event::WAITING => Event::Waiting,
            event::COLLAPSED => Event::Collapsed(Reuse::from_word(it.first)),
            event::STALE_ON_ERROR => Event::StaleOnError,
            event::STORED => Event::Stored(key),
            event::COMPLETED => Event::Completed(key),
            event::TRUNCATED => Event::Truncated,
            event::RELAYED => Event::Relayed(it.first),
            event::REVALIDATED => Event::Revalidated,
            event::FRESHENED => Event::Freshened(key),
            event::GENERATED => Event::Generated(it.first, it.second),
            event::PURGED => Event::Purged(key),
            event::VARY_INDEX => Event::VaryIndex(key),
            event::PURGED_ALL => Event::PurgedAll,
            _ => Event::Unknown,
        }
    }
}
fn digest(bytes: &[u8]) -> Option<Digest> {
    <[u8; 16]>::try_from(bytes).ok().map(Digest)
}
impl fmt::Debug for Out {
    fn fmt(&self, f: &mut fmt::Formatter<'_>) -> fmt::Result {
        write!(f, "Out({:?}, {:?}, {:?}, {} pieces)", self.status(), self.client(), self.origin(), self.held.raw.pieces)
    }
}
