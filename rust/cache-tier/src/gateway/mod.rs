//! The gateway: the protocol between HTTP's rules and a tier as one value. It is given bytes and moments and gives bytes to send: it opens no socket, starts no
//! thread and reads no clock. What a program over it owes it, a mover of bytes, the library's header `cache_gateway.h` says. A call that isn't lawful is
//! answered by its status, and changes nothing.
//!
//! ```
//! use cache_tier::gateway::{ClientEnd, Gateway, Limits, OriginAction, Parsed};
//! use cache_tier::{rules::Options, Moment};
//! let (now, ask) = (Moment::at(1000), b"GET /a HTTP/1.1\r\nHost: a.example\r\n\r\n");
//! let mut gateway = Gateway::new(now, b"sixteen random..", &Limits::default(), &Options::default())?;
//! let whole = |it| match it {
//!     Parsed::Head(head) => head,
//!     Parsed::More => panic!("more bytes are wanted"),
//! };
//! let request = whole(gateway.parse_request(ask, 0)?);
//! let out = gateway.start(now, request, b"127.0.0.1");
//! assert_eq!((out.origin(), out.client()), (OriginAction::SendRequest, ClientEnd::Wait)); // a miss: to_origin goes to the origin
//! let exchange = out.exchange();
//! gateway.response_head(now, exchange, b"HTTP/1.1 200 OK\r\nCache-Control: max-age=60\r\nContent-Length: 5\r\n\r\n");
//! gateway.response_data(now, exchange, b"hello");
//! assert_eq!(gateway.poll(now, exchange).client(), ClientEnd::End);
//! let request = whole(gateway.parse_request(ask, 0)?);
//! let out = gateway.start(now, request, b"127.0.0.1"); // a hit: its body is lent
//! assert_eq!((out.client(), out.pieces().last()), (ClientEnd::End, Some(&b"hello"[..])));
//! # Ok::<(), cache_tier::Error>(())
//! ```
mod enums;
mod outs;
mod partitions;
pub(crate) mod raw;

pub use enums::{ClientEnd, Closed, Fetch, OriginAction, Reuse};
pub use outs::{Event, Out, Status};
pub use partitions::{Gateways, Handle};

use crate::ffi::gateway::{self as ffi, HeldRequest, Room};
use crate::raw::status;
use crate::rules;
use crate::{Error, Moment};
use std::fmt;
use std::sync::Arc;

/// The bounds of one gateway; each is at least 1.
#[derive(Clone, Debug)]
#[non_exhaustive]
pub struct Limits {
    /// Of the tier; of what is in flight, half of that.
    pub max_bytes: u64,
    /// Seconds that a permit to fetch holds.
    pub lock_age: u64,
    /// Seconds that an exchange waits for others' permits, in all.
    pub lock_timeout: u64,
    /// One more is answered 503.
    pub max_exchanges: u64,
    /// Of a body that is stored.
    pub max_body_bytes: u64,
    /// Relayed, and not taken by the client.
    pub max_relay_bytes: u64,
    /// Of a body that comes for nobody.
    pub max_unread: u64,
    /// Heads from 100 to 199 of one response.
    pub max_interim_responses: u64,
    /// Seconds up to a response's first byte.
    pub first_byte_timeout: u64,
    /// Seconds between its bytes.
    pub between_bytes_timeout: u64,
    /// Keys whose next response won't be stored, as their last one wasn't.
    pub max_predicted: u64,
    /// Seconds.
    pub predicted_seconds: u64,
    /// Random and secret where strangers choose keys.
    pub hash_seed: u64,
    /// Of what came of a body past `max_body_bytes`, and its own client hasn't taken.
    pub max_tail: u64,
}
impl Default for Limits {
    fn default() -> Limits {
        let it = raw::Limits::DEFAULT;
        Limits {
            max_bytes: it.max_bytes,
            lock_age: it.lock_age,
            lock_timeout: it.lock_timeout,
            max_exchanges: it.max_exchanges,
            max_body_bytes: it.max_body_bytes,
            max_relay_bytes: it.max_relay_bytes,
            max_unread: it.max_unread,
            max_interim_responses: it.max_interim_responses,
            first_byte_timeout: it.first_byte_timeout,
            between_bytes_timeout: it.between_bytes_timeout,
            max_predicted: it.max_predicted,
            predicted_seconds: it.predicted_seconds,
            hash_seed: it.hash_seed,
            max_tail: it.max_tail,
        }
    }
}
impl Limits {
    fn raw(&self) -> raw::Limits {
        raw::Limits {
            max_bytes: self.max_bytes,
            lock_age: self.lock_age,
            lock_timeout: self.lock_timeout,
            max_exchanges: self.max_exchanges,
            max_body_bytes: self.max_body_bytes,
            max_relay_bytes: self.max_relay_bytes,
            max_unread: self.max_unread,
            max_interim_responses: self.max_interim_responses,
            first_byte_timeout: self.first_byte_timeout,
            between_bytes_timeout: self.between_bytes_timeout,
            max_predicted: self.max_predicted,
            predicted_seconds: self.predicted_seconds,
            hash_seed: self.hash_seed,
            max_tail: self.max_tail,
            reserved: [0; 2],
        }
    }
}

/// What a gateway holds.
#[derive(Clone, Copy, Debug, Default, PartialEq, Eq)]
#[non_exhaustive]
pub struct Counts {
    /// Open exchanges.
    pub exchanges: u64,
    /// Bytes of its whole bodies, as `max_bytes` bounds them.
    pub weight: u64,
    /// How many whole bodies it has.
    pub tracked: u64,
}

/// The head of a request that was parsed: [`Gateway::start`] takes it.
pub struct RequestHead {
    held: HeldRequest,
}
impl RequestHead {
    /// Bytes of the head: gone from the connection.
    pub fn head_len(&self) -> usize {
        self.held.raw.head_len as usize
    }
    /// It can't be read: `start` answers why.
    pub fn is_rejected(&self) -> bool {
        self.held.raw.is_rejected != 0
    }
    /// Its key; this and what follows is empty where it is rejected.
    pub fn key(&self) -> &[u8] {
        self.held.key()
    }
    pub fn method(&self) -> &[u8] {
        self.held.method()
    }
    pub fn host(&self) -> &[u8] {
        self.held.host()
    }
    /// What its request line has.
    pub fn target(&self) -> &[u8] {
        self.held.target()
    }
    /// The partition of so many that has its key; 0 of none.
    pub fn partition(&self, count: usize) -> usize {
        ((u128::from(self.held.raw.place & 0xffff_ffff) * count as u128) >> 32) as usize
    }
}
impl fmt::Debug for RequestHead {
    fn fmt(&self, f: &mut fmt::Formatter<'_>) -> fmt::Result {
        write!(f, "RequestHead({})", String::from_utf8_lossy(self.key()))
    }
}

/// What may come of a request's head.
#[derive(Debug)]
pub enum Parsed {
    /// It goes on.
    More,
    /// It is whole; it may be one that is rejected.
    Head(RequestHead),
}

/// The options by which requests are parsed: they never change, so no lock is needed. A clone is the same ones.
#[derive(Clone, Debug)]
pub struct Parser {
    options: Arc<(rules::raw::Options, Vec<u8>)>,
}
impl Parser {
    /// The head of the next request, also of one that is rejected. `looked`: so many of these bytes were given before. An error is a call out of memory.
    pub fn parse_request(&self, data: &[u8], looked: usize) -> Result<Parsed, Error> {
        let held = ffi::parse_request(&self.options.0, &self.options.1, data, looked as u64);
        match held.raw.status {
            raw::status::DONE => Ok(Parsed::Head(RequestHead { held })),
            raw::status::NEED_MORE => Ok(Parsed::More),
            refused => Err(Error::plain(refused)),
        }
    }
}

/// A gateway. One call at a time, so the compiler sees to its lock; [`Parser`] needs none.
pub struct Gateway {
    room: Room,
    parser: Parser,
}
impl fmt::Debug for Gateway {
    fn fmt(&self, f: &mut fmt::Formatter<'_>) -> fmt::Result {
        f.write_str("Gateway")
    }
}
impl Gateway {
    /// A gateway without an exchange. `started`: the present moment; `secret`: at least 16 random bytes.
    pub fn new(started: Moment, secret: &[u8], limits: &Limits, options: &rules::Options) -> Result<Gateway, Error> {
        if !ffi::has_room() {
            return Err(Error::plain(status::BAD_ARGUMENT));
        }
        let (numbers, text) = (options.raw(), options.text());
        let room = Room::new(started.raw(), &limits.raw(), &numbers, &text, secret).map_err(Error::plain)?;
        Ok(Gateway { room, parser: Parser { options: Arc::new((numbers, text)) } })
    }
    /// What parses its requests.
    pub fn parser(&self) -> Parser {
        self.parser.clone()
    }
    /// [`Parser::parse_request`].
    pub fn parse_request(&self, data: &[u8], looked: usize) -> Result<Parsed, Error> {
        self.parser.parse_request(data, looked)
    }
    /// A request begins. Its first `poll` is in it: a hit is this one call. `peer`: the client's address.
    pub fn start(&mut self, now: Moment, request: RequestHead, peer: &[u8]) -> Out {
        Out::of(self.room.start(now.raw(), request.held, peer))
    }
    /// What the client is sent next, and what is due on either side.
    pub fn poll(&mut self, now: Moment, exchange: u64) -> Out {
        Out::of(self.room.poll(now.raw(), exchange))
    }
    /// Bytes of the request's body, as they came.
    pub fn request_data(&mut self, now: Moment, exchange: u64, data: &[u8]) -> Out {
        Out::of(self.room.request_data(now.raw(), exchange, data))
    }
    /// Bytes of the origin's connection, from the response's head on. The first call of a head is its arrival.
    pub fn response_head(&mut self, now: Moment, exchange: u64, data: &[u8]) -> Out {
        Out::of(self.room.response_head(now.raw(), exchange, data))
    }
    /// Bytes of the response's body, as they came.
    pub fn response_data(&mut self, now: Moment, exchange: u64, data: &[u8]) -> Out {
        Out::of(self.room.response_data(now.raw(), exchange, data))
    }
    /// The origin's connection ended.
    pub fn origin_closed(&mut self, now: Moment, exchange: u64, closed: Closed) -> Out {
        Out::of(self.room.origin_closed(now.raw(), exchange, closed.word()))
    }
    /// The client went away.
    pub fn client_closed(&mut self, now: Moment, exchange: u64) -> Out {
        Out::of(self.room.client_closed(now.raw(), exchange))
    }
    /// Purges a URL as people write it: [`Out::found`] says whether anything was there.
    pub fn purge(&mut self, url: &[u8]) -> Out {
        Out::of(self.room.purge(url))
    }
    /// Purges a key that another partition named.
    pub fn purge_key(&mut self, key: &[u8]) -> Out {
        Out::of(self.room.purge_key(key))
    }
    /// Purges everything: nothing that was asked until now answers who asks from now on, and nothing that is on its way is stored. Who asked before may get
    /// what is stale in the place of an error.
    pub fn purge_all(&mut self, now: Moment) -> Out {
        Out::of(self.room.purge_all(now.raw()))
    }
    /// Before an end: each exchange that begins from now on says that its connection ends behind the answer.
    pub fn stop(&mut self) {
        self.room.stop()
    }
    /// How many exchanges are open.
    pub fn exchanges(&mut self) -> u64 {
        self.counts().exchanges
    }
    /// What it holds, in constant time.
    pub fn counts(&mut self) -> Counts {
        let it = self.room.counts();
        Counts { exchanges: it.exchanges, weight: it.weight, tracked: it.tracked }
    }
}
