//! The structs and numbers of `cache_gateway.h`. Written by tools/dev/interface.py: change the tables in embed, and run it with --write.
#![cfg_attr(rustfmt, rustfmt_skip)]
#![allow(dead_code)]

use crate::raw::{Moment, Slice};

/// The bounds of one gateway; each is at least 1. Start from cache_gateway_default_limits.
#[repr(C)]
#[derive(Clone, Copy, Debug)]
pub struct Limits {
    /// Of the tier; of what is in flight, half of that.
    pub max_bytes: u64,
    /// Seconds that a permit to fetch holds.
    pub lock_age: u64,
    /// Seconds that an exchange waits for others' permits, in all.
    pub lock_timeout: u64,
    /// Open exchanges; one more is answered 503.
    pub max_exchanges: u64,
    /// Of a body that is stored.
    pub max_body_bytes: u64,
    /// Relayed bytes that the client has not taken.
    pub max_relay_bytes: u64,
    /// Bytes of a body that comes for nobody.
    pub max_unread: u64,
    /// Heads from 100 to 199 of one response.
    pub max_interim_responses: u64,
    /// Seconds up to the first byte of a response.
    pub first_byte_timeout: u64,
    /// Seconds between its bytes.
    pub between_bytes_timeout: u64,
    /// Keys whose next response will not be stored, as their last one was not.
    pub max_predicted: u64,
    /// How long that holds.
    pub predicted_seconds: u64,
    /// Random where strangers choose keys.
    pub hash_seed: u64,
    /// Of what came of a body past max_body_bytes, and its own client has not taken.
    pub max_tail: u64,
    /// Set to 0.
    pub reserved: [u64; 2],
}
impl Limits {
    pub const ZERO: Limits = Limits {
        max_bytes: 0,
        lock_age: 0,
        lock_timeout: 0,
        max_exchanges: 0,
        max_body_bytes: 0,
        max_relay_bytes: 0,
        max_unread: 0,
        max_interim_responses: 0,
        first_byte_timeout: 0,
        between_bytes_timeout: 0,
        max_predicted: 0,
        predicted_seconds: 0,
        hash_seed: 0,
        max_tail: 0,
        reserved: [0; 2],
    };
}
impl Default for Limits {
    fn default() -> Limits {
        Limits::ZERO
    }
}
const _: () = assert!(std::mem::size_of::<Limits>() == 128);
/// The head of a request that was parsed, for cache_gateway_start alone. Initialize by `= CACHE_TIER_RESPONSE_INIT`; do not copy.
#[repr(C)]
#[derive(Clone, Copy, Debug)]
pub struct Request {
    /// DONE (also of one that is rejected: start answers it), NEED_MORE, MEMORY or BAD_ARGUMENT.
    pub status: u64,
    /// Bytes of the head: gone from the connection.
    pub head_len: u64,
    /// 1: it cannot be read, and start says why.
    pub is_rejected: u64,
    /// Of the digest of its key, by which cache_gateway_partition picks one.
    pub place: u64,
    /// Its key. What these four show stays till it is started or freed; of one that is rejected they are empty.
    pub key: Slice,
    pub method: Slice,
    pub host: Slice,
    /// What its request line has.
    pub target: Slice,
    pub reserved: [u64; 2],
}
impl Request {
    pub const ZERO: Request = Request {
        status: 0,
        head_len: 0,
        is_rejected: 0,
        place: 0,
        key: Slice::ZERO,
        method: Slice::ZERO,
        host: Slice::ZERO,
        target: Slice::ZERO,
        reserved: [0; 2],
    };
}
impl Default for Request {
    fn default() -> Request {
        Request::ZERO
    }
}
const _: () = assert!(std::mem::size_of::<Request>() == 112);
/// What keeps one of them: the library's own.
pub type RequestKeep = [u64; 40];
/// What a call answers. It owns the bytes that it lends until cache_gateway_out_free or the next call that fills it, whatever is called on the gateway meanwhile. Initialize by `= CACHE_TIER_RESPONSE_INIT`; do not copy.
#[repr(C)]
#[derive(Clone, Copy, Debug)]
pub struct Out {
    /// DONE, NEED_MORE or BLOCKED; else the call was refused.
    pub status: u64,
    /// Of start: its number.
    pub exchange: u64,
    /// Bytes that are done with.
    pub used: u64,
    /// One of cache_gateway_client, of start and poll.
    pub client: u64,
    /// One of cache_gateway_origin.
    pub origin: u64,
    /// Of start: the request's body goes to request_data.
    pub body_follows: u64,
    /// Of request_data: the request's body is over.
    pub last: u64,
    /// Of purge: something was there.
    pub found: u64,
    /// `at` says a moment.
    pub has_at: u64,
    /// Poll at that moment.
    pub at: Moment,
    /// What SEND_REQUEST and SEND_DATA write.
    pub to_origin: Slice,
    /// How many pieces there are for the client; cache_gateway_out_pieces lends them.
    pub pieces: u64,
    /// How many exchanges are woken.
    pub wakes: u64,
    /// How many keys went for room.
    pub evicted: u64,
    /// How many keys are to be purged in the other partitions.
    pub purges: u64,
    /// How many things were done.
    pub events: u64,
    pub reserved: [u64; 4],
}
impl Out {
    pub const ZERO: Out = Out {
        status: 0,
        exchange: 0,
        used: 0,
        client: 0,
        origin: 0,
        body_follows: 0,
        last: 0,
        found: 0,
        has_at: 0,
        at: Moment::ZERO,
        to_origin: Slice::ZERO,
        pieces: 0,
        wakes: 0,
        evicted: 0,
        purges: 0,
        events: 0,
        reserved: [0; 4],
    };
}
impl Default for Out {
    fn default() -> Out {
        Out::ZERO
    }
}
const _: () = assert!(std::mem::size_of::<Out>() == 176);
/// What keeps one of them: the library's own.
pub type OutKeep = [u64; 48];
/// An item of a list of an out.
#[repr(C)]
#[derive(Clone, Copy, Debug)]
pub struct Item {
    /// ITEM or NO_ITEM.
    pub status: u64,
    /// Of WAKES the exchange, of EVENTS one of cache_gateway_event.
    pub number: u64,
    /// As the event says.
    pub first: u64,
    /// As the event says.
    pub second: u64,
    /// Its bytes; they stay as long as the out.
    pub data: Slice,
    pub reserved: [u64; 2],
}
impl Item {
    pub const ZERO: Item = Item {
        status: 0,
        number: 0,
        first: 0,
        second: 0,
        data: Slice::ZERO,
        reserved: [0; 2],
    };
}
impl Default for Item {
    fn default() -> Item {
        Item::ZERO
    }
}
const _: () = assert!(std::mem::size_of::<Item>() == 64);
/// What a gateway holds.
#[repr(C)]
#[derive(Clone, Copy, Debug)]
pub struct Counts {
    /// Of its making: OK, MEMORY or BAD_ARGUMENT.
    pub status: u64,
    /// Open exchanges.
    pub exchanges: u64,
    /// What its whole bodies weigh, as against `max_bytes`.
    pub weight: u64,
    /// How many whole bodies it has.
    pub tracked: u64,
}
impl Counts {
    pub const ZERO: Counts = Counts {
        status: 0,
        exchanges: 0,
        weight: 0,
        tracked: 0,
    };
}
impl Default for Counts {
    fn default() -> Counts {
        Counts::ZERO
    }
}
const _: () = assert!(std::mem::size_of::<Counts>() == 32);
impl Limits {
    /// What a program has that chooses nothing.
    pub const DEFAULT: Limits = Limits {
        max_bytes: 268435456,
        lock_age: 10,
        lock_timeout: 60,
        max_exchanges: 4096,
        max_body_bytes: 16777216,
        max_relay_bytes: 131072,
        max_unread: 16777216,
        max_interim_responses: 16,
        first_byte_timeout: 60,
        between_bytes_timeout: 60,
        max_predicted: 1024,
        predicted_seconds: 120,
        max_tail: 1048576,
        ..Limits::ZERO
    };
}
/// What a call answers, beside OK, WRONG_PHASE, MEMORY, BAD_ARGUMENT, NO_ITEM and ITEM of cache_tier_status. Below 32 the call was refused and nothing changed; but MEMORY may come in the middle: then a mover does its duty (11).
pub mod status {
    pub const NO_EXCHANGE: u64 = 25;
    pub const DONE: u64 = 80;
    pub const NEED_MORE: u64 = 81;
    pub const BLOCKED: u64 = 82;
}
/// What was done, for logs and counts.
pub mod event {
    pub const REQUESTED: u64 = 1;
    pub const HIT: u64 = 2;
    pub const WAITING: u64 = 3;
    pub const COLLAPSED: u64 = 4;
    pub const STALE_ON_ERROR: u64 = 5;
    pub const STORED: u64 = 6;
    pub const COMPLETED: u64 = 7;
    pub const TRUNCATED: u64 = 8;
    pub const RELAYED: u64 = 9;
    pub const REVALIDATED: u64 = 10;
    pub const FRESHENED: u64 = 11;
    pub const GENERATED: u64 = 12;
    pub const PURGED: u64 = 13;
    pub const VARY_INDEX: u64 = 14;
    pub const PURGED_ALL: u64 = 15;
}
/// The lists of an out.
pub mod list {
    pub const PIECES: u64 = 0;
    pub const WAKES: u64 = 1;
    pub const EVICTED: u64 = 2;
    pub const PURGES: u64 = 3;
    pub const EVENTS: u64 = 4;
}
