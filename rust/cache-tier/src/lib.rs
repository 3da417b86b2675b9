//! An HTTP cache tier: what it finds, calls fresh, keeps and evicts is proved, in Rattle; this crate calls the compiled library.
//! Of the crate itself nothing is proved.
//!
//! ```
//! use cache_tier::{Meta, Moment, Options, Tier};
//! let mut tier = Tier::new(&Options::new(1 << 30, 2))?; // at most 1 GiB; the second word: random and secret if strangers choose keys
//! let now = Moment::at(1000);
//! assert!(tier.get(now, b"/a")?.is_none()); // a miss: fetch it, and store it
//! tier.put(now, b"/a", b"HTTP/1.1 200 OK\r\nContent-Type: text/plain\r\n\r\n", b"hello", &Meta::ttl(now, 60))?;
//! let stored = tier.get(Moment::at(1059), b"/a")?.expect("it is fresh for 60 seconds"); // a hit
//! assert_eq!((stored.fields(), stored.body()), (&b"content-type: text/plain\r\n"[..], &b"hello"[..]));
//! assert!(tier.get(Moment::at(1060), b"/a")?.is_none());
//! # Ok::<(), cache_tier::Error>(())
//! ```
//!
//! A miss, whose permit to write one request gets and all others wait for:
//!
//! ```
//! use cache_tier::{Digest, Lookup, Meta, Moment, Options, Partitions, Permit};
//! let partitions = Partitions::new(&Options::new(1 << 30, 2), 4)?; // four tiers, each with a lock of its own
//! let (key, now) = (Digest::of(b"/a"), Moment::at(1000));
//! let (mut one, mut two) = (partitions.open(&key, true)?, partitions.open(&key, true)?);
//! assert!(matches!(one.lookup(now)?, Lookup::Miss { permit: Permit::Write }));
//! assert!(matches!(two.lookup(now)?, Lookup::Miss { permit: Permit::Wait }));
//! one.begin(now, b"HTTP/1.1 200 OK\r\n\r\n", &Meta::ttl(now, 60))?;
//! one.write(b"hello", true)?;
//! one.finish()?;
//! assert!(two.poll(now)?.is_some());
//! assert_eq!(partitions.get(now, &key)?.unwrap().body(), b"hello");
//! # Ok::<(), cache_tier::Error>(())
//! ```
//!
//! A `Response` owns what it lends, so no `unsafe` is wanted of a program. How long a response is fresh [`rules`] says by HTTP's rules, or the caller.
#![deny(unsafe_code, unsafe_op_in_unsafe_fn, missing_debug_implementations)]

mod enums;
mod ffi;
#[cfg(feature = "file_store")]
pub mod file_store;
#[cfg(cache_gateway)]
pub mod gateway;
mod given;
mod partitions;
mod raw;
mod response;
#[cfg(cache_rules)]
pub mod rules;
mod tier;
mod words;

pub use given::{Digest, Key, Meta, Moment, Options};
pub use partitions::{Partitions, Request};
pub use response::Response;
pub use tier::{Lookup, Read, Tier};
pub use words::{Entry, Error, ErrorKind, LockStatus, LruRestored, Permit, Stats, Stored};

/// Of the library that is linked: 1000 times its interface, and the revision.
pub fn version() -> u64 {
    ffi::version()
}

const _: () = {
    const fn crosses<T: Send + Sync + 'static>() {}
    const fn moves<T: Send + 'static>() {}
    crosses::<Response>();
    crosses::<Partitions>();
    crosses::<Request>();
    crosses::<Error>();
    moves::<Tier>();
};
#[cfg(cache_rules)]
const _: () = {
    const fn crosses<T: Send + Sync + 'static>() {}
    crosses::<rules::Rules>();
    crosses::<rules::RequestHead>();
    crosses::<rules::StoredHead<'static>>();
    crosses::<rules::StoreDecision>();
    crosses::<rules::Message>();
};
#[cfg(cache_gateway)]
const _: () = {
    const fn crosses<T: Send + Sync + 'static>() {}
    const fn moves<T: Send + 'static>() {}
    crosses::<gateway::Gateways>();
    crosses::<gateway::RequestHead>();
    crosses::<gateway::Parser>();
    moves::<gateway::Gateway>();
    moves::<gateway::Out>();
};
