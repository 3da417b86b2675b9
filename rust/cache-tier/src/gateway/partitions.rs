//! Several gateways, each with a lock of its own.
use super::{Closed, Counts, Gateway, Limits, Out, Parsed, Parser, RequestHead};
use crate::raw::status;
use crate::rules::Options;
use crate::{Digest, Error, Moment};
use std::fmt;
use std::sync::{Arc, Mutex, MutexGuard, PoisonError};

/// An exchange of one of several gateways: its partition, and its number there.
#[derive(Clone, Copy, Debug, PartialEq, Eq, PartialOrd, Ord, Hash)]
pub struct Handle {
    pub partition: usize,
    pub exchange: u64,
}

struct Part {
    gateway: Gateway,
    // Exchanges that give nothing till their keys are purged in the other partitions, and whether they were polled meanwhile.
    purging: Vec<(u64, bool)>,
}

/// Several gateways, each with its own lock and its share of `max_bytes`; a request goes to the partition of its key. A clone is the same gateways. No lock is
/// held while another is taken, and what an unsafe method changes is purged in every partition before its answer is given.
#[derive(Clone)]
pub struct Gateways {
    every: Arc<[Mutex<Part>]>,
    parser: Parser,
}
impl fmt::Debug for Gateways {
    fn fmt(&self, f: &mut fmt::Formatter<'_>) -> fmt::Result {
        write!(f, "Gateways({})", self.every.len())
    }
}
impl Gateways {
    /// So many gateways, at least one. `secret`: at least 16 random bytes.
    pub fn new(count: usize, started: Moment, secret: &[u8], limits: &Limits, options: &Options) -> Result<Gateways, Error> {
        let all = count as u64;
        if all == 0 || all >= 1 << 32 {
            return Err(Error::plain(status::BAD_ARGUMENT));
        }
        let of = |at: u64| {
            let own = Limits { max_bytes: limits.max_bytes / all, ..limits.clone() };
            let secret = [secret, &at.to_le_bytes()[..]].concat();
            Gateway::new(started, &secret, &own, options)
        };
        if secret.len() < 16 {
            return Err(Error::plain(status::BAD_ARGUMENT));
        }
        let parser = of(0)?.parser();
        let every = (0..all).map(|at| Ok(Mutex::new(Part { gateway: of(at)?, purging: Vec::new() }))).collect::<Result<Vec<_>, Error>>()?;
        Ok(Gateways { every: every.into(), parser })
    }
    /// [`Parser::parse_request`]: no lock is taken.
    pub fn parse_request(&self, data: &[u8], looked: usize) -> Result<Parsed, Error> {
        self.parser.parse_request(data, looked)
    }
    /// [`Gateway::start`], in the partition of the request.
    pub fn start(&self, now: Moment, request: RequestHead, peer: &[u8]) -> (Handle, Out) {
        let partition = request.partition(self.every.len());
        let out = self.within(partition, |it| it.gateway.start(now, request, peer));
        (Handle { partition, exchange: out.exchange() }, out)
    }
    /// [`Gateway::poll`]; nothing is given while other partitions are purged for this exchange: it is woken then.
    pub fn poll(&self, now: Moment, handle: Handle) -> Out {
        self.within(handle.partition, |it| match it.purging.iter_mut().find(|(x, _)| *x == handle.exchange) {
            Some((x, is_polled)) => {
                *is_polled = true;
                Out::waits(*x)
            }
            None => it.gateway.poll(now, handle.exchange),
        })
    }
    /// [`Gateway::request_data`].
    pub fn request_data(&self, now: Moment, handle: Handle, data: &[u8]) -> Out {
        self.within(handle.partition, |it| it.gateway.request_data(now, handle.exchange, data))
    }
    /// [`Gateway::response_head`].
    pub fn response_head(&self, now: Moment, handle: Handle, data: &[u8]) -> Out {
        self.within(handle.partition, |it| it.gateway.response_head(now, handle.exchange, data))
    }
    /// [`Gateway::response_data`].
    pub fn response_data(&self, now: Moment, handle: Handle, data: &[u8]) -> Out {
        self.within(handle.partition, |it| it.gateway.response_data(now, handle.exchange, data))
    }
    /// [`Gateway::origin_closed`].
    pub fn origin_closed(&self, now: Moment, handle: Handle, closed: Closed) -> Out {
        self.within(handle.partition, |it| it.gateway.origin_closed(now, handle.exchange, closed))
    }
    /// [`Gateway::client_closed`].
    pub fn client_closed(&self, now: Moment, handle: Handle) -> Out {
        self.within(handle.partition, |it| it.gateway.client_closed(now, handle.exchange))
    }
    /// Purges a URL, which lies in one of the partitions: [`Out::found`] says whether anything was there.
    pub fn purge(&self, url: &[u8]) -> Out {
        let mut all = self.within(0, |it| it.gateway.purge(url));
        for partition in 1..self.every.len() {
            all.also(&self.within(partition, |it| it.gateway.purge(url)));
        }
        all
    }
    /// [`Gateway::purge_all`], of each partition.
    pub fn purge_all(&self, now: Moment) -> Out {
        let mut all = self.within(0, |it| it.gateway.purge_all(now));
        for partition in 1..self.every.len() {
            all.also(&self.within(partition, |it| it.gateway.purge_all(now)));
        }
        all
    }
    /// [`Gateway::stop`], of each partition.
    pub fn stop(&self) {
        (0..self.every.len()).filter_map(|at| self.partition(at)).for_each(|mut it| it.gateway.stop())
    }
    /// How many exchanges are open.
    pub fn exchanges(&self) -> u64 {
        (0..self.every.len()).filter_map(|at| self.partition(at)).map(|mut it| it.gateway.exchanges()).sum()
    }
    /// [`Gateway::counts`] of a partition, which are numbered from 0. None: there is no such one.
    pub fn counts(&self, partition: usize) -> Option<Counts> {
        self.partition(partition).map(|mut it| it.gateway.counts())
    }
    /// A partition, also where a caller's own code panicked under its lock: each call of the library was whole.
    fn partition(&self, at: usize) -> Option<MutexGuard<'_, Part>> {
        self.every.get(at).map(|it| it.lock().unwrap_or_else(PoisonError::into_inner))
    }
    /// A call in a partition; then, with no lock held, each key that it names is purged in its own.
    fn within(&self, at: usize, call: impl FnOnce(&mut Part) -> Out) -> Out {
        let mut part = match self.partition(at) {
            Some(part) => part,
            None => return Out::unknown(),
        };
        let mut out = call(&mut part).in_partition(at);
        let purges = out.purges().len() != 0;
        if purges {
            part.purging.push((out.exchange(), false));
        }
        drop(part);
        if purges {
            self.purge_elsewhere(at, &mut out);
        }
        out
    }
    fn purge_elsewhere(&self, at: usize, out: &mut Out) {
        let of = |key: &[u8]| (Digest::of(key).partition(self.every.len()), key.to_vec());
        let keys: Vec<(usize, Vec<u8>)> = out.purges().map(of).filter(|(partition, _)| *partition != at).collect();
        for (partition, key) in keys {
            let told = self.partition(partition).map(|mut it| it.gateway.purge_key(&key).in_partition(partition));
            told.iter().flat_map(|it| it.wakes()).for_each(|it| out.wake(it));
        }
        let own = Handle { partition: at, exchange: out.exchange() };
        let was_polled = self.partition(at).map_or(false, |mut part| {
            let place = part.purging.iter().position(|(x, _)| *x == own.exchange);
            place.map_or(false, |it| part.purging.swap_remove(it).1)
        });
        if was_polled {
            out.wake(own);
        }
    }
}
