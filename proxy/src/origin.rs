//! The origin's side of an exchange: it moves bytes between a connection and the gateway.
use crate::counts::add;
use crate::pool::Link;
use crate::shared::{Local, Site};
use crate::waiters::Waiter;
use crate::wire::Wire;
use cache_tier::gateway::{Closed, Handle, OriginAction, Out, Status};
use std::io;
use std::sync::Arc;
use std::time::Instant;
use tokio::sync::mpsc;

/// The origin's side of an exchange.
pub struct OriginSide {
    pub local: Local,
    pub handle: Handle,
    pub waiter: Arc<Waiter>,
    pub site: Arc<Site>,
    /// More of the request's body.
    pub body: mpsc::Receiver<Vec<u8>>,
}

/// What comes after bytes were given, or after a connection's end.
enum Next {
    /// More is awaited.
    ReadOn,
    /// Nothing more is taken until that is said.
    Blocked,
    /// This request goes on another connection.
    Again(Vec<u8>),
    Keep,
    Over,
}

/// How far a response came.
struct Coming {
    is_body: bool,
    is_blocked: bool,
    /// A byte came of it.
    began: bool,
    /// What isn't sent yet of the request.
    unsent: Vec<u8>,
    sends: bool,
}

impl OriginSide {
    /// From a request's head to the end of the exchange with the origin.
    pub async fn run(mut self, request: Vec<u8>) {
        let (mut request, mut was_kept) = (request, false);
        loop {
            let pool = self.site.origin().clone();
            let link = pool.link(&self.local, was_kept).await;
            was_kept = link.as_ref().map_or(false, |it| it.is_kept);
            let next = match link {
                Ok(link) => self.converse(link, request).await,
                Err(why) => self.closed(why),
            };
            match next {
                Next::Again(it) => request = it,
                _ => return,
            }
        }
    }

    /// One connection: what it said last.
    async fn converse(&mut self, mut link: Link, request: Vec<u8>) -> Next {
        let mut it = Coming { is_body: false, is_blocked: false, began: false, unsent: request, sends: true };
        loop {
            let due = self.waiter.due();
            let next = tokio::select! {
                biased;
                _ = self.waiter.origin_told() => self.told(&mut it, &mut link.wire),
                Some(data) = self.body.recv(), if it.sends && it.unsent.is_empty() => {
                    it.unsent = data;
                    Next::ReadOn
                }
                ready = link.wire.ready(!it.is_blocked, !it.unsent.is_empty()) => self.moves(&mut it, &mut link, ready),
                _ = until(due), if self.waiter.is_client_gone() => self.poll(&mut it),
            };
            match next {
                Next::ReadOn => {}
                Next::Blocked => it.is_blocked = true,
                Next::Keep => {
                    link.keep();
                    return Next::Over;
                }
                other => return other,
            }
            if it.is_body && it.began {
                tokio::task::yield_now().await;
            }
        }
    }

    /// The connection takes bytes, or gives some.
    fn moves(&mut self, it: &mut Coming, link: &mut Link, ready: io::Result<tokio::io::Ready>) -> Next {
        let ready = match ready {
            Ok(ready) => ready,
            Err(_) => return self.closed(Closed::Failed),
        };
        if ready.is_writable() && !it.unsent.is_empty() {
            match link.wire.try_send(&it.unsent) {
                Ok(count) => drop(it.unsent.drain(..count)),
                Err(why) if why.kind() == io::ErrorKind::WouldBlock => {}
                Err(_) => {
                    // An answer may have come before the request was whole.
                    it.sends = false;
                    it.unsent.clear();
                }
            }
        }
        if !ready.is_readable() || it.is_blocked {
            return Next::ReadOn;
        }
        match link.wire.try_receive() {
            Err(why) if why.kind() == io::ErrorKind::WouldBlock => Next::ReadOn,
            Ok(0) => self.closed(if link.is_kept && !it.began { Closed::Unused } else { Closed::Clean }),
            Err(_) => self.closed(if link.is_kept && !it.began { Closed::Unused } else { Closed::Failed }),
            Ok(count) => {
                it.began = true;
                add(&self.local.own().received_bytes, count as u64);
                self.feed(it, &mut link.wire)
            }
        }
    }

    /// Gives the gateway what came.
    fn feed(&mut self, it: &mut Coming, wire: &mut Wire) -> Next {
        loop {
            let now = self.local.now();
            let gateways = self.local.gateways();
            let out = if it.is_body { gateways.response_data(now, self.handle, wire.bytes()) } else { gateways.response_head(now, self.handle, wire.bytes()) };
            wire.consume(out.used());
            match self.after(it, &out) {
                Next::ReadOn if out.status() == Status::Done && out.used() > 0 && !wire.is_empty() => {}
                other => return other,
            }
        }
    }

    /// What an out of this side says of it.
    fn after(&mut self, it: &mut Coming, out: &Out) -> Next {
        self.note(out);
        match out.origin() {
            OriginAction::SendRequest => return Next::Again(out.to_origin().to_vec()),
            OriginAction::Reusable => return if it.unsent.is_empty() && it.sends { Next::Keep } else { Next::Over },
            OriginAction::CloseOrigin => return Next::Over,
            OriginAction::ReceiveBody => it.is_body = true,
            OriginAction::Continue => it.is_blocked = false,
            _ => {}
        }
        match out.status() {
            Status::Blocked => Next::Blocked,
            Status::Done | Status::NeedMore => Next::ReadOn,
            _ => {
                self.waiter.breaks(); // (memory ran out, perhaps in the middle)
                self.closed(Closed::Failed)
            }
        }
    }

    /// The connection ended.
    fn closed(&mut self, why: Closed) -> Next {
        let out = self.local.gateways().origin_closed(self.local.now(), self.handle, why);
        self.note(&out);
        match out.origin() {
            OriginAction::SendRequest => Next::Again(out.to_origin().to_vec()),
            _ => Next::Over,
        }
    }

    /// Its client's task has said something, or the client is gone.
    fn told(&mut self, it: &mut Coming, wire: &mut Wire) -> Next {
        if self.waiter.takes_close() {
            return Next::Over;
        }
        if self.waiter.takes_continue() {
            it.is_blocked = false;
            if !wire.is_empty() {
                return self.feed(it, wire);
            }
        }
        if self.waiter.is_client_gone() {
            return self.poll(it);
        }
        Next::ReadOn
    }

    /// Nobody else keeps its moments once the client is gone.
    fn poll(&mut self, it: &mut Coming) -> Next {
        let out = self.local.gateways().poll(self.local.now(), self.handle);
        match out.status() {
            Status::NoExchange | Status::WrongPhase => Next::ReadOn,
            _ => self.after(it, &out),
        }
    }

    fn note(&self, out: &Out) {
        self.local.note(out);
        self.waiter.set_due(out.at().map(|it| self.local.instant(it)));
    }
}

/// Waits for a moment; without one for ever.
pub async fn until(due: Option<Instant>) {
    match due {
        Some(it) => tokio::time::sleep_until(it.into()).await,
        None => std::future::pending().await,
    }
}
