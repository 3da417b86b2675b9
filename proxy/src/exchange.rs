//! An exchange of the gateway as its client's connection has it: what an out says of the other side, and what becomes of it where the client goes away.
use crate::origin::OriginSide;
use crate::shared::{Local, Site};
use crate::waiters::Waiter;
use cache_tier::gateway::{Closed, Handle, OriginAction, Out};
use std::sync::Arc;
use tokio::sync::mpsc;

/// What becomes of the connection.
#[derive(PartialEq)]
pub enum Then {
    NextRequest,
    Close,
    Abort,
}

/// An exchange that isn't over for its client: where this is dropped before, the gateway is told that the client went away.
pub struct Open {
    local: Local,
    pub handle: Handle,
    pub waiter: Option<Arc<Waiter>>,
    is_over: bool,
}

/// The request's body on its way to the origin.
pub struct RequestBody {
    pub is_over: bool,
    /// What the origin's side hasn't taken yet.
    pub ahead: Option<Vec<u8>>,
    to: Option<mpsc::Sender<Vec<u8>>>,
}

impl RequestBody {
    pub fn new(is_over: bool) -> RequestBody {
        RequestBody { is_over, ahead: None, to: None }
    }

    /// Hands what is ahead on. False: nobody takes it any more.
    pub async fn send(&mut self) -> bool {
        let to = match &self.to {
            Some(to) => to,
            None => return false,
        };
        match to.reserve().await {
            Ok(place) => {
                if let Some(it) = self.ahead.take() {
                    place.send(it);
                }
                true
            }
            Err(_) => false,
        }
    }
}

impl Open {
    pub fn new(local: Local, handle: Handle) -> Open {
        Open { local, handle, waiter: None, is_over: false }
    }

    pub fn poll(&self) -> Out {
        self.local.gateways().poll(self.local.now(), self.handle)
    }

    /// Does what an out says of the origin's side, and notes what it says of others. How the cache answered, where it says so.
    pub fn obey(&self, body: &mut RequestBody, site: &Option<Arc<Site>>, out: &Out) -> Option<&'static str> {
        let cache = self.local.note(out);
        let waiter = match &self.waiter {
            Some(it) => it,
            None => return cache,
        };
        waiter.set_due(out.at().map(|it| self.local.instant(it)));
        match out.origin() {
            OriginAction::SendRequest => self.ask(body, site, waiter, out.to_origin().to_vec()),
            OriginAction::SendData => body.ahead = Some(out.to_origin().to_vec()),
            OriginAction::CloseOrigin | OriginAction::Reusable => waiter.close_origin(),
            OriginAction::Continue => waiter.continue_origin(),
            _ => {}
        }
        cache
    }

    /// The origin's side runs by itself: it may go on for nobody.
    fn ask(&self, body: &mut RequestBody, site: &Option<Arc<Site>>, waiter: &Arc<Waiter>, request: Vec<u8>) {
        let site = match site {
            Some(it) => it.clone(),
            None => {
                let out = self.local.gateways().origin_closed(self.local.now(), self.handle, Closed::Failed);
                self.local.note(&out);
                waiter.wake();
                return;
            }
        };
        let (to, from) = mpsc::channel(2);
        body.to = Some(to);
        let side = OriginSide { local: self.local.clone(), handle: self.handle, waiter: waiter.clone(), site, body: from };
        drop(tokio::spawn(side.run(request)));
    }

    /// Memory ran out in the middle of a call: both sides end, the client's where this is dropped.
    pub fn breaks(&self) -> std::io::Error {
        let out = self.local.gateways().origin_closed(self.local.now(), self.handle, Closed::Failed);
        self.local.note(&out);
        self.waiter.iter().for_each(|it| it.close_origin());
        std::io::ErrorKind::OutOfMemory.into()
    }

    /// Its client has its answer.
    pub fn ends(&mut self, then: Then) -> Then {
        self.is_over = true;
        if let Some(it) = &self.waiter {
            it.client_goes();
        }
        then
    }
}

impl Drop for Open {
    fn drop(&mut self) {
        if self.is_over {
            return;
        }
        let out = self.local.gateways().client_closed(self.local.now(), self.handle);
        self.local.note(&out);
        if let Some(it) = &self.waiter {
            match out.origin() {
                OriginAction::CloseOrigin => it.close_origin(),
                OriginAction::Continue => it.continue_origin(),
                _ => {}
            }
            it.client_goes();
        }
    }
}
