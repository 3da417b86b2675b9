//! The exports of `cache_gateway.h`, each as a safe call: a gateway in memory of its own, and requests and outs, each freed once.
//!
//! What an out lends is read while it lives, by one thread at a time; it is never written.
use super::gateway_exports::*;
use crate::gateway::raw::{status, Counts, Item, Limits, Out, OutKeep, Request, RequestKeep};
use crate::raw::{Moment, Slice};
use crate::rules::raw::Options;
use std::alloc::{alloc, dealloc, Layout};
use std::cell::UnsafeCell;
use std::ptr::NonNull;

/// A gateway in memory of its own.
pub struct Room {
    at: NonNull<u8>,
    layout: Layout,
}
// It has no state outside its room.
unsafe impl Send for Room {}

/// A request that was parsed, till it is started.
pub struct HeldRequest {
    pub raw: Request,
    keep: RequestKeep,
    held: bool,
}
unsafe impl Send for HeldRequest {}
unsafe impl Sync for HeldRequest {}

/// What a call answered, and what it lends.
pub struct HeldOut {
    pub raw: Out,
    keep: UnsafeCell<OutKeep>,
    held: bool,
}
// What it keeps is counted by atomics.
unsafe impl Send for HeldOut {}

fn shown(it: &Slice) -> &[u8] {
    if it.len == 0 {
        return &[];
    }
    // of what lives: a request or an out
    unsafe { std::slice::from_raw_parts(it.ptr, it.len) }
}

/// Parses the head of a request: it reads its arguments alone.
pub fn parse_request(options: &Options, settings: &[u8], data: &[u8], looked: u64) -> HeldRequest {
    let mut made = HeldRequest { raw: Request::ZERO, keep: [0; 40], held: true };
    unsafe {
        cache_gateway1_parse_request(options, settings.as_ptr(), settings.len(), data.as_ptr(), data.len(), looked, &mut made.raw, made.keep.as_mut_ptr());
    }
    made
}
impl HeldRequest {
    pub fn key(&self) -> &[u8] {
        shown(&self.raw.key)
    }
    pub fn method(&self) -> &[u8] {
        shown(&self.raw.method)
    }
    pub fn host(&self) -> &[u8] {
        shown(&self.raw.host)
    }
    pub fn target(&self) -> &[u8] {
        shown(&self.raw.target)
    }
}
impl Drop for HeldRequest {
    fn drop(&mut self) {
        if self.held {
            unsafe { cache_gateway1_request_free(self.keep.as_mut_ptr()) }
        }
    }
}

impl HeldOut {
    /// One that no call made.
    pub fn plain(status: u64, exchange: u64) -> HeldOut {
        HeldOut { raw: Out { status, exchange, ..Out::ZERO }, keep: UnsafeCell::new([0; 48]), held: false }
    }
    fn filled(by: impl FnOnce(*mut Out, *mut u64)) -> HeldOut {
        let mut made = HeldOut::plain(0, 0);
        by(&mut made.raw, made.keep.get_mut().as_mut_ptr());
        made.held = true;
        made
    }
    /// An item of a list.
    pub fn item(&self, which: u64, place: usize) -> Item {
        let mut out = Item::ZERO;
        if self.held {
            unsafe { cache_gateway1_out_item(self.keep.get().cast(), which, place as u64, &mut out) }
        }
        out
    }
    /// The bytes of one.
    pub fn bytes(&self, which: u64, place: usize) -> &[u8] {
        let it = self.item(which, place).data;
        if it.len == 0 {
            return &[];
        }
        unsafe { std::slice::from_raw_parts(it.ptr, it.len) }
    }
    pub fn to_origin(&self) -> &[u8] {
        shown(&self.raw.to_origin)
    }
}
impl Drop for HeldOut {
    fn drop(&mut self) {
        if self.held {
            unsafe { cache_gateway1_out_free(self.keep.get_mut().as_mut_ptr()) }
        }
    }
}

impl Room {
    /// A gateway; else the status that says why there is none.
    pub fn new(started: Moment, limits: &Limits, options: &Options, settings: &[u8], secret: &[u8]) -> Result<Room, u64> {
        let none = || crate::raw::status::MEMORY;
        let layout = Layout::from_size_align(unsafe { cache_gateway1_sizeof() }, 16).map_err(|_| none())?;
        let at = NonNull::new(unsafe { alloc(layout) }).ok_or_else(none)?;
        let (room, mut out) = (Room { at, layout }, Counts::ZERO);
        let (words, key) = ((settings.as_ptr(), settings.len()), (secret.as_ptr(), secret.len()));
        unsafe { cache_gateway1_init(room.at.as_ptr(), started.seconds, started.nanoseconds, limits, options, words.0, words.1, key.0, key.1, &mut out) };
        if out.status == 0 {
            Ok(room)
        } else {
            Err(out.status)
        }
    }
    pub fn start(&mut self, now: Moment, mut request: HeldRequest, peer: &[u8]) -> HeldOut {
        request.held = false; // the library takes it
        let (at, given) = (self.at.as_ptr(), request.keep.as_mut_ptr());
        HeldOut::filled(|out, keep| unsafe { cache_gateway1_start(at, now.seconds, now.nanoseconds, given, peer.as_ptr(), peer.len(), out, keep) })
    }
    pub fn poll(&mut self, now: Moment, exchange: u64) -> HeldOut {
        let at = self.at.as_ptr();
        HeldOut::filled(|out, keep| unsafe { cache_gateway1_poll(at, now.seconds, now.nanoseconds, exchange, out, keep) })
    }
    pub fn request_data(&mut self, now: Moment, exchange: u64, data: &[u8]) -> HeldOut {
        let at = self.at.as_ptr();
        HeldOut::filled(|out, keep| unsafe { cache_gateway1_request_data(at, now.seconds, now.nanoseconds, exchange, data.as_ptr(), data.len(), out, keep) })
    }
    pub fn response_head(&mut self, now: Moment, exchange: u64, data: &[u8]) -> HeldOut {
        let at = self.at.as_ptr();
        HeldOut::filled(|out, keep| unsafe { cache_gateway1_response_head(at, now.seconds, now.nanoseconds, exchange, data.as_ptr(), data.len(), out, keep) })
    }
    pub fn response_data(&mut self, now: Moment, exchange: u64, data: &[u8]) -> HeldOut {
        let at = self.at.as_ptr();
        HeldOut::filled(|out, keep| unsafe { cache_gateway1_response_data(at, now.seconds, now.nanoseconds, exchange, data.as_ptr(), data.len(), out, keep) })
    }
    pub fn origin_closed(&mut self, now: Moment, exchange: u64, closed: u64) -> HeldOut {
        let at = self.at.as_ptr();
        HeldOut::filled(|out, keep| unsafe { cache_gateway1_origin_closed(at, now.seconds, now.nanoseconds, exchange, closed, out, keep) })
    }
    pub fn client_closed(&mut self, now: Moment, exchange: u64) -> HeldOut {
        let at = self.at.as_ptr();
        HeldOut::filled(|out, keep| unsafe { cache_gateway1_client_closed(at, now.seconds, now.nanoseconds, exchange, out, keep) })
    }
    pub fn purge(&mut self, url: &[u8]) -> HeldOut {
        let at = self.at.as_ptr();
        HeldOut::filled(|out, keep| unsafe { cache_gateway1_purge(at, url.as_ptr(), url.len(), out, keep) })
    }
    pub fn purge_key(&mut self, key: &[u8]) -> HeldOut {
        let at = self.at.as_ptr();
        HeldOut::filled(|out, keep| unsafe { cache_gateway1_purge_key(at, key.as_ptr(), key.len(), out, keep) })
    }
    pub fn purge_all(&mut self, now: Moment) -> HeldOut {
        let at = self.at.as_ptr();
        HeldOut::filled(|out, keep| unsafe { cache_gateway1_purge_all(at, now.seconds, now.nanoseconds, out, keep) })
    }
    pub fn stop(&mut self) {
        unsafe { cache_gateway1_stop(self.at.as_ptr()) }
    }
    pub fn counts(&mut self) -> Counts {
        let mut out = Counts::ZERO;
        unsafe { cache_gateway1_get_counts(self.at.as_ptr(), &mut out) };
        out
    }
}
impl Drop for Room {
    fn drop(&mut self) {
        unsafe {
            cache_gateway1_end(self.at.as_ptr());
            dealloc(self.at.as_ptr(), self.layout);
        }
    }
}

/// Whether the library's values have room in the arrays that this crate has for them.
pub fn has_room() -> bool {
    let words = |bytes: usize| (bytes + 7) / 8;
    unsafe { words(cache_gateway1_request_sizeof()) <= 40 && words(cache_gateway1_out_sizeof()) <= 48 && status::DONE == 80 }
}
