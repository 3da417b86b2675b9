//! The exports of `cache_gateway.h`. Written by tools/dev/interface.py: change the tables in embed, and run it with --write.
#![cfg_attr(rustfmt, rustfmt_skip)]

use crate::gateway::raw::{Counts, Item, Limits, Out, Request};
use crate::rules::raw::Options;

extern "C" {
    pub(super) fn cache_gateway1_sizeof() -> usize;
    pub(super) fn cache_gateway1_request_sizeof() -> usize;
    pub(super) fn cache_gateway1_out_sizeof() -> usize;
    pub(super) fn cache_gateway1_init(gateway: *mut u8, seconds: u64, nanoseconds: u64, limits: *const Limits, options: *const Options, settings: *const u8, settings_len: usize, secret: *const u8, secret_len: usize, out: *mut Counts);
    pub(super) fn cache_gateway1_end(gateway: *mut u8);
    pub(super) fn cache_gateway1_parse_request(options: *const Options, settings: *const u8, settings_len: usize, data: *const u8, data_len: usize, looked: u64, out: *mut Request, keep: *mut u64);
    pub(super) fn cache_gateway1_request_free(keep: *mut u64);
    pub(super) fn cache_gateway1_start(gateway: *mut u8, seconds: u64, nanoseconds: u64, request: *mut u64, peer: *const u8, peer_len: usize, out: *mut Out, keep: *mut u64);
    pub(super) fn cache_gateway1_poll(gateway: *mut u8, seconds: u64, nanoseconds: u64, exchange: u64, out: *mut Out, keep: *mut u64);
    pub(super) fn cache_gateway1_request_data(gateway: *mut u8, seconds: u64, nanoseconds: u64, exchange: u64, data: *const u8, data_len: usize, out: *mut Out, keep: *mut u64);
    pub(super) fn cache_gateway1_response_head(gateway: *mut u8, seconds: u64, nanoseconds: u64, exchange: u64, data: *const u8, data_len: usize, out: *mut Out, keep: *mut u64);
    pub(super) fn cache_gateway1_response_data(gateway: *mut u8, seconds: u64, nanoseconds: u64, exchange: u64, data: *const u8, data_len: usize, out: *mut Out, keep: *mut u64);
    pub(super) fn cache_gateway1_origin_closed(gateway: *mut u8, seconds: u64, nanoseconds: u64, exchange: u64, closed: u64, out: *mut Out, keep: *mut u64);
    pub(super) fn cache_gateway1_client_closed(gateway: *mut u8, seconds: u64, nanoseconds: u64, exchange: u64, out: *mut Out, keep: *mut u64);
    pub(super) fn cache_gateway1_purge(gateway: *mut u8, url: *const u8, url_len: usize, out: *mut Out, keep: *mut u64);
    pub(super) fn cache_gateway1_purge_key(gateway: *mut u8, key: *const u8, key_len: usize, out: *mut Out, keep: *mut u64);
    pub(super) fn cache_gateway1_purge_all(gateway: *mut u8, seconds: u64, nanoseconds: u64, out: *mut Out, keep: *mut u64);
    pub(super) fn cache_gateway1_stop(gateway: *mut u8);
    pub(super) fn cache_gateway1_get_counts(gateway: *mut u8, out: *mut Counts);
    pub(super) fn cache_gateway1_out_item(keep: *mut u64, list: u64, index: u64, out: *mut Item);
    pub(super) fn cache_gateway1_out_free(keep: *mut u64);
}
