//! The exports of `cache_rules.h`, each as a safe function. Written by tools/dev/interface.py: change the tables in embed, and run it with --write.
#![allow(clippy::too_many_arguments)]
use super::Beside;
use crate::raw::{Head, Moment};
use crate::rules::raw::{BodyChunk, BodyDecoder, BodyPart, CacheStatus, Message, Options, RequestHead, ResponseHead, StoreDecision};

type O<'a> = Beside<'a, Options>;
type Q<'a> = Beside<'a, RequestHead>;
type R<'a> = Beside<'a, ResponseHead>;
type H<'a> = Beside<'a, Head>;

#[rustfmt::skip]
extern "C" {
    fn cache_rules1_head_end(data: *const u8, data_len: usize, start: u64) -> u64;
    fn cache_rules1_check_options(options: *const Options, settings: *const u8, settings_len: usize, out: *mut Message);
    fn cache_rules1_prepare_settings(options: *const Options, settings: *const u8, settings_len: usize, buf: *mut u8, buf_len: usize, out: *mut Message);
    fn cache_rules1_parse_request(options: *const Options, settings: *const u8, settings_len: usize, data: *const u8, data_len: usize, buf: *mut u8, buf_len: usize, out: *mut RequestHead);
    fn cache_rules1_parse_response(options: *const Options, settings: *const u8, settings_len: usize, head_request: u64, response_time: u64, response_time_ns: u64, data: *const u8, data_len: usize, buf: *mut u8, buf_len: usize, out: *mut ResponseHead);
    fn cache_rules1_secondary_keys(options: *const Options, settings: *const u8, settings_len: usize, request: *const RequestHead, request_buf: *const u8, request_buf_len: usize, vary_index: *const u8, vary_index_len: usize, buf: *mut u8, buf_len: usize, parts: *mut BodyPart, parts_len: usize, out: *mut Message);
    fn cache_rules1_update_vary_index(options: *const Options, settings: *const u8, settings_len: usize, response: *const ResponseHead, response_buf: *const u8, response_buf_len: usize, now: u64, now_ns: u64, vary_index: *const u8, vary_index_len: usize, token: *const u8, token_len: usize, buf: *mut u8, buf_len: usize, out: *mut StoreDecision);
    fn cache_rules1_decide_reuse(options: *const Options, settings: *const u8, settings_len: usize, request: *const RequestHead, request_buf: *const u8, request_buf_len: usize, stored: *const Head, fields: *const u8, fields_len: usize, now: u64, now_ns: u64, out: *mut Message);
    fn cache_rules1_stale_on_error(options: *const Options, settings: *const u8, settings_len: usize, request: *const RequestHead, request_buf: *const u8, request_buf_len: usize, stored: *const Head, fields: *const u8, fields_len: usize, now: u64, now_ns: u64, origin_status: u64, out: *mut Message);
    fn cache_rules1_forward_request(options: *const Options, settings: *const u8, settings_len: usize, request: *const RequestHead, request_buf: *const u8, request_buf_len: usize, fetch: u64, stored: *const Head, fields: *const u8, fields_len: usize, peer: *const u8, peer_len: usize, buf: *mut u8, buf_len: usize, out: *mut Message);
    fn cache_rules1_decide_store(options: *const Options, settings: *const u8, settings_len: usize, request: *const RequestHead, request_buf: *const u8, request_buf_len: usize, head_request: u64, response: *const ResponseHead, response_buf: *const u8, response_buf_len: usize, request_time: u64, request_time_ns: u64, response_time: u64, response_time_ns: u64, vary_index: *const u8, vary_index_len: usize, stored: *const Head, fields: *const u8, fields_len: usize, buf: *mut u8, buf_len: usize, out: *mut StoreDecision);
    fn cache_rules1_freshen(options: *const Options, settings: *const u8, settings_len: usize, request: *const RequestHead, request_buf: *const u8, request_buf_len: usize, stored: *const Head, fields: *const u8, fields_len: usize, body_len: u64, response: *const ResponseHead, response_buf: *const u8, response_buf_len: usize, request_time: u64, request_time_ns: u64, response_time: u64, response_time_ns: u64, buf: *mut u8, buf_len: usize, out: *mut StoreDecision);
    fn cache_rules1_serve_stored(options: *const Options, settings: *const u8, settings_len: usize, request: *const RequestHead, request_buf: *const u8, request_buf_len: usize, stored: *const Head, fields: *const u8, fields_len: usize, body_len: u64, now: u64, now_ns: u64, cache_status: *const CacheStatus, buf: *mut u8, buf_len: usize, parts: *mut BodyPart, parts_len: usize, out: *mut Message);
    fn cache_rules1_reuse_stored(options: *const Options, settings: *const u8, settings_len: usize, request: *const RequestHead, request_buf: *const u8, request_buf_len: usize, stored: *const Head, fields: *const u8, fields_len: usize, body_len: u64, now: u64, now_ns: u64, cache_status: *const CacheStatus, buf: *mut u8, buf_len: usize, parts: *mut BodyPart, parts_len: usize, out: *mut Message);
    fn cache_rules1_relay_response(options: *const Options, settings: *const u8, settings_len: usize, request: *const RequestHead, request_buf: *const u8, request_buf_len: usize, response: *const ResponseHead, response_buf: *const u8, response_buf_len: usize, request_time: u64, request_time_ns: u64, response_time: u64, response_time_ns: u64, cache_status: *const CacheStatus, buf: *mut u8, buf_len: usize, parts: *mut BodyPart, parts_len: usize, out: *mut Message);
    fn cache_rules1_make_response(options: *const Options, settings: *const u8, settings_len: usize, request: *const RequestHead, request_buf: *const u8, request_buf_len: usize, status_code: u64, reason: u64, now: u64, now_ns: u64, buf: *mut u8, buf_len: usize, out: *mut Message);
    fn cache_rules1_invalidated_keys(options: *const Options, settings: *const u8, settings_len: usize, request: *const RequestHead, request_buf: *const u8, request_buf_len: usize, response: *const ResponseHead, response_buf: *const u8, response_buf_len: usize, buf: *mut u8, buf_len: usize, out: *mut Message);
    fn cache_rules1_decode_body(decoder: *mut BodyDecoder, data: *const u8, data_len: usize, buf: *mut u8, buf_len: usize, out: *mut BodyChunk);
    fn cache_rules1_encode_chunk(chunk_len: u64, buf: *mut u8, buf_len: usize, out: *mut Message);
}
#[rustfmt::skip]
pub fn head_end(data: &[u8], start: u64) -> u64 {
    unsafe { cache_rules1_head_end(data.as_ptr(), data.len(), start) }
}
/// Checks options once, at the start. BAD_ARGUMENT: `bad_line` is the wrong line of `settings`, from 1; 0 if a number is wrong.
#[rustfmt::skip]
pub fn check_options(options: &O<'_>, out: &mut Message) {
    unsafe { cache_rules1_check_options(&options.raw, options.text.as_ptr(), options.text.len(), out) }
}
/// Prepares the settings, so that no call reads and checks them anew.
#[rustfmt::skip]
pub fn prepare_settings(options: &O<'_>, buf: &mut [u8], out: &mut Message) {
    unsafe { cache_rules1_prepare_settings(&options.raw, options.text.as_ptr(), options.text.len(), buf.as_mut_ptr(), buf.len(), out) }
}
/// Parses a request's head, and plans. REJECTED: by `error_code` and `reason`.
#[rustfmt::skip]
pub fn parse_request(options: &O<'_>, data: &[u8], buf: &mut [u8], out: &mut RequestHead) {
    unsafe { cache_rules1_parse_request(&options.raw, options.text.as_ptr(), options.text.len(), data.as_ptr(), data.len(), buf.as_mut_ptr(), buf.len(), out) }
}
/// Parses a response's head. `head_request`: the request was a HEAD. `response_time`: when its first byte came.
#[rustfmt::skip]
pub fn parse_response(options: &O<'_>, head_request: bool, response_time: Moment, data: &[u8], buf: &mut [u8], out: &mut ResponseHead) {
    unsafe { cache_rules1_parse_response(&options.raw, options.text.as_ptr(), options.text.len(), head_request.into(), response_time.seconds, response_time.nanoseconds, data.as_ptr(), data.len(), buf.as_mut_ptr(), buf.len(), out) }
}
/// The secondary keys of a request (RFC 9111, 4.1) by the body of a vary index, one for each of its sets: `key_count`, each as parts[i].prefix. Get each: of what is found the greatest `updated` counts, of equals the one in front, fresh or not; where nothing is found go on by the first.
#[rustfmt::skip]
pub fn secondary_keys(options: &O<'_>, request: &Q<'_>, vary_index: &[u8], buf: &mut [u8], parts: &mut [BodyPart], out: &mut Message) {
    unsafe { cache_rules1_secondary_keys(&options.raw, options.text.as_ptr(), options.text.len(), &request.raw, request.text.as_ptr(), request.text.len(), vary_index.as_ptr(), vary_index.len(), buf.as_mut_ptr(), buf.len(), parts.as_mut_ptr(), parts.len(), out) }
}
/// Under which key a response that is stored goes, if it varies or there is a vary index: `vary_index` is the body of the one that is stored under the first key now, looked up again, or empty. DONE: under the secondary key of the set at `place`, or if `vary_index` is empty under the first key. STORE: put `head` and `body` with `meta` under the first key, then store it under the secondary key of the set in front. If that is not the key of what was found, give up its permit and take one there. `token`: 8 to 64 bytes that cannot be guessed, none of them LF (hexadecimal digits of 16 random bytes).
#[rustfmt::skip]
pub fn update_vary_index(options: &O<'_>, response: &R<'_>, now: Moment, vary_index: &[u8], token: &[u8], buf: &mut [u8], out: &mut StoreDecision) {
    unsafe { cache_rules1_update_vary_index(&options.raw, options.text.as_ptr(), options.text.len(), &response.raw, response.text.as_ptr(), response.text.len(), now.seconds, now.nanoseconds, vary_index.as_ptr(), vary_index.len(), token.as_ptr(), token.len(), buf.as_mut_ptr(), buf.len(), out) }
}
/// Whether a stored response may answer (RFC 9111, 4): `reuse`.
#[rustfmt::skip]
pub fn decide_reuse(options: &O<'_>, request: &Q<'_>, stored: &H<'_>, now: Moment, out: &mut Message) {
    unsafe { cache_rules1_decide_reuse(&options.raw, options.text.as_ptr(), options.text.len(), &request.raw, request.text.as_ptr(), request.text.len(), &stored.raw, stored.text.as_ptr(), stored.text.len(), now.seconds, now.nanoseconds, out) }
}
/// Whether a stale response (NULL: there is none) answers in place of an error (RFC 5861, 4): `serve_stale` 1, else `status_code`. `origin_status`: the origin's; 0: it gave no answer. It does not look at Authorization: ask it only after REUSE_AFTER_VALIDATION or REUSE_WHILE_REVALIDATING.
#[rustfmt::skip]
pub fn stale_on_error(options: &O<'_>, request: &Q<'_>, stored: &H<'_>, now: Moment, origin_status: u64, out: &mut Message) {
    unsafe { cache_rules1_stale_on_error(&options.raw, options.text.as_ptr(), options.text.len(), &request.raw, request.text.as_ptr(), request.text.len(), &stored.raw, stored.text.as_ptr(), stored.text.len(), now.seconds, now.nanoseconds, origin_status, out) }
}
/// The head of the request to the origin; its body is sent by `framing`. `fetch`: one of cache_rules_fetch. `stored`: for FETCH_CONDITIONAL, else NULL. `peer`: the client's address, for X-Forwarded-For, or empty.
#[rustfmt::skip]
pub fn forward_request(options: &O<'_>, request: &Q<'_>, fetch: u64, stored: &H<'_>, peer: &[u8], buf: &mut [u8], out: &mut Message) {
    unsafe { cache_rules1_forward_request(&options.raw, options.text.as_ptr(), options.text.len(), &request.raw, request.text.as_ptr(), request.text.len(), fetch, &stored.raw, stored.text.as_ptr(), stored.text.len(), peer.as_ptr(), peer.len(), buf.as_mut_ptr(), buf.len(), out) }
}
/// Whether a response is stored (RFC 9111, 3), and as what. `stored`: the head that was found under the key that was looked up (NULL: nothing), never a vary index's: what is good for others keeps its place (REASON_STORED_IS_GOOD). `served_head` holds while the buffer does.
#[rustfmt::skip]
pub fn decide_store(options: &O<'_>, request: &Q<'_>, head_request: bool, response: &R<'_>, request_time: Moment, response_time: Moment, vary_index: &[u8], stored: &H<'_>, buf: &mut [u8], out: &mut StoreDecision) {
    unsafe { cache_rules1_decide_store(&options.raw, options.text.as_ptr(), options.text.len(), &request.raw, request.text.as_ptr(), request.text.len(), head_request.into(), &response.raw, response.text.as_ptr(), response.text.len(), request_time.seconds, request_time.nanoseconds, response_time.seconds, response_time.nanoseconds, vary_index.as_ptr(), vary_index.len(), &stored.raw, stored.text.as_ptr(), stored.text.len(), buf.as_mut_ptr(), buf.len(), out) }
}
/// What a 304 makes of a stored response (RFC 9111, 4.3.4; `body_len` NONE), or a 200 to HEAD (`body_len`: of the stored body). STORE: revalidate. DO_NOT_STORE: purge if `purge`, and the client is served over `served_head` all the same. MISMATCH: purge if `purge`, and after a 304 fetch again. Only after a forward_request whose `fetch` was FETCH_CONDITIONAL: a 304 after FETCH_FULL answers the client's own condition, and goes to decide_store. The client of a 200 gets relay_response.
#[rustfmt::skip]
pub fn freshen(options: &O<'_>, request: &Q<'_>, stored: &H<'_>, body_len: u64, response: &R<'_>, request_time: Moment, response_time: Moment, buf: &mut [u8], out: &mut StoreDecision) {
    unsafe { cache_rules1_freshen(&options.raw, options.text.as_ptr(), options.text.len(), &request.raw, request.text.as_ptr(), request.text.len(), &stored.raw, stored.text.as_ptr(), stored.text.len(), body_len, &response.raw, response.text.as_ptr(), response.text.len(), request_time.seconds, request_time.nanoseconds, response_time.seconds, response_time.nanoseconds, buf.as_mut_ptr(), buf.len(), out) }
}
/// The response from what is stored, or is being stored: `head`, then each part, then `tail`. `body_len`: of the body if all of it is there (of one in a file its own length, which external_bytes is not), else NONE.
#[rustfmt::skip]
pub fn serve_stored(options: &O<'_>, request: &Q<'_>, stored: &H<'_>, body_len: u64, now: Moment, cache_status: &CacheStatus, buf: &mut [u8], parts: &mut [BodyPart], out: &mut Message) {
    unsafe { cache_rules1_serve_stored(&options.raw, options.text.as_ptr(), options.text.len(), &request.raw, request.text.as_ptr(), request.text.len(), &stored.raw, stored.text.as_ptr(), stored.text.len(), body_len, now.seconds, now.nanoseconds, cache_status, buf.as_mut_ptr(), buf.len(), parts.as_mut_ptr(), parts.len(), out) }
}
/// decide_reuse, and where `reuse` is REUSE_FRESH, REUSE_STALE or REUSE_WHILE_REVALIDATING serve_stored too, in one call: `cache_status` is of a hit. Else `reuse` alone.
#[rustfmt::skip]
pub fn reuse_stored(options: &O<'_>, request: &Q<'_>, stored: &H<'_>, body_len: u64, now: Moment, cache_status: &CacheStatus, buf: &mut [u8], parts: &mut [BodyPart], out: &mut Message) {
    unsafe { cache_rules1_reuse_stored(&options.raw, options.text.as_ptr(), options.text.len(), &request.raw, request.text.as_ptr(), request.text.len(), &stored.raw, stored.text.as_ptr(), stored.text.len(), body_len, now.seconds, now.nanoseconds, cache_status, buf.as_mut_ptr(), buf.len(), parts.as_mut_ptr(), parts.len(), out) }
}
/// The head of a response that is handed on and not stored, and in `parts` what of its body is sent; also of one from 100 to 199, which is not handed on to a client of HTTP/1.0 (RFC 9110, 15.2). By `cache_status.fetch` the client's conditions and its Range, which were not sent, are answered here: 304, 206 of one part, 416. Bytes that are in no part are passed over, or the origin's connection is closed.
#[rustfmt::skip]
pub fn relay_response(options: &O<'_>, request: &Q<'_>, response: &R<'_>, request_time: Moment, response_time: Moment, cache_status: &CacheStatus, buf: &mut [u8], parts: &mut [BodyPart], out: &mut Message) {
    unsafe { cache_rules1_relay_response(&options.raw, options.text.as_ptr(), options.text.len(), &request.raw, request.text.as_ptr(), request.text.len(), &response.raw, response.text.as_ptr(), response.text.len(), request_time.seconds, request_time.nanoseconds, response_time.seconds, response_time.nanoseconds, cache_status, buf.as_mut_ptr(), buf.len(), parts.as_mut_ptr(), parts.len(), out) }
}
/// A response of the proxy's own, to a request that may have been rejected: `head`, and its body in `tail`. `reason`: a cache_rules_reason.
#[rustfmt::skip]
pub fn make_response(options: &O<'_>, request: &Q<'_>, status_code: u64, reason: u64, now: Moment, buf: &mut [u8], out: &mut Message) {
    unsafe { cache_rules1_make_response(&options.raw, options.text.as_ptr(), options.text.len(), &request.raw, request.text.as_ptr(), request.text.len(), status_code, reason, now.seconds, now.nanoseconds, buf.as_mut_ptr(), buf.len(), out) }
}
/// The keys to purge once this response has come (RFC 9111, 4.4): `key_count`, in `tail`.
#[rustfmt::skip]
pub fn invalidated_keys(options: &O<'_>, request: &Q<'_>, response: &R<'_>, buf: &mut [u8], out: &mut Message) {
    unsafe { cache_rules1_invalidated_keys(&options.raw, options.text.as_ptr(), options.text.len(), &request.raw, request.text.as_ptr(), request.text.len(), &response.raw, response.text.as_ptr(), response.text.len(), buf.as_mut_ptr(), buf.len(), out) }
}
/// Decodes a body's bytes as they come; the buffer is for trailers. A body that stops before BODY_END is not whole, but for FRAMING_CLOSE, which ends with the connection. After BUFFER_TOO_SMALL and MEMORY the decoder is as it was, and the same bytes can be given again.
#[rustfmt::skip]
pub fn decode_body(decoder: &mut BodyDecoder, data: &[u8], buf: &mut [u8], out: &mut BodyChunk) {
    unsafe { cache_rules1_decode_body(decoder, data.as_ptr(), data.len(), buf.as_mut_ptr(), buf.len(), out) }
}
/// What goes round a chunk of `chunk_len` bytes of a body (RFC 9112, 7.1): `head` in front of it, `tail` behind; of 0 the last chunk, without trailers.
#[rustfmt::skip]
pub fn encode_chunk(chunk_len: u64, buf: &mut [u8], out: &mut Message) {
    unsafe { cache_rules1_encode_chunk(chunk_len, buf.as_mut_ptr(), buf.len(), out) }
}
