//! What a tier finds.
use crate::ffi::Held;
use crate::given::{Meta, Moment};
use std::fmt;

/// Head and body of a stored response, lent by the library without a copy. It owns what it lends: it outlives its request, later puts, purges and
/// evictions, and the tier; it may be sent to, and read by, other threads. Its drop takes no lock.
///
/// ```
/// use cache_tier::{Meta, Moment, Options, Tier};
/// let mut tier = Tier::new(&Options::new(1 << 20, 2))?;
/// let now = Moment::at(1000);
/// tier.put(now, b"/a", b"HTTP/1.1 200 OK\r\nX-A: 1\r\n\r\n", b"abc", &Meta::ttl(now, 60))?;
/// let stored = tier.get(now, b"/a")?.unwrap();
/// drop(tier);
/// assert_eq!((stored.status_code(), stored.body()), (200, &b"abc"[..]));
/// assert_eq!(stored.iter_fields().last(), Some((&b"x-a"[..], &b"1"[..])));
/// assert!(std::thread::spawn(move || stored.body() == b"abc").join().unwrap());
/// # Ok::<(), cache_tier::Error>(())
/// ```
pub struct Response {
    pub(crate) held: Held,
}
impl Response {
    /// Bytes of a complete body; none while it is being written.
    pub fn body_len(&self) -> Option<u64> {
        Some(self.held.raw.head.body_len).filter(|it| *it != u64::MAX)
    }
    /// The body; of a lookup none, of a read what came.
    pub fn body(&self) -> &[u8] {
        self.held.body()
    }
    /// The field lines of the head, each `name: value\r\n`, names in lower case: ready to be sent.
    pub fn fields(&self) -> &[u8] {
        self.held.fields()
    }
    /// The field lines, as name and value.
    pub fn iter_fields(&self) -> impl Iterator<Item = (&[u8], &[u8])> {
        self.fields().split_inclusive(|it| *it == b'\n').filter_map(|line| {
            let colon = line.iter().position(|it| *it == b':')?;
            Some((&line[..colon], line.get(colon + 2..line.len().checked_sub(2)?)?))
        })
    }
    /// As 200; of a read 0.
    pub fn status_code(&self) -> u16 {
        self.held.raw.head.status_code as u16
    }
    /// Fresh up to and including this moment.
    pub fn fresh_until(&self) -> Moment {
        Moment::of(self.held.raw.head.fresh_until)
    }
    /// When it arrived.
    pub fn created(&self) -> Moment {
        Moment::of(self.held.raw.head.created)
    }
    /// When it arrived or was last revalidated.
    pub fn updated(&self) -> Moment {
        Moment::of(self.held.raw.head.updated)
    }
    /// As `created`; if it replaced something stale, that response's.
    pub fn provenance(&self) -> Moment {
        Moment::of(self.held.raw.head.provenance)
    }
    /// Seconds after `fresh_until` (RFC 5861, 3).
    pub fn stale_while_revalidate(&self) -> u32 {
        self.held.raw.head.stale_while_revalidate as u32
    }
    /// Seconds after `fresh_until` (RFC 5861, 4).
    pub fn stale_if_error(&self) -> u32 {
        self.held.raw.head.stale_if_error as u32
    }
    /// Bytes of the body outside the tier, as declared in its metadata.
    pub fn external_bytes(&self) -> u64 {
        self.held.raw.head.external_bytes
    }
    /// The metadata that it was stored with.
    pub fn meta(&self) -> Meta {
        Meta {
            created: self.created(),
            updated: self.updated(),
            provenance: self.provenance(),
            stale_while_revalidate: self.stale_while_revalidate(),
            stale_if_error: self.stale_if_error(),
            external_bytes: self.external_bytes(),
            ..Meta::until(self.fresh_until(), self.created())
        }
    }
    /// The head as a text that a write takes, with its empty line.
    pub fn to_head(&self) -> Vec<u8> {
        let mut text = format!("HTTP/1.1 {:03} \r\n", self.status_code()).into_bytes();
        text.extend_from_slice(self.fields());
        text.extend_from_slice(b"\r\n");
        text
    }
}
/// The body: so that `bytes::Bytes::from_owner(response)` lends it to any server without a copy.
impl AsRef<[u8]> for Response {
    fn as_ref(&self) -> &[u8] {
        self.body()
    }
}
impl fmt::Debug for Response {
    fn fmt(&self, f: &mut fmt::Formatter<'_>) -> fmt::Result {
        write!(f, "Response({}, {} bytes)", self.status_code(), self.body().len())
    }
}
