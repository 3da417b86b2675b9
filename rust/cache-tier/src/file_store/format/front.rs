//! The first 128 bytes of a body's file, and the text of its key.
use super::{array, checks_len, u32_at, u64_at, xxh64};
use crate::given::Digest;
use std::convert::TryFrom;

/// The 16 bytes by which an index names a file's content: never used again.
pub type FileId = [u8; 16];
pub(crate) const FRONT: usize = 128;
const MAGIC: &[u8; 16] = b"cache-tier body2";
/// The longest text of a key that a file has.
pub(crate) const MAX_TEXT: usize = 8192;

/// What names a file's content.
#[derive(Clone, Copy, Debug, PartialEq, Eq)]
pub(crate) struct Front {
    pub id: FileId,
    pub key: Digest,
    /// The digest that names the partition, for any number of partitions.
    pub first: Digest,
    /// The start of the machine it was written in, and the span between two saves.
    pub boot: u64,
    pub span: u64,
    pub length: u64,
    /// Bytes of a slot, and of the text's record.
    pub slot: u32,
    pub text: u32,
    /// The check of the one block, or of the checks.
    pub checks: u64,
}
impl Front {
    /// Where a slot begins.
    pub fn slot_start(&self, at: u8) -> u64 {
        FRONT as u64 + u64::from(self.text) + u64::from(at) * u64::from(self.slot)
    }
    /// Where the body begins.
    pub fn body_start(&self) -> u64 {
        self.slot_start(2)
    }
    /// The length of the whole file.
    pub fn size(&self) -> u64 {
        self.body_start().saturating_add(self.length).saturating_add(checks_len(self.length))
    }
    pub fn bytes(&self) -> Vec<u8> {
        let mut it = MAGIC.to_vec();
        it.extend_from_slice(&self.id);
        it.extend_from_slice(&self.key.0);
        for number in [self.boot, self.span, self.length, u64::from(self.slot), self.checks] {
            it.extend_from_slice(&number.to_le_bytes());
        }
        it.extend_from_slice(&self.first.0);
        it.extend_from_slice(&self.text.to_le_bytes());
        it.resize(FRONT - 8, 0);
        let own = xxh64(0, &it);
        it.extend_from_slice(&own.to_le_bytes());
        it
    }
    pub fn of(bytes: &[u8]) -> Option<Front> {
        let it = bytes.get(..FRONT)?;
        if !it.starts_with(MAGIC) || xxh64(0, &it[..FRONT - 8]) != u64_at(it, FRONT - 8) {
            return None;
        }
        Some(Front {
            id: array(&it[16..32]),
            key: Digest(array(&it[32..48])),
            boot: u64_at(it, 48),
            span: u64_at(it, 56),
            length: u64_at(it, 64),
            slot: u32::try_from(u64_at(it, 72)).ok()?,
            checks: u64_at(it, 80),
            first: Digest(array(&it[88..104])),
            text: u32_at(it, 104),
        })
    }
}

/// Bytes of the record of a text.
pub(crate) fn text_record_len(text: &[u8]) -> u32 {
    (2 + text.len() + 8) as u32
}
/// The text of a key, with its length and its check.
pub(crate) fn text_record(id: &FileId, text: &[u8]) -> Vec<u8> {
    let mut it = (text.len() as u16).to_le_bytes().to_vec();
    it.extend_from_slice(text);
    let own = xxh64(u64_at(id, 0), &it);
    it.extend_from_slice(&own.to_le_bytes());
    it
}
/// None: the record is damaged.
pub(crate) fn text_of_record(id: &FileId, record: &[u8]) -> Option<Vec<u8>> {
    let (it, own) = record.split_at(record.len().checked_sub(8)?);
    let length = usize::from(u16::from_le_bytes(array(it.get(..2)?)));
    if it.len() != 2 + length || xxh64(u64_at(id, 0), it) != u64_at(own, 0) {
        return None;
    }
    Some(it[2..].to_vec())
}

/// The key that a name of 32 hex digits tells.
pub(crate) fn key_of_name(name: &str) -> Option<Digest> {
    let digit = |it: u8| match it {
        b'0'..=b'9' => Some(it - b'0'),
        b'a'..=b'f' => Some(it - b'a' + 10),
        _ => None,
    };
    let (name, mut key) = (name.as_bytes(), [0; 16]);
    if name.len() != 32 {
        return None;
    }
    for (at, it) in key.iter_mut().enumerate() {
        *it = digit(name[2 * at])? << 4 | digit(name[2 * at + 1])?;
    }
    Some(Digest(key))
}
