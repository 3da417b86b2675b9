//! What a folder of bodies asks of who knows which bodies are hot.
use super::format::FileId;
use crate::given::Digest;
use crate::words::Error;
use std::fmt;
use std::io;

/// The last four bytes of a first key's digest: by these it goes to its partition, whatever their number.
#[derive(Clone, Copy, Debug, PartialEq, Eq, Hash)]
pub struct PartitionKey(pub [u8; 4]);
impl PartitionKey {
    pub fn of(first: &Digest) -> PartitionKey {
        let [.., a, b, c, d] = first.0;
        PartitionKey([a, b, c, d])
    }
    pub fn partition(self, partitions: usize) -> usize {
        let mut first = Digest([0; 16]);
        first.0[12..].copy_from_slice(&self.0);
        first.partition(partitions)
    }
}
/// A body's key: a digest, that of the first key where it differs (as a resource's has variants), and its text, for who reads the folder.
#[derive(Clone, Copy, Debug)]
pub struct BodyKey<'a> {
    pub key: Digest,
    pub first: Digest,
    /// At most 8 KB of it are kept: a longer one is left out.
    pub text: &'a [u8],
}
impl<'a> BodyKey<'a> {
    pub fn new(key: &Digest) -> BodyKey<'a> {
        BodyKey { key: *key, first: *key, text: &[] }
    }
    /// The first key names the partition.
    pub fn with_first(self, first: &Digest) -> BodyKey<'a> {
        BodyKey { first: *first, ..self }
    }
    pub fn with_text(self, text: &[u8]) -> BodyKey<'_> {
        BodyKey { key: self.key, first: self.first, text }
    }
    pub fn partition(&self) -> PartitionKey {
        PartitionKey::of(&self.first)
    }
}
impl From<&Digest> for BodyKey<'_> {
    fn from(key: &Digest) -> Self {
        BodyKey::new(key)
    }
}

/// A hot body, for the order of use.
#[derive(Clone, Copy, Debug)]
pub struct HotEntry {
    pub key: Digest,
    pub partition: PartitionKey,
    /// What its file takes.
    pub file_bytes: u64,
}
/// What an index had of a key.
#[derive(Clone, Copy, Debug, Default, PartialEq, Eq)]
pub struct Purged {
    /// Whether anything was there, or was being written.
    pub any: bool,
    /// What the file of its body takes; none: it had no body.
    pub file_bytes: Option<u64>,
}
/// Which bodies are hot: in memory, with the id of their files. Each call is one turn of the lock of one partition, and calls no folder.
pub trait HotIndex {
    fn partitions(&self) -> usize;
    /// The id of the body that a key has. It is no use of it.
    fn peek(&self, key: &Digest, partition: PartitionKey) -> Result<Option<FileId>, Error>;
    /// Removes what a key has, and what is written for it.
    fn purge(&self, key: &Digest, partition: PartitionKey) -> Result<Purged, Error>;
    /// Adds entries of a partition's order of use, most recently used first, from a place on; and tells how many it has. A list begins with place 0.
    fn list(&self, partition: usize, from: u64, most: u64, to: &mut Vec<HotEntry>) -> Result<u64, Error>;
}

/// Why a call failed. The body, if there is one, is as it was.
#[derive(Debug)]
pub enum StoreError {
    Index(Error),
    Disk(io::Error),
}
impl From<Error> for StoreError {
    fn from(it: Error) -> StoreError {
        StoreError::Index(it)
    }
}
impl From<io::Error> for StoreError {
    fn from(it: io::Error) -> StoreError {
        StoreError::Disk(it)
    }
}
impl fmt::Display for StoreError {
    fn fmt(&self, f: &mut fmt::Formatter<'_>) -> fmt::Result {
        match self {
            StoreError::Index(it) => it.fmt(f),
            StoreError::Disk(it) => it.fmt(f),
        }
    }
}
impl std::error::Error for StoreError {}
