//! The store: tiers over a folder of bodies.
use super::directory::Directory;
use super::disk::DiskDirectory;
use super::fetch::Finish;
use super::flight::Flight;
use super::folder::{BodyFolder, FolderOptions, FolderStats, Recovery, SyncPolicy};
use super::format::{FileId, Front};
use super::index::{BodyKey, StoreError};
use super::partitions::HotTiers;
use super::scan::Scan;
use super::stored_body::{ReadBody, StoredBody};
use super::waits::Waits;
use crate::given::{Meta, Moment, Options};
use crate::partitions::Partitions;
use crate::words::{Error, Stats};
use std::collections::HashMap;
use std::fmt;
use std::fs::File;
use std::hash::{BuildHasher, Hasher};
use std::io;
use std::sync::atomic::{AtomicU64, Ordering};
use std::sync::{Arc, Mutex};

#[derive(Clone, Debug)]
#[non_exhaustive]
pub struct StoreOptions {
    /// What all bodies' files may take. None: as the tiers' limit, in which what is hot weighs with its file.
    pub max_bytes: Option<u64>,
    /// The greatest number of cold bodies: each takes some 45 bytes of memory.
    pub max_cold: u64,
    pub sync: SyncPolicy,
    /// The greatest length of a body that is stored. None: the tiers' `max_body_bytes`, and where that is 0 half of a partition's share of the limit; never
    /// more than the share.
    pub max_body: Option<u64>,
    /// Up to that length a body stays in memory too, and its hit makes no call of the directory.
    pub max_inline: u64,
    /// Bytes that are kept for those who follow where the storing ended.
    pub max_tail: usize,
}
impl Default for StoreOptions {
    fn default() -> StoreOptions {
        let FolderOptions { max_cold, sync, .. } = FolderOptions::new(0);
        StoreOptions { max_bytes: None, max_cold, sync, max_body: None, max_inline: 0, max_tail: 1 << 20 }
    }
}
/// What a store counts.
#[derive(Clone, Debug, Default)]
#[non_exhaustive]
pub struct StoreStats {
    pub tiers: Stats,
    pub folder: FolderStats,
    /// Bodies put back from their files; responses that weren't stored since they are too large.
    pub revived: u64,
    pub too_large: u64,
}

pub(crate) struct Inner<D: Directory> {
    pub folder: BodyFolder<D>,
    pub index: HotTiers,
    pub options: StoreOptions,
    /// A partition's share of the limit.
    share: u64,
    /// Ids of files: a random word of this start, and a count.
    run: u64,
    next: AtomicU64,
    pub flights: Mutex<HashMap<FileId, Arc<Flight>>>,
    pub waits: Waits,
    pub revived: AtomicU64,
    too_large: AtomicU64,
}
/// A set of tiers whose bodies lie in files. A clone is the same store.
pub struct FileStore<D: Directory = DiskDirectory> {
    pub(crate) inner: Arc<Inner<D>>,
}
impl<D: Directory> Clone for FileStore<D> {
    fn clone(&self) -> FileStore<D> {
        FileStore { inner: self.inner.clone() }
    }
}
impl<D: Directory> fmt::Debug for FileStore<D> {
    fn fmt(&self, f: &mut fmt::Formatter<'_>) -> fmt::Result {
        write!(f, "FileStore({:?})", self.inner.folder)
    }
}
impl<D: Directory> Inner<D> {
    pub fn new_id(&self) -> FileId {
        let mut id = [0; 16];
        id[..8].copy_from_slice(&self.run.to_le_bytes());
        id[8..].copy_from_slice(&self.next.fetch_add(1, Ordering::Relaxed).to_le_bytes());
        id
    }
    /// Whether a body of such a length may be stored under such a head.
    pub fn fits(&self, length: u64, head: usize) -> bool {
        let weight = length.saturating_add(length / 4096).saturating_add(20_000 + 4 * head as u64);
        let fits = length <= self.options.max_body.unwrap_or(self.share / 2) && weight <= self.share;
        if !fits {
            self.too_large.fetch_add(1, Ordering::Relaxed);
        }
        fits
    }
}
impl<D: Directory> ReadBody for Inner<D> {
    fn read_body(&self, file: &File, at: u64, buf: &mut [u8]) -> io::Result<usize> {
        self.folder.read("a body", file, at, buf)
    }
    fn found_corrupt(&self, front: &Front) {
        self.folder.remove_if_same(&self.index, &BodyKey::new(&front.key).with_first(&front.first), &front.id);
    }
}
impl<D: Directory> FileStore<D> {
    /// A new store over a directory, which serves at once what is there. Call `scan` in a thread of its own after it.
    pub fn open(directory: D, tiers: &Options, partitions: usize, options: &StoreOptions) -> io::Result<(FileStore<D>, Recovery)> {
        let mut of_folder = FolderOptions::new(options.max_bytes.unwrap_or(tiers.max_bytes));
        let max_body = options.max_body.or_else(|| Some(tiers.max_body_bytes).filter(|it| *it != 0));
        // (max_bytes: so what is hot is within the budget; no bound of their own: a body is compared before its file is written, which has more bytes)
        let tiers = Options { max_bytes: tiers.max_bytes.min(of_folder.max_bytes), max_body_bytes: u64::MAX, ..tiers.clone() };
        let hot = Partitions::new(&tiers, partitions).map_err(|it| io::Error::new(io::ErrorKind::Other, it))?;
        of_folder.max_cold = options.max_cold;
        of_folder.sync = options.sync;
        let (folder, told) = BodyFolder::open(directory, &of_folder)?;
        let inner = Inner {
            folder,
            index: HotTiers { tiers: hot },
            options: StoreOptions { max_body, ..options.clone() },
            share: tiers.max_bytes / partitions as u64,
            run: std::collections::hash_map::RandomState::new().build_hasher().finish(),
            next: AtomicU64::new(0),
            flights: Mutex::default(),
            waits: Waits::new(),
            revived: AtomicU64::new(0),
            too_large: AtomicU64::new(0),
        };
        Ok((FileStore { inner: Arc::new(inner) }, told))
    }
    /// Reads the saved order and lists the directories, once: it finds the bodies that came after the last save, and lets the budget hold of cold bodies
    /// too. It holds no lock but for moments. A second call does nothing.
    pub fn scan(&self) -> io::Result<Scan> {
        self.inner.folder.scan(&self.inner.index)
    }
    /// Writes the order of use, so that a start has it: at the end and each minute. Bodies don't need it. Returns how many bodies it named. Where it fails
    /// the last one stays.
    pub fn save(&self) -> io::Result<u64> {
        self.inner.folder.save(&self.inner.index)
    }
    /// A fresh and whole body. None: look it up. An error of the disk is no miss: the body stays; go on without the store.
    pub fn get<'a>(&self, now: Moment, key: impl Into<BodyKey<'a>>) -> Result<Option<StoredBody>, StoreError> {
        self.inner.get(now, &key.into())
    }
    /// A fresh and whole body that is in memory, without a call of the directory: before a program hands `get` or `lookup` to a thread that may block.
    pub fn get_in_memory<'a>(&self, now: Moment, key: impl Into<BodyKey<'a>>) -> Result<Option<StoredBody>, Error> {
        let key = key.into();
        let found = self.inner.index.with_tier(key.partition(), |tier| tier.get(now, &key.key))?;
        Ok(found.filter(super::partitions::is_in_memory).map(StoredBody::in_memory))
    }
    /// Whether anything was there, or is fetched. It and its file are gone when this returns Ok, also after a kill. An error: the tier has it no more, and
    /// this run doesn't serve it, but its file is there still and a later start may: purge it again.
    pub fn purge<'a>(&self, key: impl Into<BodyKey<'a>>) -> Result<bool, StoreError> {
        self.inner.folder.purge(&self.inner.index, &key.into())
    }
    /// Stores a whole response at once.
    pub fn put<'a>(&self, now: Moment, key: impl Into<BodyKey<'a>>, head: &[u8], body: &[u8], meta: &Meta) -> Result<Finish, StoreError> {
        self.inner.put(now, &key.into(), head, body, meta)
    }
    /// What is counted.
    pub fn stats(&self) -> StoreStats {
        let it = &self.inner;
        StoreStats {
            tiers: it.index.tiers.stats(),
            folder: it.folder.stats(),
            revived: it.revived.load(Ordering::Relaxed),
            too_large: it.too_large.load(Ordering::Relaxed),
        }
    }
    /// The directory, as it was given.
    pub fn directory(&self) -> &D {
        self.inner.folder.directory()
    }
}
