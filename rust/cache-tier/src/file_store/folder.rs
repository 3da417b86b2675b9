//! A folder of bodies: files, their checks, the cold rows, a lock for each name, the order of use. It knows no tier.
//!
//! **Order of locks**: the span (for reading), the lock of one key's name, one turn of a partition, then one of the leaves (`cold`, `unread`,
//! `unremoved`, `boots`), none within another. No call of the directory is made under a leaf or in a turn.
use super::cold::Cold;
use super::directory::Directory;
use super::disk::{is_part, MARKER};
use super::format::{key_of_name, FileId, Front, OrderHeader, ORDER_HEADER};
use super::index::PartitionKey;
use crate::given::Digest;
use std::collections::HashSet;
use std::fmt;
use std::fs::File;
use std::io;
use std::sync::atomic::{AtomicI64, AtomicU64, Ordering};
use std::sync::{Mutex, MutexGuard, PoisonError, RwLock, RwLockReadGuard};

pub(crate) const ORDER: &str = "order";
pub(crate) const ORDER_NEXT: &str = "order.next";
pub(crate) const UNFINISHED: &str = "new";
const NAME_LOCKS: usize = 1024;

/// When bytes are put to the disk itself, beyond what the kernel does by itself. What a loss of power takes is never served wrong.
#[derive(Clone, Copy, Debug, PartialEq, Eq)]
pub enum SyncPolicy {
    /// Never: after a loss of power each body is compared with its checks before its first use.
    Never,
    /// The whole file system at each save: only what came after the last one is compared.
    AtSave,
    /// Besides each body before it has its name, and each name: what was stored and what was purged outlasts a loss of power.
    EachBody,
}
#[derive(Clone, Debug)]
#[non_exhaustive]
pub struct FolderOptions {
    /// What all bodies' files may take.
    pub max_bytes: u64,
    /// The greatest number of cold bodies: each takes some 45 bytes of memory.
    pub max_cold: u64,
    pub sync: SyncPolicy,
}
impl FolderOptions {
    /// Four million cold bodies; synced at each save.
    pub fn new(max_bytes: u64) -> FolderOptions {
        FolderOptions { max_bytes, max_cold: 4_000_000, sync: SyncPolicy::AtSave }
    }
}
/// What an open found, at once, whatever lies there.
#[derive(Clone, Copy, Debug, Default, PartialEq, Eq)]
#[non_exhaustive]
pub struct Recovery {
    /// Bodies that the saved order names, and what their files take.
    pub restored: u64,
    pub used_bytes: u64,
    /// There is no saved order, or its first bytes are damaged: `scan` makes it anew from the files.
    pub order_lost: bool,
    /// Unfinished files that were removed.
    pub removed: u64,
    /// Names in the directory that aren't the folder's. They stay.
    pub foreign: u64,
}
/// What a folder counts.
#[derive(Clone, Debug, Default)]
#[non_exhaustive]
pub struct FolderStats {
    /// Cold bodies, and what all bodies' files take.
    pub cold: u64,
    pub used_bytes: u64,
    /// Files that were no whole body, and were removed.
    pub corrupt: u64,
    /// Calls of the directory that failed, and the last of them: what, on which name, why.
    pub errors: u64,
    pub last_error: Option<String>,
}

/// Bodies in files, each named by its key.
pub struct BodyFolder<D: Directory> {
    pub(crate) directory: D,
    pub(crate) options: FolderOptions,
    pub(crate) boot: u64,
    names: Vec<Mutex<()>>,
    /// The span between two saves, which each file tells that comes in it. Held for reading from there till the file has its name.
    pub(crate) span: RwLock<u64>,
    /// Starts of the machine, and what of them is synced.
    pub(crate) boots: Mutex<Vec<(u64, u64)>>,
    pub(crate) cold: Mutex<Cold>,
    /// Evicted keys whose files couldn't be read, each with what names its partition.
    pub(crate) unread: Mutex<Vec<(Digest, PartitionKey)>>,
    /// Keys whose file should have gone and couldn't: it isn't a body any more.
    pub(crate) unremoved: Mutex<HashSet<Digest>>,
    /// Signed: before the scan what went may be more than what is counted.
    pub(crate) used: AtomicI64,
    pub(crate) saving: Mutex<()>,
    pub(crate) corrupt: AtomicU64,
    errors: AtomicU64,
    last_error: Mutex<Option<String>>,
}
impl<D: Directory> fmt::Debug for BodyFolder<D> {
    fn fmt(&self, f: &mut fmt::Formatter<'_>) -> fmt::Result {
        write!(f, "BodyFolder({} bytes)", self.used.load(Ordering::Relaxed))
    }
}

pub(crate) fn held<T>(it: &Mutex<T>) -> MutexGuard<'_, T> {
    it.lock().unwrap_or_else(PoisonError::into_inner)
}
pub(crate) fn name_of(key: &Digest) -> String {
    format!("{:02x}/{}", key.0[0], key)
}
pub(crate) fn unfinished_name(id: &FileId) -> String {
    format!("{}/{}", UNFINISHED, Digest(*id))
}
pub(crate) fn directory_names() -> impl Iterator<Item = (u8, String)> {
    (0..=255u8).map(|it| (it, format!("{:02x}", it)))
}
fn is_ours(name: &str) -> bool {
    is_part(name) || [MARKER, ORDER, ORDER_NEXT, "lost+found"].contains(&name)
}
/// Removes what a kill left unfinished.
fn prepare<D: Directory>(directory: &D, there: &HashSet<String>, told: &mut Recovery) -> io::Result<()> {
    told.foreign = there.iter().filter(|it| !is_ours(it)).count() as u64;
    directory.create_directory(UNFINISHED)?;
    for name in directory.list(UNFINISHED)? {
        if key_of_name(&name).is_some() && directory.remove(&format!("{}/{}", UNFINISHED, name))? {
            told.removed += 1;
        }
    }
    if there.contains(ORDER_NEXT) {
        directory.remove(ORDER_NEXT)?;
    }
    Ok(())
}
impl<D: Directory> BodyFolder<D> {
    /// Reads 512 bytes and lists two directories: what is there can be served at once. Call `scan` in a thread of its own after it.
    pub fn open(directory: D, options: &FolderOptions) -> io::Result<(BodyFolder<D>, Recovery)> {
        let mut told = Recovery::default();
        let there: HashSet<String> = directory.list("")?.into_iter().collect();
        prepare(&directory, &there, &mut told)?;
        let mut header = None;
        if there.contains(ORDER) {
            let (file, mut bytes) = (directory.open(ORDER, false)?, [0; ORDER_HEADER]);
            let count = directory.read_at(&file, 0, &mut bytes)?;
            header = OrderHeader::of(&bytes[..count]);
        }
        told.order_lost = header.is_none();
        let header = header.unwrap_or_default();
        told.restored = header.rows;
        told.used_bytes = header.used;
        let folder = BodyFolder {
            boot: directory.boot(),
            directory,
            options: options.clone(),
            names: (0..NAME_LOCKS).map(|_| Mutex::default()).collect(),
            span: RwLock::new(header.span + 1),
            boots: Mutex::new(header.boots),
            cold: Mutex::default(),
            unread: Mutex::default(),
            unremoved: Mutex::default(),
            used: AtomicI64::new(header.used as i64),
            saving: Mutex::default(),
            corrupt: AtomicU64::new(0),
            errors: AtomicU64::new(0),
            last_error: Mutex::default(),
        };
        Ok((folder, told))
    }
    /// The directory, as it was given.
    pub fn directory(&self) -> &D {
        &self.directory
    }
    pub fn stats(&self) -> FolderStats {
        FolderStats {
            cold: held(&self.cold).len(),
            used_bytes: self.used.load(Ordering::Relaxed).max(0) as u64,
            corrupt: self.corrupt.load(Ordering::Relaxed),
            errors: self.errors.load(Ordering::Relaxed),
            last_error: held(&self.last_error).clone(),
        }
    }
    /// Whether a key that isn't hot may have a file. After the scan no call of the directory is needed to know it.
    pub fn may_be_cold(&self, key: &Digest) -> bool {
        held(&self.cold).may_have(key) && !held(&self.unremoved).contains(key)
    }
    /// Whether a file's bytes may be torn: it was written before the machine's start, and not synced.
    pub(crate) fn is_doubtful(&self, front: &Front) -> bool {
        front.boot != self.boot && !self.is_synced((front.boot, front.span))
    }
    /// Whether a save has synced what was written in that start of the machine and that span.
    pub(crate) fn is_synced(&self, written: (u64, u64)) -> bool {
        let synced = |(boot, span): &(u64, u64)| *boot == written.0 && *span >= written.1;
        held(&self.boots).iter().any(synced)
    }
    /// Counts a failed call of the directory.
    pub(crate) fn noted<T>(&self, what: &str, name: &str, it: io::Result<T>) -> io::Result<T> {
        if let Err(why) = &it {
            self.errors.fetch_add(1, Ordering::Relaxed);
            *held(&self.last_error) = Some(format!("{} {}: {}", what, name, why));
        }
        it
    }
    pub(crate) fn read(&self, name: &str, file: &File, at: u64, buf: &mut [u8]) -> io::Result<usize> {
        self.noted("read", name, self.directory.read_at(file, at, buf))
    }
    pub(crate) fn is_over_budget(&self) -> bool {
        let most = i64::try_from(self.options.max_bytes).unwrap_or(i64::MAX);
        self.used.load(Ordering::Relaxed) > most || held(&self.cold).len() > self.options.max_cold
    }
    /// The span in which a file comes. Held till the file has its name; no second one is asked for meanwhile.
    pub(crate) fn span(&self) -> RwLockReadGuard<'_, u64> {
        self.span.read().unwrap_or_else(PoisonError::into_inner)
    }
    pub(crate) fn name_lock(&self, key: &Digest) -> MutexGuard<'_, ()> {
        held(&self.names[key.partition(self.names.len())])
    }
}
