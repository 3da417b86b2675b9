//! What is done within the lock of a key's name.
use super::body_file::{BodyFile, Contents};
use super::directory::Directory;
use super::folder::{held, name_of, unfinished_name, BodyFolder, SyncPolicy};
use super::format::{file_bytes, FileId, Front, Row, Slot, FRONT, UNIT};
use super::index::PartitionKey;
use super::new_body::SealedBody;
use crate::given::{Digest, Meta};
use std::convert::TryFrom;
use std::fmt;
use std::fs::File;
use std::io::{self, ErrorKind};
use std::sync::atomic::Ordering;
use std::sync::RwLockReadGuard;

/// The lock of a key's name is held: nobody else changes which file the key has.
pub struct KeyLock<'f, D: Directory> {
    folder: &'f BodyFolder<D>,
    key: Digest,
    span: u64,
}
impl<D: Directory> fmt::Debug for KeyLock<'_, D> {
    fn fmt(&self, f: &mut fmt::Formatter<'_>) -> fmt::Result {
        write!(f, "KeyLock({})", self.key)
    }
}
pub(crate) fn units(bytes: u64) -> u32 {
    u32::try_from(bytes / UNIT).unwrap_or(u32::MAX)
}
impl<D: Directory> BodyFolder<D> {
    /// Runs what changes or compares a key's file, within the lock of its name. Calls of the index are made in it; no other key's is taken meanwhile.
    pub fn with_key<R>(&self, key: &Digest, run: impl FnOnce(&KeyLock<'_, D>) -> R) -> R {
        self.with_key_in(self.span(), key, run)
    }
    /// The same in a span that a file was sealed in.
    pub(crate) fn with_key_in<R>(&self, span: RwLockReadGuard<'_, u64>, key: &Digest, run: impl FnOnce(&KeyLock<'_, D>) -> R) -> R {
        let _held = self.name_lock(key);
        run(&KeyLock { folder: self, key: *key, span: *span })
    }
    pub(crate) fn uncount(&self, key: &Digest, takes: u64) {
        let counted = held(&self.cold).forget(key, takes);
        self.used.fetch_sub(counted as i64, Ordering::Relaxed);
    }
    pub(crate) fn count(&self, bytes: u64) {
        self.used.fetch_add(bytes as i64, Ordering::Relaxed);
    }
}
impl<D: Directory> KeyLock<'_, D> {
    /// The key's file, with its head.
    pub fn contents(&self) -> io::Result<Contents> {
        self.folder.contents(&self.key, false)
    }
    /// Whether it has a row among the cold ones.
    pub fn is_cold(&self) -> bool {
        held(&self.folder.cold).is_cold(&self.key)
    }
    /// Gives a whole new file the key's name: the one rename by which it is stored. `before`: what the file of the index's old body takes; none: it had
    /// none, but one that was evicted may be there still.
    pub fn store(&self, body: &SealedBody, before: Option<u64>) -> io::Result<()> {
        let (folder, name) = (self.folder, name_of(&self.key));
        let before = match before {
            None => folder.noted("stat", &name, folder.directory.len_of(&name))?.map(file_bytes),
            other => other,
        };
        folder.noted("rename", &name, self.rename(&unfinished_name(&body.id), &name))?;
        folder.uncount(&self.key, before.unwrap_or(0));
        folder.count(body.file_bytes);
        held(&folder.unremoved).remove(&self.key);
        let _told_by_the_stats = self.sync_name();
        Ok(())
    }
    /// Its directory is made where it isn't there yet.
    fn rename(&self, from: &str, name: &str) -> io::Result<()> {
        let directory = &self.folder.directory;
        match directory.rename(from, name) {
            Err(why) if why.kind() == ErrorKind::NotFound => {
                directory.create_directory(&name[..2])?;
                if self.folder.options.sync == SyncPolicy::EachBody {
                    directory.sync_directory("")?;
                }
                directory.rename(from, name)
            }
            other => other,
        }
    }
    /// Makes the rename or removal outlast a loss of power, where that is asked for.
    pub(crate) fn sync_name(&self) -> io::Result<()> {
        if self.folder.options.sync != SyncPolicy::EachBody {
            return Ok(());
        }
        let name = name_of(&self.key);
        match self.folder.directory.sync_directory(&name[..2]) {
            Err(why) if why.kind() == ErrorKind::NotFound => Ok(()), // nothing was ever in it
            other => self.folder.noted("sync", &name, other),
        }
    }
    /// A cold body is hot from now on.
    pub fn mark_hot(&self, body: &BodyFile) {
        let bytes = body.file_bytes();
        self.folder.uncount(&self.key, bytes); // it was counted by its row, and is now by its size
        self.folder.count(bytes);
    }
    /// An evicted body is cold from now on, the newest. What isn't a body goes; what can't be read now is looked at again by the next save. `partition`:
    /// one that goes where the evicted body was.
    pub(crate) fn mark_cold(&self, partition: PartitionKey) {
        match self.contents() {
            Ok(Contents::Body(it)) => {
                let units = units(it.file_bytes());
                held(&self.folder.cold).add(Row { key: self.key, partition: PartitionKey::of(&it.front.first), units });
            }
            Ok(Contents::Missing) => self.folder.uncount(&self.key, 0),
            Ok(Contents::Corrupt) => {
                let _told_by_the_stats = self.remove_corrupt(None);
            }
            Err(_) => {
                held(&self.folder.cold).add_unread(self.key.0[0]);
                held(&self.folder.unread).push((self.key, partition));
            }
        }
    }
    /// The file is gone without our doing. `counted`: of a hot body, what it took.
    pub(crate) fn mark_missing(&self, counted: Option<u64>) {
        if counted.is_some() || self.is_cold() {
            self.folder.uncount(&self.key, counted.unwrap_or(0));
        }
    }
    pub(crate) fn remove_corrupt(&self, counted: Option<u64>) -> io::Result<bool> {
        self.folder.corrupt.fetch_add(1, Ordering::Relaxed);
        self.unlink(counted)
    }
    /// Says in a compared file that it is of this start of the machine, so that it isn't compared again.
    pub(crate) fn mark_compared(&self, front: &Front) {
        let (folder, name) = (self.folder, name_of(&self.key));
        let now = Front { boot: folder.boot, span: self.span, ..*front };
        let write = || folder.directory.write_at(&folder.directory.open(&name, true)?, 0, &now.bytes());
        let _compared_again_after_the_next = folder.noted("write", &name, write());
    }
    /// Removes the key's file: whether it was there. If that fails its front is wiped, so that it is no body any more; if that too, it is an error, and
    /// this run doesn't take it for one. `counted`: of a hot body, what its file took (by now it may have another length); none: nothing is hot.
    pub fn unlink(&self, counted: Option<u64>) -> io::Result<bool> {
        let (folder, name) = (self.folder, name_of(&self.key));
        let remove = || -> io::Result<(bool, u64)> {
            if let Some(bytes) = counted {
                return Ok((folder.directory.remove(&name)?, bytes));
            }
            let length = folder.directory.len_of(&name)?;
            Ok((length.is_some() && folder.directory.remove(&name)?, length.map_or(0, file_bytes)))
        };
        match folder.noted("remove", &name, remove()) {
            Ok((there, bytes)) => {
                folder.uncount(&self.key, bytes);
                Ok(there)
            }
            Err(why) => {
                held(&folder.unremoved).insert(self.key);
                // (a later scan removes what was wiped)
                folder.noted("write", &name, self.wipe(&name)).map(|_| true).map_err(|_| why)
            }
        }
    }
    fn wipe(&self, name: &str) -> io::Result<()> {
        let directory = &self.folder.directory;
        let file = directory.open(name, true)?;
        directory.write_at(&file, 0, &[0; FRONT])?;
        self.sync_file(&file)
    }
    /// Makes what was written into a file outlast a loss of power, where that is asked for.
    fn sync_file(&self, file: &File) -> io::Result<()> {
        match self.folder.options.sync {
            SyncPolicy::EachBody => self.folder.directory.sync(file),
            _ => Ok(()),
        }
    }
    /// Writes a renewed head into the slot that doesn't count. Where it doesn't fit the older one is written there, as good for as long as both allow: so
    /// a later start asks the origin once more. An older head of this id never comes back over a newer one, since the index is asked for it within the
    /// lock. An error: the file has its older head still.
    pub fn freshen(&self, id: &FileId, head: &[u8], meta: &Meta) -> io::Result<()> {
        let folder = self.folder;
        let written = || -> io::Result<()> {
            let it = match folder.contents(&self.key, true)? {
                Contents::Body(it) if it.front.id == *id => it,
                _ => return Ok(()),
            };
            let (turn, written, slot) = (it.slot.turn + 1, (folder.boot, self.span), &it.slot);
            let mut bytes = Slot::bytes(turn, written, meta, head, id);
            if bytes.len() > it.front.slot as usize {
                bytes = Slot::bytes(turn, written, &good_for_both(&slot.meta, meta), &slot.head, id);
            }
            let owed = folder.is_synced((it.front.boot, it.front.span)) && !folder.is_synced(slot.written);
            if owed && folder.options.sync == SyncPolicy::AtSave {
                folder.directory.sync(&it.file)?; // a second renewal since the save: a loss of power could tear both slots
            }
            folder.directory.write_at(&it.file, it.front.slot_start(1 - it.slot_place), &bytes)?;
            self.sync_file(&it.file)
        };
        folder.noted("freshen", &name_of(&self.key), written())
    }
}
/// An older meta, but fresh and served stale no longer than a newer one allows.
fn good_for_both(old: &Meta, new: &Meta) -> Meta {
    Meta {
        fresh_until: old.fresh_until.min(new.fresh_until),
        stale_while_revalidate: old.stale_while_revalidate.min(new.stale_while_revalidate),
        stale_if_error: old.stale_if_error.min(new.stale_if_error),
        ..*old
    }
}
/// Whether a newer meta takes back what an older one allowed.
pub(crate) fn takes_back(old: &Meta, new: &Meta) -> bool {
    let both = good_for_both(old, new);
    (both.fresh_until, both.stale_while_revalidate, both.stale_if_error) != (old.fresh_until, old.stale_while_revalidate, old.stale_if_error)
}
