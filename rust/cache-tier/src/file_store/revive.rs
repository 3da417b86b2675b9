//! Hits: what the tier has is opened by its name; what is cold is put back into the tier.
use super::body_file::{BodyFile, Contents};
use super::directory::Directory;
use super::format::{block_len, blocks, xxh64, FileId};
use super::index::{BodyKey, HotIndex, StoreError};
use super::key_lock::KeyLock;
use super::partitions::{id_of, is_in_memory, token_rest};
use super::store::Inner;
use super::stored_body::StoredBody;
use crate::response::Response;
use crate::given::{Digest, Meta, Moment};
use std::io;
use std::sync::atomic::Ordering;
use std::sync::Arc;

/// So often a look-up begins anew, since what it found was replaced meanwhile.
pub(crate) const LOOKS: usize = 64;
pub(crate) fn changes_always(key: &BodyKey<'_>) -> StoreError {
    StoreError::Disk(io::Error::new(io::ErrorKind::Other, format!("the file of {} changes at each look", key.key)))
}
/// What a look at a cold key's file came to.
enum Revival {
    /// There is none that may be served.
    None,
    /// Another put it back, or stored it, meanwhile.
    Hot,
    /// It is in the tier, which gave up these for it.
    Revived(Vec<Digest>),
    /// It has to be compared with its checks first, without a lock.
    Doubtful(BodyFile),
    Failed(crate::Error),
}
impl<D: Directory> Inner<D> {
    pub fn get(self: &Arc<Self>, now: Moment, key: &BodyKey<'_>) -> Result<Option<StoredBody>, StoreError> {
        let mut revived = false;
        for _ in 0..LOOKS {
            match self.index.with_tier(key.partition(), |tier| tier.get(now, &key.key))? {
                Some(found) => match id_of(found.body()) {
                    None => return Ok(None), // no body of this store
                    Some(id) => match self.body_of(key, found)? {
                        Some(body) => return Ok(Some(body)),
                        None => self.recheck(key, &id)?,
                    },
                },
                None if revived || !self.revive(key)? => return Ok(None),
                None => revived = true,
            }
        }
        Err(changes_always(key))
    }
    /// The body of what the tier has. None: its file isn't there, or has another's bytes (yet, or any more).
    pub fn body_of(self: &Arc<Self>, key: &BodyKey<'_>, found: Response) -> Result<Option<StoredBody>, StoreError> {
        if is_in_memory(&found) {
            return Ok(Some(StoredBody::in_memory(found)));
        }
        let id = match id_of(found.body()) {
            Some(id) => id,
            None => return Ok(None),
        };
        let opened = self.folder.open_id(&key.key, &id)?;
        Ok(opened.map(|(file, front)| StoredBody::in_file(found, file, front, self.clone())))
    }
    /// After a body whose file isn't as the tier has it: waits for who changes it. If nobody did the file is corrupt, and the body goes.
    pub fn recheck(&self, key: &BodyKey<'_>, id: &FileId) -> Result<(), StoreError> {
        self.folder.with_key(&key.key, |lock| {
            if self.index.peek(&key.key, key.partition())? != Some(*id) {
                return Ok(());
            }
            match lock.contents()? {
                Contents::Body(it) if it.id() == *id => Ok(()), // it was renamed meanwhile
                Contents::Missing => {
                    lock.mark_missing(self.index.purge(&key.key, key.partition())?.file_bytes);
                    Ok(())
                }
                _ => {
                    lock.remove_corrupt(self.index.purge(&key.key, key.partition())?.file_bytes)?;
                    Ok(())
                }
            }
        })
    }
    /// Puts a cold body back. True: look again.
    pub fn revive(&self, key: &BodyKey<'_>) -> Result<bool, StoreError> {
        if !self.folder.may_be_cold(&key.key) {
            return Ok(false);
        }
        let mut compared = None;
        loop {
            match self.folder.with_key(&key.key, |lock| self.revive_in(lock, key, compared))? {
                Revival::None => return Ok(false),
                Revival::Hot => return Ok(true),
                Revival::Revived(evicted) => {
                    self.revived.fetch_add(1, Ordering::Relaxed);
                    self.folder.unlink_evicted(&self.index, &evicted, key.partition());
                    return Ok(true);
                }
                Revival::Doubtful(file) => {
                    if !self.folder.is_whole(&file.file, &file.front)? {
                        self.remove_torn(key, &file.id())?;
                        return Ok(false);
                    }
                    compared = Some(file.id());
                }
                Revival::Failed(why) => {
                    self.folder.unlink_evicted(&self.index, &why.evicted, key.partition());
                    return Err(why.into());
                }
            }
        }
    }
    fn revive_in(&self, lock: &KeyLock<'_, D>, key: &BodyKey<'_>, compared: Option<FileId>) -> Result<Revival, StoreError> {
        if self.index.peek(&key.key, key.partition())?.is_some() {
            return Ok(Revival::Hot);
        }
        let file = match lock.contents()? {
            Contents::Missing => {
                lock.mark_missing(None);
                return Ok(Revival::None);
            }
            Contents::Corrupt => {
                lock.remove_corrupt(None)?;
                return Ok(Revival::None);
            }
            Contents::Body(it) => it,
        };
        if file.front.first != key.first || !self.fits(file.length(), file.head().len()) {
            return Ok(Revival::None); // of another partition, or of a larger share: it stays cold
        }
        if self.folder.is_doubtful(&file.front) {
            if compared != Some(file.id()) {
                return Ok(Revival::Doubtful(file));
            }
            lock.mark_compared(&file.front);
        }
        let inline = match self.read_inline(lock, key, &file)? {
            Some(it) => it,
            None => return Ok(Revival::None),
        };
        Ok(self.put_back(lock, key, &file, inline.as_deref()))
    }
    /// The bytes of a small body, compared: Some(None) of a larger one. None: they are corrupt, and the file is gone.
    #[allow(clippy::type_complexity)]
    fn read_inline(&self, lock: &KeyLock<'_, D>, key: &BodyKey<'_>, file: &BodyFile) -> Result<Option<Option<Vec<u8>>>, StoreError> {
        let length = file.length();
        if length > self.options.max_inline {
            return Ok(Some(None));
        }
        let mut bytes = vec![0; length as usize];
        let one = blocks(length) == 1;
        let whole = if one {
            let count = self.folder.read("a body", &file.file, file.front.body_start(), &mut bytes)?;
            count == block_len(length, 0) && xxh64(0, &bytes) == file.front.checks
        } else {
            self.folder.is_whole(&file.file, &file.front)?
                && self.folder.read("a body", &file.file, file.front.body_start(), &mut bytes)? as u64 == length
        };
        if !whole {
            debug_assert_eq!(file.front.key, key.key);
            lock.remove_corrupt(None)?;
            return Ok(None);
        }
        Ok(Some(Some(bytes)))
    }
    fn put_back(&self, lock: &KeyLock<'_, D>, key: &BodyKey<'_>, file: &BodyFile, inline: Option<&[u8]>) -> Revival {
        let mut token = file.id().to_vec();
        token.extend_from_slice(&token_rest(key.partition(), inline));
        let meta = Meta { external_bytes: file.file_bytes(), ..file.meta() };
        match self.index.with_tier(key.partition(), |tier| tier.put(meta.updated, &key.key, file.head(), &token, &meta)) {
            Ok(stored) => {
                lock.mark_hot(file);
                Revival::Revived(stored.evicted)
            }
            Err(why) => Revival::Failed(why),
        }
    }
    fn remove_torn(&self, key: &BodyKey<'_>, id: &FileId) -> Result<(), StoreError> {
        self.folder.with_key(&key.key, |lock| match lock.contents()? {
            Contents::Body(it) if it.id() == *id && self.index.peek(&key.key, key.partition())?.is_none() => {
                lock.remove_corrupt(None)?;
                Ok(())
            }
            _ => Ok(()),
        })
    }
}
