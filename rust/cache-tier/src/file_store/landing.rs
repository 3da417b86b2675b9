//! A whole new file gets its key's name.
use super::directory::Directory;
use super::fetch::{Finish, WhyNotStored};
use super::index::{BodyKey, HotIndex, StoreError};
use super::key_lock::KeyLock;
use super::new_body::NewBody;
use super::partitions::token_rest;
use super::store::Inner;
use crate::given::{Digest, Meta, Moment};
use crate::words::{Error, ErrorKind};
use std::io;

/// What the tier took: what the key's old file takes, and the keys of what went for the new one.
pub(crate) type Taken = Result<(Option<u64>, Vec<Digest>), Error>;
enum Landing {
    Stored(Vec<Digest>),
    Refused(Error),
    /// The tier has lost what the key had before, so its file went too; or couldn't.
    NotRenamed(Vec<Digest>, io::Error, Result<(), StoreError>),
}
impl<D: Directory> Inner<D> {
    /// Ends a file; the tier takes it, by `take`, which is given what the file takes; then it has its key's name. What the tier refuses goes.
    ///
    /// The tier comes first, since a purge that came meanwhile must win; and who sees the new id in the tier before the rename finds another in the file, and
    /// waits for the lock of the name. So what was ever served outlives a kill.
    pub fn land(
        &self,
        key: &BodyKey<'_>,
        body: &mut NewBody,
        (head, meta): (&[u8], &Meta),
        take: impl FnOnce(u64) -> Taken,
    ) -> Result<Finish, StoreError> {
        let landing = self.folder.finish(body, head, meta, |lock, sealed| match take(sealed.file_bytes()) {
            Err(why) => Landing::Refused(why),
            Ok((before, evicted)) => match lock.store(sealed, before) {
                Ok(()) => Landing::Stored(evicted),
                Err(why) => Landing::NotRenamed(evicted, why, self.remove_replaced(lock, key, before)),
            },
        });
        if !matches!(landing, Ok(Landing::Stored(_))) {
            self.folder.discard(&body.id());
        }
        match landing {
            Err(why) => Ok(Finish::NotStored(WhyNotStored::Disk(why))),
            Ok(Landing::Stored(evicted)) => {
                self.folder.unlink_evicted(&self.index, &evicted, key.partition());
                Ok(if evicted.contains(&key.key) { Finish::NotStored(WhyNotStored::TooLarge) } else { Finish::Stored { evicted } })
            }
            Ok(Landing::NotRenamed(evicted, why, removed)) => {
                self.folder.unlink_evicted(&self.index, &evicted, key.partition());
                removed.map(|_| Finish::NotStored(WhyNotStored::Disk(why)))
            }
            Ok(Landing::Refused(why)) => self.refused(key, why),
        }
    }
    fn remove_replaced(&self, lock: &KeyLock<'_, D>, key: &BodyKey<'_>, before: Option<u64>) -> Result<(), StoreError> {
        self.index.purge(&key.key, key.partition())?; // (the new body's file isn't counted yet)
        lock.unlink(before)?;
        Ok(())
    }
    fn refused(&self, key: &BodyKey<'_>, why: Error) -> Result<Finish, StoreError> {
        let mut gone = why.evicted.clone();
        if why.body_removed || why.entry_removed {
            gone.push(key.key);
        }
        self.folder.unlink_evicted(&self.index, &gone, key.partition());
        match why.kind {
            ErrorKind::WriteRemoved => Ok(Finish::NotStored(WhyNotStored::Removed)),
            _ => Err(why.into()),
        }
    }
    pub fn put(&self, now: Moment, key: &BodyKey<'_>, head: &[u8], bytes: &[u8], meta: &Meta) -> Result<Finish, StoreError> {
        if !self.fits(bytes.len() as u64, head.len()) {
            return Ok(Finish::NotStored(WhyNotStored::TooLarge));
        }
        let id = self.new_id();
        let mut body = match self.folder.create(&id, key, head.len(), Some(bytes.len() as u64)) {
            Ok(it) => it,
            Err(why) => return Ok(Finish::NotStored(WhyNotStored::Disk(why))),
        };
        if let Err(why) = self.folder.append(&mut body, bytes) {
            self.folder.discard(&id);
            return Ok(Finish::NotStored(WhyNotStored::Disk(why)));
        }
        let inline = if bytes.len() as u64 <= self.options.max_inline { Some(bytes) } else { None };
        let mut token = id.to_vec();
        token.extend_from_slice(&token_rest(key.partition(), inline));
        self.land(key, &mut body, (head, meta), |external| {
            let meta = Meta { external_bytes: external, ..*meta };
            self.index.with_tier(key.partition(), |tier| {
                let before = tier.peek(&key.key)?.map(|it| it.external_bytes());
                let stored = tier.put(now, &key.key, head, &token, &meta)?;
                Ok((before, stored.evicted))
            })
        })
    }
}
