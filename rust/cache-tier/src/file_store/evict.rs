//! What goes: purged, evicted, past the budget.
use super::directory::Directory;
use super::folder::{held, name_of, BodyFolder};
use super::format::{Row, UNIT};
use super::index::{BodyKey, HotIndex, PartitionKey, StoreError};
use super::key_lock::KeyLock;
use crate::given::Digest;

/// So many cold bodies may fail to be removed before a trim ends.
const FAILURES: u32 = 8;

impl<D: Directory> BodyFolder<D> {
    /// Whether anything was there, or is fetched. It and its file are gone when this returns Ok, also after a kill. An error: the index has it no more,
    /// and this run doesn't serve it, but its file is there still and a later start may: purge it again.
    pub fn purge(&self, index: &impl HotIndex, key: &BodyKey<'_>) -> Result<bool, StoreError> {
        self.with_key(&key.key, |lock| {
            let was = index.purge(&key.key, key.partition())?;
            let file = lock.unlink(was.file_bytes)?;
            lock.sync_name()?; // (also where there was none: the sync of an earlier purge may have failed)
            Ok(was.any || file)
        })
    }
    /// After the index evicted bodies of a partition: each is cold from now on, the newest of all, while the folder is within its budget; else its file is
    /// removed. No lock is held by the caller.
    pub fn unlink_evicted(&self, index: &impl HotIndex, keys: &[Digest], partition: PartitionKey) {
        for key in keys {
            self.with_key(key, |lock| {
                if !matches!(index.peek(key, partition), Ok(None)) {
                    return; // it was stored again meanwhile
                }
                if self.is_over_budget() && held(&self.cold).len() == 0 {
                    let _told_by_the_stats = lock.unlink(None);
                } else {
                    lock.mark_cold(partition);
                }
            });
        }
        self.trim(index);
    }
    /// Evicted bodies whose files couldn't be read then: they are cold from now on.
    pub(crate) fn read_evicted(&self, index: &impl HotIndex) {
        let keys = std::mem::take(&mut *held(&self.unread));
        for (key, partition) in keys {
            self.with_key(&key, |lock| match index.peek(&key, partition) {
                Ok(None) if !lock.is_cold() => lock.mark_cold(partition),
                Ok(_) => {}
                Err(_) => held(&self.unread).push((key, partition)),
            });
        }
    }
    /// Cold bodies go while the budget is passed, the one used longest ago first.
    pub fn trim(&self, index: &impl HotIndex) {
        let mut failures = 0;
        while self.is_over_budget() && failures < FAILURES {
            let row = match held(&self.cold).oldest() {
                Some(it) => it,
                None => return,
            };
            // (what is counted of a key changes under its name's lock alone)
            let gone = self.with_key(&row.key, |lock| self.trim_one(index, lock, &row));
            failures += u32::from(!gone);
        }
    }
    /// False: its file can't be removed now. It stays, as the newest, so that others may go.
    fn trim_one(&self, index: &impl HotIndex, lock: &KeyLock<'_, D>, row: &Row) -> bool {
        if !lock.is_cold() {
            return true; // it was used, or removed, meanwhile
        }
        let hot = index.peek(&row.key, row.partition);
        if matches!(hot, Ok(Some(_))) {
            let _counted_still = held(&self.cold).forget(&row.key, 0);
            return true;
        }
        let name = name_of(&row.key);
        if hot.is_ok() && self.noted("remove", &name, self.directory.remove(&name)).is_ok() {
            self.uncount(&row.key, u64::from(row.units) * UNIT);
            return true;
        }
        held(&self.cold).add(*row);
        false
    }
    /// A body that was found corrupt as it was read: it goes, if it is there still.
    pub(crate) fn remove_if_same(&self, index: &impl HotIndex, key: &BodyKey<'_>, id: &super::FileId) {
        self.with_key(&key.key, |lock| {
            if !matches!(index.peek(&key.key, key.partition()), Ok(Some(it)) if it == *id) {
                return;
            }
            if let Ok(was) = index.purge(&key.key, key.partition()) {
                let _told_by_the_stats = lock.remove_corrupt(was.file_bytes);
            }
        });
    }
}
