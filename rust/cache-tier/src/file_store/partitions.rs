//! A set of tiers as the index of what is hot. A tier has as body a token: the id of the file, whether the bytes follow, what names the partition, and of
//! a small body its bytes.
use super::format::FileId;
use super::index::{BodyKey, HotEntry, HotIndex, PartitionKey, Purged};
use crate::given::Digest;
use crate::partitions::{Partitions, Request};
use crate::response::Response;
use crate::tier::Tier;
use crate::words::{Entry, Error};
use std::convert::TryFrom;

const IN_FILE: u8 = 0;
const IN_MEMORY: u8 = 1;
/// Of a token before the bytes.
pub(crate) const TOKEN: usize = 21;

/// A token behind its id. `inline`: the body, where it stays in memory.
pub(crate) fn token_rest(partition: PartitionKey, inline: Option<&[u8]>) -> Vec<u8> {
    let mut it = vec![if inline.is_some() { IN_MEMORY } else { IN_FILE }];
    it.extend_from_slice(&partition.0);
    it.extend_from_slice(inline.unwrap_or_default());
    it
}
pub(crate) fn id_of(token: &[u8]) -> Option<FileId> {
    FileId::try_from(token.get(..16)?).ok()
}
pub(crate) fn is_in_memory(found: &Response) -> bool {
    found.body().get(16) == Some(&IN_MEMORY)
}
fn partition_of(token: &[u8]) -> Option<PartitionKey> {
    <[u8; 4]>::try_from(token.get(17..TOKEN)?).ok().map(PartitionKey)
}

#[derive(Debug)]
pub(crate) struct HotTiers {
    pub tiers: Partitions,
}
impl HotTiers {
    /// Several calls in one turn of the lock of a key's partition.
    pub fn with_tier<R>(&self, partition: PartitionKey, run: impl FnOnce(&mut Tier) -> R) -> R {
        self.tiers.with_tier(partition.partition(self.tiers.len()), run)
    }
    pub fn open(&self, key: &BodyKey<'_>, lock: bool) -> Result<Request, Error> {
        self.tiers.open_in(key.partition().partition(self.tiers.len()), &key.key, lock)
    }
}
fn hot_entry(tier: &mut Tier, entry: &Entry) -> Option<HotEntry> {
    if entry.foreign || entry.variance.is_some() {
        return None;
    }
    let found = tier.peek(&entry.primary).ok()??;
    Some(HotEntry { key: entry.primary, partition: partition_of(found.body())?, file_bytes: found.external_bytes() })
}
impl HotIndex for HotTiers {
    fn partitions(&self) -> usize {
        self.tiers.len()
    }
    fn peek(&self, key: &Digest, partition: PartitionKey) -> Result<Option<FileId>, Error> {
        Ok(self.with_tier(partition, |tier| tier.peek(key))?.and_then(|it| id_of(it.body())))
    }
    fn purge(&self, key: &Digest, partition: PartitionKey) -> Result<Purged, Error> {
        self.with_tier(partition, |tier| {
            let kept = tier.peek(key)?.filter(|it| id_of(it.body()).is_some());
            Ok(Purged { any: tier.purge(key)?, file_bytes: kept.map(|it| it.external_bytes()) })
        })
    }
    fn list(&self, partition: usize, from: u64, most: u64, to: &mut Vec<HotEntry>) -> Result<u64, Error> {
        self.tiers.with_tier(partition, |tier| {
            let count = if from == 0 { tier.lru_snapshot(0)? } else { from + most };
            for place in from..count.min(from + most) {
                let entry = match tier.lru_entry(place) {
                    Some(it) => it,
                    None => break,
                };
                to.extend(hot_entry(tier, &entry));
            }
            Ok(count)
        })
    }
}
