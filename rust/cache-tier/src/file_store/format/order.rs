//! The saved order of use. No body needs it.
use super::{array, u32_at, u64_at, xxh64};
use crate::file_store::PartitionKey;
use crate::given::Digest;

pub(crate) const ORDER_HEADER: usize = 512;
pub(crate) const ROW: usize = 28;
const MAGIC: &[u8; 16] = b"cache-tier uses2";
/// Starts of the machine that are remembered.
const BOOTS: usize = 16;

/// Its first bytes.
#[derive(Clone, Debug, Default, PartialEq, Eq)]
pub(crate) struct OrderHeader {
    pub rows: u64,
    /// What the bodies' files take.
    pub used: u64,
    pub span: u64,
    /// Starts of the machine, and up to which span what was written in them is on the disk.
    pub boots: Vec<(u64, u64)>,
}
impl OrderHeader {
    pub fn bytes(&self) -> Vec<u8> {
        let mut it = MAGIC.to_vec();
        for number in [self.rows, self.used, self.span, self.boots.len().min(BOOTS) as u64] {
            it.extend_from_slice(&number.to_le_bytes());
        }
        for (boot, span) in self.boots.iter().take(BOOTS) {
            it.extend_from_slice(&boot.to_le_bytes());
            it.extend_from_slice(&span.to_le_bytes());
        }
        it.resize(ORDER_HEADER - 8, 0);
        let own = xxh64(0, &it);
        it.extend_from_slice(&own.to_le_bytes());
        it
    }
    pub fn of(bytes: &[u8]) -> Option<OrderHeader> {
        let it = bytes.get(..ORDER_HEADER)?;
        if !it.starts_with(MAGIC) || xxh64(0, &it[..ORDER_HEADER - 8]) != u64_at(it, ORDER_HEADER - 8) {
            return None;
        }
        let number = |at: usize| u64_at(it, 16 + 8 * at);
        let boots = (0..(number(3) as usize).min(BOOTS)).map(|at| (number(4 + 2 * at), number(5 + 2 * at))).collect();
        Some(OrderHeader { rows: number(0), used: number(1), span: number(2), boots })
    }
}
/// A body in the order: its key, what names its partition, and what its file takes, in units.
#[derive(Clone, Copy, Debug, PartialEq, Eq)]
pub(crate) struct Row {
    pub key: Digest,
    pub partition: PartitionKey,
    pub units: u32,
}
impl Row {
    pub fn bytes(&self) -> [u8; ROW] {
        let mut it = [0; ROW];
        it[..16].copy_from_slice(&self.key.0);
        it[16..20].copy_from_slice(&self.partition.0);
        it[20..24].copy_from_slice(&self.units.to_le_bytes());
        let own = xxh64(1, &it[..24]) as u32;
        it[24..].copy_from_slice(&own.to_le_bytes());
        it
    }
    /// None: the row is damaged.
    pub fn of(it: &[u8]) -> Option<Row> {
        if it.len() != ROW || xxh64(1, &it[..24]) as u32 != u32_at(it, 24) {
            return None;
        }
        Some(Row { key: Digest(array(&it[..16])), partition: PartitionKey(array(&it[16..20])), units: u32_at(it, 20) })
    }
}
