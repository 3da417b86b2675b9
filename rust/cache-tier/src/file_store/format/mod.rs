//! What is written into the folder. Numbers are little-endian.
//!
//! | A body's file | Bytes |
//! |---|---|
//! | front: `cache-tier body2`, id, key, boot, span, length, slot's size, check of the checks, first key's digest, size of the text, zeros, check | 128 |
//! | text of the key: length, text, check | 10 and the text |
//! | two slots of head and meta, each with boot and span; the valid one with the greater turn counts | 2 slots |
//! | the body, in one piece | length |
//! | of a body of more than one block: a check for each block of 64 KB | 8 a block |
//!
//! The order of use: 512 bytes that name spans and sums, then 28 for each body, most recently used first.
mod checks;
mod front;
mod order;
mod slot;
mod xxh64;

pub(crate) use checks::{block_len, blocks, checks_len, check_at, BlockChecks, BLOCK};
pub use front::FileId;
pub(crate) use front::{key_of_name, text_record, text_of_record, text_record_len, Front, FRONT, MAX_TEXT};
pub(crate) use order::{OrderHeader, Row, ORDER_HEADER, ROW};
pub(crate) use slot::{slot_size, valid_slot, Slot};
pub(crate) use xxh64::xxh64;

/// What a row of the order counts in.
pub(crate) const UNIT: u64 = 512;
/// What a body's file takes of the disk: whole blocks, and 512 bytes for its inode and its name.
pub fn file_bytes(size: u64) -> u64 {
    (size / 4096 + u64::from(size % 4096 != 0)).saturating_mul(4096).saturating_add(UNIT)
}

fn u64_at(bytes: &[u8], at: usize) -> u64 {
    let mut it = [0; 8];
    it.copy_from_slice(&bytes[at..at + 8]);
    u64::from_le_bytes(it)
}
fn u32_at(bytes: &[u8], at: usize) -> u32 {
    let mut it = [0; 4];
    it.copy_from_slice(&bytes[at..at + 4]);
    u32::from_le_bytes(it)
}
fn array<const N: usize>(bytes: &[u8]) -> [u8; N] {
    let mut it = [0; N];
    it.copy_from_slice(bytes);
    it
}
#[cfg(test)]
mod tests;
