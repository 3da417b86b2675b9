//! Checks of a body: one for each 64 KB. The seed is the block's place, so that no two blocks can change places.
use super::{u64_at, xxh64};

pub(crate) const BLOCK: u64 = 1 << 16;

pub(crate) fn blocks(length: u64) -> u64 {
    (length / BLOCK + u64::from(length % BLOCK != 0)).max(1)
}
/// The length of a block of a body.
pub(crate) fn block_len(length: u64, block: u64) -> usize {
    (length - block * BLOCK).min(BLOCK) as usize
}
/// Bytes of the checks behind a body. Of a body of one block its check stands in the front.
pub(crate) fn checks_len(length: u64) -> u64 {
    match blocks(length) {
        1 => 0,
        many => 8 * many,
    }
}
/// A block's check, of those behind a body.
pub(crate) fn check_at(checks: &[u8], block: u64) -> u64 {
    u64_at(checks, 8 * block as usize)
}

/// The checks of a body as it comes.
#[derive(Debug, Default)]
pub(crate) struct BlockChecks {
    part: Vec<u8>,
    checks: Vec<u64>,
}
impl BlockChecks {
    pub(crate) fn add(&mut self, mut bytes: &[u8]) {
        while !bytes.is_empty() {
            if self.part.is_empty() && bytes.len() >= BLOCK as usize {
                let (block, rest) = bytes.split_at(BLOCK as usize);
                self.checks.push(xxh64(self.checks.len() as u64, block));
                bytes = rest;
                continue;
            }
            let (now, rest) = bytes.split_at(bytes.len().min(BLOCK as usize - self.part.len()));
            self.part.extend_from_slice(now);
            bytes = rest;
            if self.part.len() as u64 == BLOCK {
                self.checks.push(xxh64(self.checks.len() as u64, &self.part));
                self.part.clear();
            }
        }
    }
    /// The bytes behind the body, and their check (of one block: its own).
    pub(crate) fn finish(mut self) -> (Vec<u8>, u64) {
        if !self.part.is_empty() || self.checks.is_empty() {
            self.checks.push(xxh64(self.checks.len() as u64, &self.part));
        }
        if self.checks.len() == 1 {
            return (Vec::new(), self.checks[0]);
        }
        let all: Vec<u8> = self.checks.iter().flat_map(|it| it.to_le_bytes()).collect();
        let own = xxh64(0, &all);
        (all, own)
    }
}
