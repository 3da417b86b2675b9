//! Head and meta, in two slots: a renewal writes the one that doesn't count.
use super::{u32_at, u64_at, xxh64, FileId, Front};
use crate::given::{Meta, Moment};

/// Of a slot before its head: check, head's length, turn, four moments, two windows, the start of the machine and the span that it was written in.
const BEFORE_HEAD: usize = 96;

#[derive(Clone, Debug, PartialEq, Eq)]
pub(crate) struct Slot {
    pub turn: u64,
    /// The start of the machine, and the span.
    pub written: (u64, u64),
    pub meta: Meta,
    /// With its empty line.
    pub head: Vec<u8>,
}
/// Bytes of a slot for a head of that length: some more, for a renewed one.
pub(crate) fn slot_size(head: usize) -> u32 {
    ((BEFORE_HEAD + head + 64 + head / 8 + 63) / 64 * 64) as u32
}
impl Slot {
    pub fn bytes(turn: u64, written: (u64, u64), meta: &Meta, head: &[u8], id: &FileId) -> Vec<u8> {
        let mut it = Vec::with_capacity(BEFORE_HEAD + head.len());
        it.extend_from_slice(&[0; 8]);
        it.extend_from_slice(&(head.len() as u64).to_le_bytes());
        it.extend_from_slice(&turn.to_le_bytes());
        for moment in [meta.fresh_until, meta.created, meta.updated, meta.provenance] {
            it.extend_from_slice(&moment.seconds.to_le_bytes());
            it.extend_from_slice(&moment.nanoseconds.to_le_bytes());
        }
        it.extend_from_slice(&meta.stale_while_revalidate.to_le_bytes());
        it.extend_from_slice(&meta.stale_if_error.to_le_bytes());
        it.extend_from_slice(&written.0.to_le_bytes());
        it.extend_from_slice(&written.1.to_le_bytes());
        it.extend_from_slice(head);
        let own = xxh64(u64_at(id, 0), &it[8..]);
        it[..8].copy_from_slice(&own.to_le_bytes());
        it
    }
    fn of(bytes: &[u8], id: &FileId) -> Option<Slot> {
        let length = u64_at(bytes.get(..16)?, 8) as usize;
        let it = bytes.get(..BEFORE_HEAD.checked_add(length)?)?;
        if xxh64(u64_at(id, 0), &it[8..]) != u64_at(it, 0) {
            return None;
        }
        let moment = |at: usize| Moment { seconds: u64_at(it, at), nanoseconds: u32_at(it, at + 8) };
        let mut meta = Meta::until(moment(24), moment(36));
        meta.updated = moment(48);
        meta.provenance = moment(60);
        meta.stale_while_revalidate = u32_at(it, 72);
        meta.stale_if_error = u32_at(it, 76);
        Some(Slot { turn: u64_at(it, 16), written: (u64_at(it, 80), u64_at(it, 88)), meta, head: it[BEFORE_HEAD..].to_vec() })
    }
}
/// The slot that counts, and its place (0 or 1); none where both are damaged. `bytes`: the file's first ones.
pub(crate) fn valid_slot(front: &Front, bytes: &[u8]) -> Option<(Slot, u8)> {
    let one = |at: u8| Slot::of(bytes.get(front.slot_start(at) as usize..front.slot_start(at + 1) as usize)?, &front.id);
    match (one(0), one(1)) {
        (Some(a), Some(b)) if b.turn > a.turn => Some((b, 1)),
        (Some(a), _) => Some((a, 0)),
        (None, b) => b.map(|it| (it, 1)),
    }
}
