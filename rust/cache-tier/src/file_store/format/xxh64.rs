//! XXH64, by its page (github.com/Cyan4973/xxHash, doc/xxhash_spec.md). It finds what a disk damages; it is no protection against who writes into
//! the folder.
use super::{u32_at, u64_at};

const P1: u64 = 0x9E37_79B1_85EB_CA87;
const P2: u64 = 0xC2B2_AE3D_27D4_EB4F;
const P3: u64 = 0x1656_67B1_9E37_79F9;
const P4: u64 = 0x85EB_CA77_C2B2_AE63;
const P5: u64 = 0x27D4_EB2F_1656_67C5;

fn round(sum: u64, it: u64) -> u64 {
    sum.wrapping_add(it.wrapping_mul(P2)).rotate_left(31).wrapping_mul(P1)
}
/// The sum of the blocks of 32 bytes.
fn lanes(seed: u64, bytes: &[u8]) -> u64 {
    let mut v = [seed.wrapping_add(P1).wrapping_add(P2), seed.wrapping_add(P2), seed, seed.wrapping_sub(P1)];
    for block in bytes.chunks_exact(32) {
        for (at, it) in v.iter_mut().enumerate() {
            *it = round(*it, u64_at(block, 8 * at));
        }
    }
    let all = v[0].rotate_left(1).wrapping_add(v[1].rotate_left(7)).wrapping_add(v[2].rotate_left(12)).wrapping_add(v[3].rotate_left(18));
    v.iter().fold(all, |sum, it| (sum ^ round(0, *it)).wrapping_mul(P1).wrapping_add(P4))
}
pub(crate) fn xxh64(seed: u64, bytes: &[u8]) -> u64 {
    let mut sum = if bytes.len() >= 32 { lanes(seed, bytes) } else { seed.wrapping_add(P5) };
    sum = sum.wrapping_add(bytes.len() as u64);
    let mut left = &bytes[bytes.len() / 32 * 32..];
    while left.len() >= 8 {
        sum = (sum ^ round(0, u64_at(left, 0))).rotate_left(27).wrapping_mul(P1).wrapping_add(P4);
        left = &left[8..];
    }
    if left.len() >= 4 {
        sum = (sum ^ u64::from(u32_at(left, 0)).wrapping_mul(P1)).rotate_left(23).wrapping_mul(P2).wrapping_add(P3);
        left = &left[4..];
    }
    for it in left {
        sum = (sum ^ u64::from(*it).wrapping_mul(P5)).rotate_left(11).wrapping_mul(P1);
    }
    sum = (sum ^ (sum >> 33)).wrapping_mul(P2);
    sum = (sum ^ (sum >> 29)).wrapping_mul(P3);
    sum ^ (sum >> 32)
}
