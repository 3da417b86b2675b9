use super::*;
use crate::file_store::PartitionKey;
use crate::given::{Digest, Meta, Moment};

fn some_front() -> (Front, Vec<u8>) {
    let text = b"https://a.example/b";
    let front = Front {
        id: [7; 16],
        key: Digest([9; 16]),
        first: Digest([8; 16]),
        boot: 3,
        span: 4,
        length: 70_000,
        slot: slot_size(40),
        text: text_record_len(text),
        checks: 5,
    };
    let mut bytes = front.bytes();
    bytes.extend_from_slice(&text_record(&front.id, text));
    bytes.extend_from_slice(&Slot::bytes(1, (3, 4), &Meta::until(Moment::at(5), Moment::at(6)), &[65; 40], &front.id));
    bytes.resize(front.slot_start(1) as usize, 0);
    bytes.extend_from_slice(&Slot::bytes(2, (3, 5), &Meta::until(Moment::at(7), Moment::at(6)), &[66; 60], &front.id));
    bytes.resize(front.body_start() as usize, 0);
    (front, bytes)
}
#[test]
fn vectors_of_xxh64() {
    // of its page, and of Debian's xxhsum
    assert_eq!(xxh64(0, b""), 0xEF46_DB37_51D8_E999);
    assert_eq!(xxh64(0, b"a"), 0xD24E_C4F1_A98C_6E5B);
    assert_eq!(xxh64(0, b"abc"), 0x44BC_2CF5_AD77_0999);
    assert_eq!(xxh64(0, b"Nobody inspects the spammish repetition"), 0xFBCE_A83C_8A37_8BF1);
}
#[test]
fn each_flipped_bit_of_a_front_is_found() {
    let (front, bytes) = some_front();
    assert_eq!(Front::of(&bytes), Some(front));
    assert_eq!(valid_slot(&front, &bytes).map(|it| (it.0.turn, it.0.written, it.1)), Some((2, (3, 5), 1)));
    let text = FRONT..front.slot_start(0) as usize;
    assert_eq!(text_of_record(&front.id, &bytes[text.clone()]), Some(b"https://a.example/b".to_vec()));
    for bit in 0..8 * bytes.len() {
        let mut it = bytes.clone();
        it[bit / 8] ^= 1 << (bit % 8);
        match Front::of(&it) {
            None => assert!(bit < 8 * FRONT),
            Some(other) => {
                assert!(other == front && bit >= 8 * FRONT);
                let (slot, at) = valid_slot(&other, &it).unwrap(); // one of the two is whole
                assert!(slot.head == vec![65 + at; 40 + 20 * at as usize]);
                assert_eq!(text_of_record(&front.id, &it[text.clone()]).is_none(), text.contains(&(bit / 8)));
            }
        }
    }
}
#[test]
fn each_flipped_bit_of_the_order_is_found() {
    let row = Row { key: Digest([3; 16]), partition: PartitionKey([1, 2, 3, 4]), units: 77 };
    let bytes = row.bytes();
    assert_eq!(Row::of(&bytes), Some(row));
    for bit in 0..8 * ROW {
        let mut it = bytes;
        it[bit / 8] ^= 1 << (bit % 8);
        assert_eq!(Row::of(&it), None);
    }
    let header = OrderHeader { rows: 5, used: 6, span: 7, boots: vec![(1, 2), (3, 4)] };
    let bytes = header.bytes();
    assert_eq!(OrderHeader::of(&bytes), Some(header));
    for bit in 0..8 * ORDER_HEADER {
        let mut it = bytes.clone();
        it[bit / 8] ^= 1 << (bit % 8);
        assert_eq!(OrderHeader::of(&it), None);
    }
}
#[test]
fn checks_dont_depend_on_the_pieces() {
    let bytes: Vec<u8> = (0..300_000u32).map(|it| ((it * 7) >> 3) as u8).collect();
    for length in [0, 1, 65_535, 65_536, 65_537, 131_072, 300_000] {
        let mut one = BlockChecks::default();
        one.add(&bytes[..length]);
        let (mut some, mut at, mut step) = (BlockChecks::default(), 0, 1);
        while at < length {
            let end = length.min(at + step);
            some.add(&bytes[at..end]);
            at = end;
            step = step * 3 % 70_001 + 1;
        }
        let all = one.finish();
        assert_eq!(all.0.len() as u64, checks_len(length as u64));
        assert_eq!(all, some.finish());
    }
}
#[test]
fn lengths_of_strangers_dont_overflow() {
    let (front, _) = some_front();
    for length in [1 << 60, u64::MAX - 4096, u64::MAX] {
        let it = Front { length, slot: u32::MAX, text: u32::MAX, ..front };
        assert_eq!(Front::of(&it.bytes()), Some(it));
        assert!(it.size() >= length && file_bytes(it.size()) >= file_bytes(length));
    }
}
