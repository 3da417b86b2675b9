//! The order of use over starts, and what the tiers give up.
use crate::common::*;
use crate::directories::{At, Failing, Room};
use cache_tier::file_store::*;
use cache_tier::{Digest, Options};

const TAKES: u64 = 4608; // a body of 3,000 bytes

#[test]
fn what_was_used_lately_outlives_a_start_with_half_the_budget() {
    for (before, after) in [(1, 1), (4, 4), (4, 1), (1, 4), (16, 3)] {
        let room = Room::new("order");
        {
            let (store, _) = open(&room, 40_000_000, before);
            (0..200).for_each(|it| assert!(put(&store, it, &[1; 3000])));
            (0..100).for_each(|it| assert!(store.get(NOW, &key(it)).unwrap().is_some()));
            store.save().unwrap();
        }
        {
            let (store, _) = open(&room, 40_000_000, before); // a save of what is cold
            assert_eq!((store.scan().unwrap().known, store.save().unwrap()), (200, 200));
        }
        let (store, told) = open(&room, 100 * TAKES, after);
        assert_eq!(told.restored, 200);
        store.scan().unwrap();
        let stats = store.stats().folder;
        assert_eq!((stats.cold, stats.used_bytes, room.files().len()), (100, 100 * TAKES, 100));
        let kept: Vec<u64> = (0..100).filter(|it| room.file(&key(*it)).exists()).collect();
        println!("{} partitions, then {} with half the budget: of the 100 used lately {} stay", before, after, kept.len());
        assert!(kept.len() >= 85 && (before > 1 || kept.len() == 100));
        // what was used since the start stays as others come
        kept.iter().take(20).for_each(|it| assert!(store.get(NOW, &key(*it)).unwrap().is_some()));
        (1000..1060).for_each(|it| assert!(put(&store, it, &[1; 3000])));
        if after == 1 {
            assert!(kept.iter().take(20).all(|it| store.get(NOW, &key(*it)).unwrap().is_some()));
        }
        assert!(store.stats().folder.used_bytes <= 100 * TAKES && store.stats().folder.used_bytes == room.file_bytes());
    }
}
/// `max_entries` bounds the heads in memory; what goes for it is cold, and is served.
#[test]
fn what_the_tier_gives_up_is_cold() {
    let room = Room::new("evicted");
    let mut tiers = Options::new(40_000_000, 2);
    tiers.max_entries = Some(40);
    let open = |options: &StoreOptions| FileStore::open(Failing::new(room.open(), 0, At::Ends), &tiers, 2, options).unwrap().0;
    let store = open(&options());
    (0..200).for_each(|it| assert!(put(&store, it, &vec![it as u8; 3000])));
    for scanned in [false, true] {
        assert!(store.stats().tiers.bodies <= 40 && store.stats().folder.cold >= 160 && room.files().len() == 200);
        for it in 0..200 {
            assert!(store.get(NOW, &key(it)).unwrap().unwrap().read_to_vec().unwrap() == vec![it as u8; 3000], "{} {}", it, scanned);
        }
        store.scan().unwrap();
        let stats = store.stats();
        assert_eq!((stats.tiers.bodies + stats.folder.cold, stats.folder.used_bytes), (200, room.file_bytes()));
    }
    assert_eq!(store.save().unwrap(), 200);
    drop(store);
    // with room for fewer rows the oldest go
    let mut few = options();
    few.max_cold = 100;
    let store = open(&few);
    store.scan().unwrap();
    let stats = store.stats().folder;
    assert_eq!((stats.cold, room.files().len(), stats.used_bytes), (100, 100, room.file_bytes()));
    let kept: Vec<u64> = (0..200).filter(|it| room.file(&key(*it)).exists()).collect();
    assert!(kept.iter().filter(|it| **it >= 100).count() >= 90, "{:?}", kept);
}
/// A budget below the tiers' limit holds of what is hot too.
#[test]
fn a_budget_below_the_limit_holds() {
    let room = Room::new("budget");
    let mut its = options();
    its.max_bytes = Some(30 * TAKES);
    let tiers = Options::new(1 << 40, 2);
    let store = FileStore::open(Failing::new(room.open(), 0, At::Ends), &tiers, 2, &its).unwrap().0;
    for it in 0..100 {
        assert!(put(&store, it, &[1; 3000]) && store.get(NOW, &key(it / 2)).is_ok());
        assert!(store.stats().folder.used_bytes <= 30 * TAKES && store.stats().folder.used_bytes == room.file_bytes());
    }
    assert!(room.files().len() > 20);
}
/// A cold row that was used again and given up again is the newest; the budget takes the oldest.
#[test]
fn cold_bodies_go_in_the_order_of_use() {
    let room = Room::new("cold");
    let mut tiers = Options::new(40_000_000, 2);
    tiers.max_entries = Some(10);
    let mut its = options();
    its.max_bytes = Some(50 * TAKES);
    let store = FileStore::open(Failing::new(room.open(), 0, At::Ends), &tiers, 1, &its).unwrap().0;
    store.scan().unwrap();
    (0..50).for_each(|it| assert!(put(&store, it, &[1; 3000])));
    (0..5).for_each(|it| assert!(store.get(NOW, &key(it)).unwrap().is_some())); // cold ones, used again
    (100..130).for_each(|it| assert!(put(&store, it, &[1; 3000])));
    let kept: Vec<u64> = (0..50).filter(|it| room.file(&key(*it)).exists()).collect();
    assert_eq!((kept.len(), &kept[..5], kept[5]), (20, &[0, 1, 2, 3, 4][..], 35));
    assert_eq!(store.stats().folder.used_bytes, 50 * TAKES);
}
/// The first key names the partition, whatever their number; the text is in the file.
#[test]
fn variants_lie_in_the_partition_of_their_first_key() {
    let room = Room::new("first");
    let named = |it: u64| (Digest::of(&it.to_be_bytes()), key(it / 4));
    for (partitions, start) in [(5, true), (3, false), (1, false), (7, false)] {
        let (store, _) = open(&room, 4_000_000, partitions);
        for it in 0..40 {
            let (key, first) = named(it);
            let text = format!("/{}", it);
            let key = BodyKey::new(&key).with_first(&first).with_text(text.as_bytes());
            if start {
                assert!(matches!(store.put(NOW, key, &head(1), &[it as u8; 900], &meta(9000)).unwrap(), Finish::Stored { .. }));
            }
            assert_eq!(store.get(NOW, key).unwrap().unwrap().read_to_vec().unwrap(), [it as u8; 900]);
            // another first key: it isn't that one's
            let other = Digest::of(b"other");
            let is_same = PartitionKey::of(&other).partition(partitions) == key.partition().partition(partitions);
            assert!(is_same || store.get(NOW, BodyKey::new(&key.key).with_first(&other)).unwrap().is_none());
        }
        store.save().unwrap();
        let stats = store.stats();
        assert_eq!((stats.tiers.bodies, stats.folder.cold, stats.folder.used_bytes), (40, 0, room.file_bytes()));
    }
    let folder = BodyFolder::open(room.open(), &FolderOptions::new(1 << 30)).unwrap().0;
    match folder.contents(&named(7).0, false).unwrap() {
        Contents::Body(it) => assert_eq!(it.text(), Some(&b"/7"[..])),
        it => panic!("{:?}", it),
    }
}
