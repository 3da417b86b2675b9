//! Lengths, budgets, full disks, and those who follow.
use crate::common::*;
use crate::directories::Room;
use cache_tier::file_store::*;
use std::fs;

fn read_all(follower: &mut Follower) -> (Vec<u8>, bool) {
    let (mut all, mut buf) = (Vec::new(), vec![0; 100_000]);
    loop {
        match follower.read(&mut buf).unwrap() {
            ReadProgress::Data(count) => all.extend_from_slice(&buf[..count]),
            ReadProgress::Pending => return (all, false),
            ReadProgress::End { complete } => return (all, complete),
        }
    }
}
#[test]
fn files_and_sums_agree() {
    let room = Room::new("limits");
    let (store, _) = open(&room, 1 << 20, 1);
    (0..20).for_each(|it| assert!(stores(&store, it)));
    (20..30).for_each(|it| assert!(fetch(&store, NOW, it, 1, false).is_some())); // of unknown length
    let agree = || {
        let stats = store.stats();
        let cold = stats.folder.cold * 8704; // (heads weigh in the tier too: so some of what it gave up may have room in the folder)
        assert_eq!((stats.tiers.external_bytes + cold, stats.folder.used_bytes), (stats.folder.used_bytes, room.file_bytes()));
        assert_eq!(stats.tiers.bodies + stats.folder.cold, room.files().len() as u64);
        stats
    };
    agree();
    (1000..1400).for_each(|it| assert!(put(&store, it, &[1; 5000]))); // twice the budget: what goes for it has no file any more
    let stats = agree();
    assert!(stats.folder.used_bytes <= 1 << 20 && stats.tiers.evicted > 100 && stats.folder.cold < 9);
}
#[test]
fn what_is_too_large_touches_nothing() {
    let room = Room::new("large");
    let (store, _) = open(&room, 1 << 20, 1);
    (0..9).for_each(|it| assert!(stores(&store, it)));
    for length in [1 << 21, 1 << 61, 1 << 62, u64::MAX - 4096, u64::MAX] {
        let mut fetch = miss(&store, 99);
        assert!(matches!(fetch.begin(NOW, &head(1), &meta(9000), Some(length)).unwrap(), Begin::NotStored(WhyNotStored::TooLarge)));
        assert!(!fetch.write(b"x"));
    }
    assert!(!put(&store, 99, &vec![0; 1 << 21]));
    // one that grows too large as it comes: who follows gets all of it
    let mut fetch = miss(&store, 99);
    assert!(matches!(fetch.begin(NOW, &head(1), &meta(9000), None).unwrap(), Begin::Storing));
    let (mut follower, mut stored, mut all) = (follow(&store, 99), true, vec![]);
    for it in 0..40u8 {
        stored &= fetch.write(&vec![it; 30_000]);
        all.extend(read_all(&mut follower).0);
    }
    assert!(!stored && fetch.lag() == 0);
    drop(miss(&store, 99)); // who asks now fetches for himself
    assert!(matches!(fetch.finish(NOW).unwrap(), Finish::NotStored(WhyNotStored::TooLarge)));
    assert!(read_all(&mut follower) == (vec![], true) && all.len() == 1_200_000);
    assert!(all.iter().enumerate().all(|(at, it)| *it as usize == at / 30_000));
    assert_eq!((store.stats().tiers.bodies, room.files().len()), (9, 9));
}
#[test]
fn the_greatest_body_is_that_of_the_options() {
    // the store's own bound, the tiers', and half of a share: where it is the greatest, its file weighs more than the bound, and is stored all the same
    for (of_store, of_tiers, most) in [(Some(700_000), 10, 700_000), (None, 700_000, 700_000), (None, 0, 500_000)] {
        let room = Room::new("greatest");
        let (mut options, mut tiers) = (options(), cache_tier::Options::new(1_000_000, 2));
        options.max_body = of_store;
        tiers.max_body_bytes = of_tiers;
        let directory = DiskDirectory::open(&room.0).unwrap();
        let store = FileStore::open(directory, &tiers, 1, &options).unwrap().0;
        let put = |name, length| matches!(store.put(NOW, &key(name), &head(1), &vec![7; length], &meta(9000)).unwrap(), Finish::Stored { .. });
        assert!(put(1, most) && !put(2, most + 1));
        assert_eq!((store.get(NOW, &key(1)).unwrap().unwrap().read_to_vec().unwrap().len(), store.stats().too_large), (most, 1));
    }
}
#[test]
fn an_announced_length_has_to_come() {
    let room = Room::new("announced");
    let (store, _) = open(&room, 1 << 20, 1);
    for (announced, came) in [(100, 10), (10, 100)] {
        let mut fetch = miss(&store, 98);
        fetch.begin(NOW, &head(1), &meta(9000), Some(announced)).unwrap();
        let mut follower = follow(&store, 98);
        fetch.write(&vec![1; came]);
        assert!(matches!(fetch.finish(NOW).unwrap(), Finish::NotStored(WhyNotStored::Length { .. })));
        assert!(!read_all(&mut follower).1);
    }
    assert_eq!((store.stats().tiers.bodies, room.files().len()), (0, 0));
}
#[test]
fn a_full_disk_ends_the_storing_and_no_answer() {
    let room = Room::new("full");
    let (store, _) = open(&room, 4_000_000, 1);
    let mut fetch = miss(&store, 1);
    fetch.begin(NOW, &head(7), &meta(9000), Some(15)).unwrap();
    assert!(fetch.write(b"hello"));
    let (mut one, mut two) = (follow(&store, 1), follow(&store, 1));
    assert_eq!((one.response.status_code(), one.length()), (200, Some(15)));
    assert_eq!(read_all(&mut one), (b"hello".to_vec(), false));
    store.directory().at_call_from_now(1);
    assert!(!fetch.write(b"world"));
    store.directory().at_none();
    drop(miss(&store, 1));
    assert_eq!(read_all(&mut one), (b"world".to_vec(), false));
    assert!(!fetch.write(b"again") && fetch.lag() == 10);
    assert!(matches!(fetch.finish(NOW).unwrap(), Finish::NotStored(WhyNotStored::Disk(_))));
    assert_eq!((read_all(&mut one), read_all(&mut two)), ((b"again".to_vec(), true), (b"helloworldagain".to_vec(), true)));
    assert!(store.stats().folder.errors >= 1 && store.stats().folder.last_error.is_some());
    drop((store, one, two));
    assert_eq!((open(&room, 4_000_000, 1).1.removed, room.files().len()), (1, 0)); // (what couldn't be removed then)
}
/// Who is further behind than the tail is cut off, and told.
#[test]
fn a_slow_follower_is_cut_off() {
    let room = Room::new("slow");
    let mut its = options();
    its.max_tail = 8;
    let directory = crate::directories::Failing::new(room.open(), 0, crate::directories::At::Ends);
    let (store, _) = FileStore::open(directory, &cache_tier::Options::new(4_000_000, 2), 1, &its).unwrap();
    let mut fetch = miss(&store, 1);
    fetch.begin(NOW, &head(7), &meta(9000), None).unwrap();
    let (mut slow, mut quick) = (follow(&store, 1), follow(&store, 1));
    store.directory().at_call_from_now(1);
    for it in 0..5 {
        assert!(!fetch.write(&[it; 5]));
        assert_eq!(read_all(&mut quick).0, [it; 5]);
    }
    store.directory().at_none();
    assert!(matches!(fetch.finish(NOW).unwrap(), Finish::NotStored(WhyNotStored::Disk(_))));
    assert_eq!((read_all(&mut slow), read_all(&mut quick)), ((vec![], false), (vec![], true)));
}
#[test]
fn a_save_on_a_full_disk_keeps_the_last_one() {
    let room = Room::new("full");
    let (store, _) = open(&room, 4_000_000, 1);
    assert!(stores(&store, 2));
    store.save().unwrap();
    let order = fs::read(room.0.join("order")).unwrap();
    let mut failed = 0;
    for call in 1..12 {
        store.directory().at_call_from_now(call);
        let is_err = store.save().is_err();
        store.directory().at_none();
        if is_err {
            assert_eq!(fs::read(room.0.join("order")).unwrap().len(), order.len());
            failed += 1;
        }
    }
    assert!(failed >= 5);
    drop(store);
    assert_eq!(served(&open(&room, 4_000_000, 1).0, NOW, 9).len(), 1);
}
