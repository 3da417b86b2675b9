//! Each call failing once, and all that write failing: nothing that was stored is lost, but by a write or purge of its own.
use crate::common::*;
use crate::directories::{At, Room};
use cache_tier::file_store::*;

const LIMIT: u64 = 4_000_000;
/// EMFILE, EIO, EACCES, ENOSPC.
const NUMBERS: [i32; 4] = [24, 5, 13, 28];

fn before() -> Room {
    let room = Room::new("before");
    let (store, _) = open(&room, LIMIT, 2);
    (0..8).for_each(|it| assert!(stores(&store, it)));
    store.save().unwrap();
    assert!(stores(&store, 8));
    room
}
/// What a life over a directory with one failing call leaves to be checked.
#[derive(Default)]
struct Left {
    replaced: bool,
    purged: bool,
    /// No call failed any more.
    ended: bool,
}
fn life(room: &Room, at: u64, number: i32) -> Left {
    let mut left = Left::default();
    let store = match open_by(&room.0, LIMIT, 2, at, At::Fails(number)) {
        Ok(it) => it.0,
        Err(_) => return left,
    };
    let _ = store.scan();
    let _ = (0..9).filter(|it| store.get(NOW, &key(*it)).is_err()).count();
    left.replaced = matches!(fetch(&store, LATER, 3, 2, false), Some(Finish::Stored { .. }));
    let unsaved = store.save().is_err();
    assert!(!unsaved || !room.0.join("order.next").exists());
    match store.purge(&key(4)) {
        Ok(_) => assert!(!room.file(&key(4)).exists() || store.stats().folder.errors > 0),
        Err(_) => {
            assert!(store.get(NOW, &key(4)).unwrap().is_none());
            store.purge(&key(4)).unwrap(); // asked again
        }
    }
    left.purged = true;
    if let Ok(Lookup::Stale(_, mut fetch)) = store.lookup_stale(&key(5)) {
        assert!(fetch.revalidate(NOW, &head(1), &meta(8000)).unwrap());
    }
    left.ended = store.directory().calls() < at;
    left
}
#[test]
fn each_call_fails_once() {
    let before = before();
    for number in NUMBERS {
        for at in (1..).step_by(if is_whole() { 1 } else { 2 }) {
            let room = before.copied("fails");
            let left = life(&room, at, number);
            let (store, _) = open(&room, LIMIT, 2);
            let served = served(&store, NOW, 9);
            for it in [0, 1, 2, 5, 6, 7, 8] {
                assert_eq!(served.get(&it), Some(&1), "error {} at call {}: {} is lost", number, at, it);
            }
            assert!(!left.purged || !served.contains_key(&4), "error {} at call {}: a purged body is back", number, at);
            assert!(!left.replaced || served.get(&3) == Some(&2), "error {} at call {}", number, at);
            store.scan().unwrap();
            assert_eq!(store.stats().folder.used_bytes, room.file_bytes());
            if left.ended {
                break;
            }
        }
    }
}
/// A directory or a file that can't be read in the scan: all is served all the same.
#[test]
fn a_scan_that_fails_loses_nothing() {
    let before = before();
    for number in NUMBERS {
        for at in (1..60).step_by(3) {
            let room = before.copied("unread");
            if let Ok((store, _)) = open_by(&room.0, LIMIT, 2, at, At::Fails(number)) {
                let _ = store.scan();
                store.directory().at_none();
                assert_eq!(served(&store, NOW, 9).len(), 9, "error {} at call {}", number, at);
            }
        }
    }
}
#[test]
fn a_disk_that_takes_nothing() {
    let room = Room::new("read-only");
    {
        // before the scan, when any key may be cold
        let (store, _) = open(&room, LIMIT, 2);
        assert!(stores(&store, 1));
        drop(store);
        let (store, _) = open_by(&room.0, LIMIT, 2, 0, At::Stays(30)).unwrap();
        store.directory().at_call_from_now(1);
        assert!(matches!(store.purge(&key(1)), Err(StoreError::Disk(_))) && store.get(NOW, &key(1)).unwrap().is_none());
    }
    let room = Room::new("read-only");
    let (store, _) = open_by(&room.0, LIMIT, 2, 0, At::Stays(30)).unwrap();
    (0..6).for_each(|it| assert!(stores(&store, it)));
    store.save().unwrap();
    store.directory().at_call_from_now(1);
    assert_eq!(served(&store, NOW, 6).len(), 6);
    assert!(matches!(store.purge(&key(1)), Err(StoreError::Disk(_))));
    assert!(store.get(NOW, &key(1)).unwrap().is_none() && store.get(NOW, &key(1)).unwrap().is_none());
    assert!(matches!(fetch(&store, NOW, 20, 1, true), Some(Finish::NotStored(WhyNotStored::Disk(_)))));
    assert!(matches!(fetch(&store, LATER, 2, 2, false), Some(Finish::NotStored(WhyNotStored::Disk(_)))));
    assert!(stale(&store, 3).revalidate(NOW, &head(1), &meta(8000)).unwrap());
    assert!(store.save().is_err());
    let stats = store.stats();
    assert!(stats.folder.errors >= 5 && stats.folder.last_error.is_some());
    assert_eq!(served(&store, NOW, 6).len(), 5); // (what couldn't be replaced stays)
    store.directory().at_none();
    assert!(store.purge(&key(1)).unwrap() && !room.file(&key(1)).exists());
    drop(store);
    assert_eq!(served(&open(&room, LIMIT, 2).0, NOW, 6).len(), 5);
}
/// Cold bodies that can't be removed stay, and are tried again.
#[test]
fn a_trim_that_fails_loses_no_row() {
    let room = Room::new("trim");
    let (store, _) = open(&room, LIMIT, 1);
    (0..8).for_each(|it| assert!(put(&store, it, &[1; 9000])));
    store.save().unwrap();
    drop(store);
    let (store, _) = open_by(&room.0, 60_000, 1, 0, At::Stays(30)).unwrap();
    store.directory().at_call_from_now(1);
    store.scan().unwrap();
    assert_eq!((store.stats().folder.cold, room.files().len()), (8, 8));
    assert_eq!((0..8).filter(|it| store.get(NOW, &key(*it)).unwrap().is_some()).count(), 8);
    store.directory().at_none();
    assert!(put(&store, 9, &[1; 9000]));
    let stats = store.stats();
    assert!(stats.folder.used_bytes <= 60_000 && stats.folder.used_bytes == room.file_bytes());
}
/// The tier has lost what the key had before: so its file goes, and the new one too.
#[test]
fn a_rename_that_fails_leaves_neither() {
    let room = Room::new("rename");
    let (store, _) = open_by(&room.0, LIMIT, 1, 0, At::Fails(5)).unwrap();
    assert!(put(&store, 1, &[1; 3000]));
    store.directory().at_call_from_now(4); // create, two writes, rename
    let done = store.put(NOW, &key(1), &head(2), &[2; 3000], &meta(9000)).unwrap();
    assert!(matches!(done, Finish::NotStored(WhyNotStored::Disk(_))), "{:?}", done);
    let stats = store.stats();
    assert_eq!((room.files().len(), stats.tiers.bodies, stats.folder.used_bytes, stats.folder.errors), (0, 0, 0, 1));
    assert!(store.get(NOW, &key(1)).unwrap().is_none() && put(&store, 1, &[3; 3000]));
    assert_eq!(store.stats().folder.corrupt, 0);
}
