//! Those who wait and who follow, and their wakers; a client's no-cache; memory alone.
use crate::common::*;
use crate::directories::Room;
use cache_tier::file_store::*;
use cache_tier::{Moment, LockStatus};
use std::sync::atomic::{AtomicU64, Ordering};
use std::sync::Arc;
use std::task::{Wake, Waker};

#[derive(Default)]
struct Count(AtomicU64);
impl Wake for Count {
    fn wake(self: Arc<Self>) {
        self.0.fetch_add(1, Ordering::SeqCst);
    }
}
impl Count {
    fn take(&self) -> u64 {
        self.0.swap(0, Ordering::SeqCst)
    }
}
fn wait(store: &Store, now: Moment, name: u64) -> LockWait<crate::directories::Failing> {
    match store.lookup(now, &key(name)).unwrap() {
        Lookup::Wait(_, it) => it,
        it => panic!("{:?}", it),
    }
}
#[test]
fn who_waits_is_woken_once() {
    let room = Room::new("waits");
    let (store, _) = open(&room, 4_000_000, 1);
    let count = Arc::new(Count::default());
    let waker: Waker = count.clone().into();
    for how in 0..5 {
        let mut fetch = miss(&store, 50 + how);
        let mut waiting = wait(&store, NOW, 50 + how);
        assert_eq!(waiting.poll_with(NOW, &waker).unwrap(), None);
        assert_eq!(waiting.poll_with(NOW, &waker).unwrap(), None);
        let mut wanted = LockStatus::Dangling;
        match how {
            0 => {
                fetch.begin(NOW, &head(1), &meta(9000), None).unwrap();
                wanted = LockStatus::Done;
            }
            1 => drop(fetch),
            2 => {
                assert!(matches!(fetch.begin(NOW, &head(1), &meta(9000), Some(u64::MAX)).unwrap(), Begin::NotStored(WhyNotStored::TooLarge)));
                wanted = LockStatus::GiveUp;
            }
            3 => {
                fetch.give_up().unwrap(); // it is private
                wanted = LockStatus::GiveUp;
            }
            _ => {
                store.directory().at_call_from_now(1); // the disk doesn't take it
                assert!(matches!(fetch.begin(NOW, &head(1), &meta(9000), None).unwrap(), Begin::NotStored(WhyNotStored::Disk(_))));
                store.directory().at_none();
            }
        }
        assert_eq!((count.take(), waiting.poll(NOW).unwrap()), (1, Some(wanted)), "{}", how);
    }
}
#[test]
fn who_follows_is_woken_by_bytes_and_by_the_end() {
    let room = Room::new("follows");
    let (store, _) = open(&room, 4_000_000, 1);
    let count = Arc::new(Count::default());
    let (waker, mut buf): (Waker, _) = (count.clone().into(), [0; 9]);
    let mut fetch = miss(&store, 60);
    fetch.begin(NOW, &head(1), &meta(9000), None).unwrap();
    let mut follower = follow(&store, 60);
    assert_eq!(follower.poll_with(&mut buf, &waker).unwrap(), ReadProgress::Pending);
    fetch.write(b"abc");
    assert_eq!((count.take(), follower.poll_with(&mut buf, &waker).unwrap()), (1, ReadProgress::Data(3)));
    assert_eq!(follower.poll_with(&mut buf, &waker).unwrap(), ReadProgress::Pending);
    // a purge meanwhile: it isn't stored, and who follows has all of it
    assert!(store.purge(&key(60)).unwrap());
    assert!(matches!(fetch.finish(NOW).unwrap(), Finish::NotStored(WhyNotStored::Removed)));
    assert_eq!((count.take(), follower.poll_with(&mut buf, &waker).unwrap()), (1, ReadProgress::End { complete: true }));
    assert!(store.get(NOW, &key(60)).unwrap().is_none() && room.files().is_empty());
    // given up
    let mut fetch = miss(&store, 60);
    fetch.begin(NOW, &head(1), &meta(9000), None).unwrap();
    let mut follower = follow(&store, 60);
    drop(fetch);
    assert_eq!(follower.read(&mut buf).unwrap(), ReadProgress::End { complete: false });
}
#[test]
fn a_small_body_is_served_from_memory() {
    let room = Room::new("memory");
    let (store, _) = open(&room, 4_000_000, 1);
    assert!(put(&store, 70, b"small") && put(&store, 71, &[1; 700]));
    let calls = store.directory().calls();
    assert_eq!(store.get_in_memory(NOW, &key(70)).unwrap().and_then(|it| it.bytes().map(<[u8]>::to_vec)), Some(b"small".to_vec()));
    assert!(store.get_in_memory(NOW, &key(71)).unwrap().is_none());
    let hit = store.get(NOW, &key(70)).unwrap().unwrap();
    let mut buf = [0; 9];
    assert_eq!((hit.read_at(9, &mut buf).unwrap(), hit.len()), (0, 5));
    assert_eq!((hit.read_at(2, &mut buf).unwrap(), &buf[..3]), (3, &b"all"[..]));
    assert_eq!(store.directory().calls(), calls);
    drop(store);
    let (store, _) = open(&room, 4_000_000, 1);
    assert_eq!(store.get(NOW, &key(70)).unwrap().unwrap().bytes(), Some(&b"small"[..]));
}
/// The others are served on, a permit that hangs holds nobody for ever, and it renews or replaces.
#[test]
fn a_client_may_ask_for_the_origins_word() {
    let room = Room::new("stale");
    let (store, _) = open(&room, 4_000_000, 1);
    assert!(stores(&store, 61));
    let mut no_cache = stale(&store, 61);
    assert!(store.get(NOW, &key(61)).unwrap().is_some());
    let hangs = match store.lookup(Moment::at(3000), &key(61)).unwrap() {
        Lookup::Stale(_, it) => it,
        it => panic!("{:?}", it),
    };
    let mut waiting = wait(&store, Moment::at(3001), 61);
    assert_eq!(waiting.poll(Moment::at(3005)).unwrap(), None);
    assert_eq!(waiting.poll(Moment::at(3012)).unwrap(), Some(LockStatus::AgeTimeout));
    drop(hangs);
    assert!(no_cache.revalidate(Moment::at(3013), &head(2), &meta(6000)).unwrap());
    drop((store, no_cache, waiting));
    let (store, _) = open(&room, 4_000_000, 1); // the renewal outlives a kill
    assert_eq!(store.get(Moment::at(5999), &key(61)).unwrap().map(|it| turn_of(&it)), Some(2));
    assert!(store.purge(&key(61)).unwrap());
    drop(store.lookup_stale(&key(61)).unwrap());
    assert!(matches!(store.lookup_stale(&key(61)).unwrap(), Lookup::Miss(_)));
}
#[test]
fn renewals_alternate_between_the_slots() {
    let room = Room::new("renew");
    let (store, _) = open(&room, 4_000_000, 1);
    assert!(stores(&store, 1));
    for turn in 2..7 {
        assert!(stale(&store, 1).revalidate(NOW, &head(turn), &meta(5000 + turn)).unwrap());
        drop(open_copy(&room, turn));
    }
    // one that doesn't fit: the file keeps the last, and who runs now has it
    let long = [&b"HTTP/1.1 200 OK\r\nX-Turn: 9\r\nX-Long: "[..], &[b'a'; 500], b"\r\n\r\n"].concat();
    assert!(stale(&store, 1).revalidate(NOW, &long, &meta(9000)).unwrap());
    assert!(store.get(Moment::at(9001), &key(1)).unwrap().is_none()); // stale: before the scan its file is asked too, which has an older head
    assert_eq!(store.get(NOW, &key(1)).unwrap().map(|it| turn_of(&it)), Some(9));
    drop(open_copy(&room, 6));
}
fn open_copy(room: &Room, turn: u64) -> Room {
    let copy = room.copied("renewed");
    let (store, _) = open(&copy, 4_000_000, 1);
    let hit = store.get(Moment::at(5000 + turn), &key(1)).unwrap().unwrap();
    assert!(turn_of(&hit) == turn && hit.response.fresh_until() == Moment::at(5000 + turn));
    copy
}
