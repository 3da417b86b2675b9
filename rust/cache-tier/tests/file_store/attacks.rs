//! What a folder meets that nobody planned: moved, linked or emptied while it is used, strange things under its names, wakers that own what waits.
use crate::common::*;
use crate::directories::{At, Failing, Room};
use cache_tier::file_store::*;
use cache_tier::{Moment, Options};
use std::ffi::CString;
use std::fs::{self, File, OpenOptions};
use std::os::raw::c_char;
use std::os::unix::ffi::OsStrExt;
use std::os::unix::fs::{symlink, PermissionsExt};
use std::path::Path;
use std::sync::{mpsc, Arc, Mutex};
use std::task::{Wake, Waker};
use std::thread;
use std::time::Duration;

const LIMIT: u64 = 4_000_000;
fn private(room: &Room) {
    fs::create_dir(&room.0).unwrap();
    fs::set_permissions(&room.0, fs::Permissions::from_mode(0o700)).unwrap();
}
fn each_body(room: &Room) -> Store {
    let mut its = options();
    its.sync = SyncPolicy::EachBody;
    FileStore::open(Failing::new(room.open(), 0, At::Fails(5)), &Options::new(LIMIT, 2), 1, &its).unwrap().0
}
/// What its path names later makes no difference: neither a link in its place, nor another directory.
#[test]
fn a_directory_that_is_moved_is_used_still() {
    let (room, moved, other) = (Room::new("moved"), Room::new("moved-to"), Room::new("other"));
    let (store, _) = open(&room, LIMIT, 2);
    (0..4).for_each(|it| assert!(put(&store, it, &[7; 3000])));
    drop(open(&other, LIMIT, 2));
    fs::create_dir_all(other.file(&key(1)).parent().unwrap()).unwrap();
    fs::write(other.file(&key(1)), "precious").unwrap();
    fs::rename(&room.0, &moved.0).unwrap();
    symlink(&other.0, &room.0).unwrap();
    assert!((0..4).all(|it| store.get(NOW, &key(it)).unwrap().is_some()));
    assert!(put(&store, 9, &[7; 3000]) && put(&store, 1, &[8; 3000]) && store.purge(&key(2)).unwrap());
    store.save().unwrap();
    assert_eq!((moved.files().len(), fs::read(other.file(&key(1))).unwrap()), (4, b"precious".to_vec()));
    assert!(moved.file(&key(9)).exists() && !moved.file(&key(2)).exists() && !other.0.join("order").exists());
    fs::remove_file(&room.0).unwrap();
}
/// What lies behind it is another's.
#[test]
fn a_part_that_is_a_link_is_refused() {
    for part in ["new", "5a"] {
        let (room, other) = (Room::new("linked"), Room::new("behind"));
        drop(open(&room, LIMIT, 2));
        private(&other);
        let file = other.0.join("5ac35e6e9373877f29e562464e46497e");
        fs::write(&file, "precious").unwrap();
        let _not_there = fs::remove_dir(room.0.join(part));
        symlink(&other.0, room.0.join(part)).unwrap();
        assert!(DiskDirectory::open(&room.0).is_err());
        assert_eq!(fs::read(&file).unwrap(), b"precious");
    }
}
#[test]
fn a_removed_marker_lets_no_second_program_in() {
    let room = Room::new("marker");
    let (store, _) = open(&room, LIMIT, 1);
    assert!(put(&store, 1, &[1; 3000]));
    for it in fs::read_dir(&room.0).unwrap().map(|it| it.unwrap().path()) {
        let _file_or_directory = fs::remove_file(&it).or_else(|_| fs::remove_dir_all(&it));
    }
    assert!(DiskDirectory::open(&room.0).is_err());
    // and who uses it goes on: what was there is gone, what comes is stored
    assert!(store.get(NOW, &key(1)).unwrap().is_none());
    assert!(put(&store, 1, &[2; 3000]) && stores(&store, 2));
    assert_eq!((served_count(&store), store.stats().folder.used_bytes), (2, room.file_bytes()));
}
fn served_count(store: &Store) -> usize {
    (0..9).filter(|it| store.get(NOW, &key(*it)).unwrap().is_some()).count()
}
#[test]
fn what_a_lost_power_leaves_of_the_marker_is_taken() {
    let room = Room::new("torn-marker");
    let (store, _) = open(&room, LIMIT, 1);
    assert!(put(&store, 1, &[1; 3000]));
    drop(store);
    for marker in [&[0; 28][..], b"cache-tier bod", b"cache-tier bod\0\0\0\0\0\0\0\0\0\0\0\0\0\0"] {
        fs::write(room.0.join(MARKER), marker).unwrap();
        assert_eq!(served_count(&open(&room, LIMIT, 1).0), 1);
        assert_eq!(fs::read(room.0.join(MARKER)).unwrap(), b"cache-tier bodies, format 2\n");
    }
    for marker in [&b"cache-tier bodies, format 1\n"[..], &[0; 29], b"\0ache-tier bodies, format 2\n"] {
        fs::write(room.0.join(MARKER), marker).unwrap();
        assert!(DiskDirectory::open(&room.0).is_err());
    }
}

/// A renewed head that doesn't fit into the file, or can't be written, and allows less than the one there.
#[test]
fn what_a_renewal_takes_back_doesnt_come_back() {
    let long = [&b"HTTP/1.1 200 OK\r\nX-Turn: 9\r\nX-Long: "[..], &[b'a'; 500], b"\r\n\r\n"].concat();
    for (fails, head) in [(0, &long), (1, &head(2)), (2, &head(2)), (3, &head(2)), (4, &head(2))] {
        let room = Room::new("takes-back");
        let (store, _) = open_by(&room.0, LIMIT, 1, 0, At::Fails(5)).unwrap();
        assert!(put(&store, 1, &[1; 3000])); // fresh until 9000
        let mut fetch = stale(&store, 1);
        store.directory().at_call_from_now(if fails == 0 { 1 << 60 } else { fails }); // open, read, stat, write
        let stays = fetch.revalidate(NOW, head, &meta(2000)).unwrap();
        assert_eq!(stays, fails == 0);
        store.directory().at_none();
        assert!(store.get(Moment::at(2001), &key(1)).unwrap().is_none());
        assert_eq!(store.stats().folder.used_bytes, room.file_bytes());
        drop((fetch, store));
        let (store, _) = open(&room, LIMIT, 1);
        assert!(store.get(Moment::at(2001), &key(1)).unwrap().is_none(), "{}", fails);
        assert_eq!(store.get(NOW, &key(1)).unwrap().is_some(), fails == 0);
    }
}
/// What counts of a file is what was counted for it, not what is there now.
#[test]
fn files_that_others_cut_or_remove_are_counted_as_they_were() {
    let room = Room::new("counted");
    let (store, _) = open(&room, LIMIT, 1);
    (0..5).for_each(|it| assert!(put(&store, it, &[7; 30_000])));
    let cut = |name: u64| OpenOptions::new().write(true).open(room.file(&key(name))).unwrap().set_len(500).unwrap();
    fs::remove_file(room.file(&key(0))).unwrap();
    fs::remove_file(room.file(&key(1))).unwrap();
    [2, 3].iter().for_each(|it| cut(*it));
    let hit = store.get(NOW, &key(4)).unwrap().unwrap();
    cut(4);
    assert!(hit.read_to_vec().is_err());
    assert!(store.get(NOW, &key(0)).unwrap().is_none() && store.get(NOW, &key(2)).unwrap().is_none());
    assert!(store.purge(&key(1)).unwrap() && store.purge(&key(3)).unwrap());
    let used = || (store.stats().folder.used_bytes, room.file_bytes());
    assert_eq!(used(), (0, 0));
    store.scan().unwrap();
    assert_eq!(used(), (0, 0));
}
/// A purge whose removal isn't on the disk says so, and the next one makes it so, also where no file is there any more.
#[test]
fn a_purge_is_synced_by_the_one_that_returns_ok() {
    let room = Room::new("purge-sync");
    let store = each_body(&room);
    assert!(put(&store, 1, &[1; 3000]));
    store.directory().at_call_from_now(2); // remove, sync
    assert!(store.purge(&key(1)).is_err() && !room.file(&key(1)).exists());
    store.directory().at_none();
    let before = store.directory().calls();
    assert!(!store.purge(&key(1)).unwrap());
    assert_eq!(store.directory().calls() - before, 2); // stat, sync
    assert!(!store.purge(&key(77)).unwrap()); // of a directory that was never made
                                              // one that can't be removed is wiped, and the wiped bytes are synced
    assert!(put(&store, 1, &[1; 3000]));
    store.directory().at_call_from_now(1);
    let before = store.directory().calls();
    assert!(store.purge(&key(1)).unwrap());
    assert_eq!(store.directory().calls() - before, 5); // remove; open, write, sync; sync of the directory
}
extern "C" {
    fn mkfifo(path: *const c_char, mode: u32) -> i32;
}
/// By the call, and not by the program: a child has all locks of directories until it runs that program, and other tests would find them in use.
fn make_fifo(path: &Path) {
    let path = CString::new(path.as_os_str().as_bytes()).unwrap();
    assert_eq!(unsafe { mkfifo(path.as_ptr(), 0o600) }, 0);
}
/// Strange things under a body's name: nothing hangs, nothing foreign goes, all others are served.
#[test]
fn what_is_no_file_under_a_bodys_name_is_an_error_or_nothing() {
    let room = Room::new("strange");
    let (store, _) = open(&room, LIMIT, 1);
    (0..9).for_each(|it| assert!(put(&store, it, &[7; 3000])));
    drop(store);
    let of = |name: u64| room.file(&key(name));
    (0..5).for_each(|it| fs::remove_file(of(it)).unwrap());
    fs::create_dir(of(0)).unwrap();
    fs::write(of(0).join("precious"), "precious").unwrap();
    make_fifo(&of(1));
    symlink("/etc/passwd", of(2)).unwrap();
    File::create(of(3)).unwrap();
    File::create(of(4)).unwrap().set_len(1 << 40).unwrap();
    fs::write(room.0.join(name_of_no_part(&room)), "a file where a directory should be").unwrap();
    for scan in [false, true] {
        let (store, _) = open(&room, LIMIT, 1);
        if scan {
            store.scan().unwrap();
        }
        for name in 0..3 {
            assert!(store.get(NOW, &key(name)).is_err() || name == 1, "{}", name);
        }
        assert!(store.get(NOW, &key(3)).unwrap().is_none() && store.get(NOW, &key(4)).unwrap().is_none());
        assert_eq!((5..9).filter(|it| store.get(NOW, &key(*it)).unwrap().is_some()).count(), 4);
        store.save().unwrap();
    }
    assert_eq!(fs::read(of(0).join("precious")).unwrap(), b"precious");
}
fn name_of_no_part(room: &Room) -> String {
    (0..=255u8).map(|it| format!("{:02x}", it)).find(|it| !room.0.join(it).exists()).unwrap()
}

/// As where descriptors are short: what is evicted meanwhile is served, and after the next save it goes in its turn.
#[test]
fn evicted_bodies_that_cant_be_read_now_are_cold_later() {
    let room = Room::new("unread");
    let mut tiers = Options::new(LIMIT, 2);
    tiers.max_entries = Some(4);
    let mut its = options();
    its.max_bytes = Some(20 * 4608);
    let store = FileStore::open(Failing::new(room.open(), 0, At::Fails(24)), &tiers, 1, &its).unwrap().0;
    store.scan().unwrap();
    for it in 0..16 {
        assert!(put(&store, 100 + it, &[7; 3000]) && store.purge(&key(100 + it)).unwrap());
        // (its directory is there)
    }
    for it in 0..16 {
        let calls = 4 + u64::from(!room.file(&key(it)).parent().unwrap().exists()) * 2;
        store.directory().at_call_from_now(calls + 2); // create, two writes, stat, rename; then the evicted one's open
        assert!(put(&store, it, &[7; 3000]));
        store.directory().at_none();
    }
    let unread = 16 - store.stats().tiers.bodies - store.stats().folder.cold;
    assert!(unread > 8, "{}", unread);
    assert!(store.get(NOW, &key(0)).unwrap().is_some());
    store.save().unwrap();
    let stats = store.stats();
    assert_eq!((stats.tiers.bodies + stats.folder.cold, stats.folder.used_bytes), (16, room.file_bytes()));
    assert!((0..16).all(|it| store.get(NOW, &key(it)).unwrap().is_some()));
    (50..80).for_each(|it| assert!(put(&store, it, &[7; 3000])));
    let stats = store.stats();
    assert_eq!((stats.tiers.bodies + stats.folder.cold, stats.folder.used_bytes), (20, room.file_bytes()));
    assert!((0..16).all(|it| !room.file(&key(it)).exists()));
}

struct Owner<T>(Mutex<Option<T>>);
impl<T: Send + 'static> Wake for Owner<T> {
    fn wake(self: Arc<Self>) {}
}
fn owner<T: Send + 'static>(it: T) -> Waker {
    Arc::new(Owner(Mutex::new(Some(it)))).into()
}
fn ends(run: impl FnOnce() + Send + 'static) {
    let (tell, told) = mpsc::channel();
    thread::spawn(move || {
        run();
        tell.send(()).unwrap();
    });
    assert!(told.recv_timeout(Duration::from_secs(20)).is_ok(), "it hangs, or panicked");
}
/// As a task does that is moved from one to another: its waker's end is the end of what else it waits for.
#[test]
fn a_waker_may_own_what_waits() {
    ends(|| {
        let room = Room::new("wakers");
        let (store, _) = open(&room, LIMIT, 1);
        let mut fetch = miss(&store, 1);
        let wait = || match store.lookup(NOW, &key(1)).unwrap() {
            Lookup::Wait(_, it) => it,
            it => panic!("{:?}", it),
        };
        let (mut one, nobody) = (wait(), owner(()));
        one.poll_with(NOW, &owner(wait())).unwrap();
        one.poll_with(NOW, &nobody).unwrap();
        one.poll_with(NOW, &owner(wait())).unwrap();
        drop(one);
        fetch.begin(NOW, &head(1), &meta(9000), None).unwrap();
        let (mut one, mut buf) = (follow(&store, 1), [0; 9]);
        one.poll_with(&mut buf, &owner(follow(&store, 1))).unwrap();
        one.poll_with(&mut buf, &nobody).unwrap();
        one.poll_with(&mut buf, &owner(follow(&store, 1))).unwrap();
        drop(one);
        assert!(fetch.write(b"abc") && matches!(fetch.finish(NOW), Ok(Finish::Stored { .. })));
    });
}
/// An old body that the tier gave up before the fetch of its key began isn't put back over that.
#[test]
fn a_revival_ends_no_fetch() {
    let room = Room::new("fetched");
    let mut tiers = Options::new(LIMIT, 2);
    tiers.max_entries = Some(3);
    let store = FileStore::open(Failing::new(room.open(), 0, At::Ends), &tiers, 1, &options()).unwrap().0;
    assert!(stores(&store, 1)); // fresh until 2000
    let mut fetch = match store.lookup(LATER, &key(1)).unwrap() {
        Lookup::Stale(_, it) => it,
        it => panic!("{:?}", it),
    };
    (10..20).for_each(|it| assert!(put(&store, it, &[1; 3000]))); // it is cold
    fetch.begin(LATER, &head(2), &meta(9000), None).unwrap();
    assert!(fetch.write(&body(1, 2)));
    assert!(store.get(LATER, &key(1)).unwrap().is_none());
    let mut follower = follow_at(&store, LATER, 1);
    assert!(matches!(fetch.finish(LATER).unwrap(), Finish::Stored { .. }));
    assert_eq!(turn_of(&store.get(LATER, &key(1)).unwrap().unwrap()), 2);
    let mut buf = vec![0; 20_000];
    assert!(matches!(follower.read(&mut buf).unwrap(), ReadProgress::Data(count) if buf[..count] == body(1, 2)[..]));
}
fn follow_at(store: &Store, now: Moment, name: u64) -> Follower {
    match store.lookup(now, &key(name)).unwrap() {
        Lookup::Follow(it) => it,
        it => panic!("{:?}", it),
    }
}
