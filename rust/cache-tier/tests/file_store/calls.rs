//! What calls of the directory a call makes: by these a start reads no body (M10, F5), no body is synced by itself (M11), and a hit opens its file under
//! no lock of a partition.
use crate::common::*;
use crate::directories::held::{Gate, Held};
use crate::directories::{At, Failing, Room};
use cache_tier::file_store::*;
use cache_tier::Options;
use std::sync::mpsc;
use std::thread;
use std::time::Duration;

/// The calls of the directory that a call made.
fn calls<R>(store: &Store, run: impl FnOnce() -> R) -> (u64, R) {
    let before = store.directory().calls();
    let it = run();
    (store.directory().calls() - before, it)
}
/// A start reads the first 512 bytes of the order and no body, whatever lies there.
#[test]
fn a_start_makes_as_many_calls_for_many_bodies_as_for_few() {
    let mut counts = Vec::new();
    for bodies in [1, 300] {
        let room = Room::new("start");
        let (store, _) = open(&room, 40_000_000, 2);
        (0..bodies).for_each(|it| assert!(put(&store, it, &[1; 3000])));
        store.save().unwrap();
        drop(store);
        let (store, told) = open(&room, 40_000_000, 2);
        assert_eq!(told.restored, bodies);
        counts.push((store.directory().calls(), store.directory().read()));
    }
    assert_eq!(counts, [(5, 512), (5, 512)]); // list, create_directory, list, open, read
}
/// No body is synced; a hit is open, read, stat; a miss after the scan asks the directory nothing.
#[test]
fn calls_of_hits_and_stores() {
    let room = Room::new("calls");
    let (store, _) = open(&room, 40_000_000, 2);
    assert!(put(&store, 0, &[1; 3000]));
    assert_eq!(calls(&store, || store.scan().unwrap().unknown).0, 2 + 1); // open of the order, the list of lists, one directory
                                                                          // create, 2 writes, stat, rename; with a directory that isn't there yet: rename, create_directory, rename
    assert_eq!(calls(&store, || put(&store, 1, &[1; 3000])), (7, true));
    assert_eq!(calls(&store, || put(&store, 1, &[2; 3000])), (4, true)); // what the old one takes is known
    assert_eq!(calls(&store, || store.get(NOW, &key(1)).unwrap().is_some()), (3, true));
    assert_eq!(calls(&store, || store.get(NOW, &key(99)).unwrap().is_some()), (0, false));
    assert_eq!(calls(&store, || store.purge(&key(1)).unwrap()), (1, true)); // remove
    assert_eq!(calls(&store, || stores(&store, 1)), (6, true)); // create, two writes of the body and one of the front, stat, rename
    drop(store);
    let (store, _) = open(&room, 40_000_000, 2);
    assert_eq!(calls(&store, || store.get(NOW, &key(0)).unwrap().is_some()), (6, true)); // revived: open, read, stat; then the hit
    assert_eq!(calls(&store, || store.get(NOW, &key(0)).unwrap().is_some()), (3, true));
}
/// A save syncs the file system once, and each of its turns of a partition is of 100 entries at most.
#[test]
fn a_save_syncs_once_for_all_bodies() {
    let room = Room::new("save");
    let (store, _) = open(&room, 40_000_000, 2);
    store.scan().unwrap();
    (0..250).for_each(|it| assert!(put(&store, it, &[1; 3000])));
    // sync_all, remove of a leftover, create, rows, header, sync, rename
    assert_eq!(store.directory().synced(), 0);
    assert_eq!(calls(&store, || store.save().unwrap()), (7, 250));
    assert_eq!(store.directory().synced(), 2); // of the file system, and of the order
}
/// Where that is asked for: the file, and its directory; of a first one the directory of directories too.
#[test]
fn each_body_is_synced_where_that_is_asked_for() {
    let room = Room::new("each");
    let mut its = options();
    its.sync = SyncPolicy::EachBody;
    let store = FileStore::open(Failing::new(room.open(), 0, At::Ends), &Options::new(4_000_000, 2), 1, &its).unwrap().0;
    let mut synced = Vec::new();
    for bytes in [1, 2] {
        assert!(put(&store, 1, &[bytes; 3000]));
        synced.push(store.directory().synced());
    }
    assert!(stale(&store, 1).revalidate(NOW, &head(1), &meta(8000)).unwrap());
    synced.push(store.directory().synced());
    assert!(store.purge(&key(1)).unwrap());
    synced.push(store.directory().synced());
    assert_eq!(synced, [3, 5, 6, 7]);
}
/// What a save synced outlasts a loss of power, renewed as it may be: of two slots one is on the disk.
#[test]
fn a_second_renewal_since_a_save_is_behind_a_sync() {
    let room = Room::new("renewals");
    let (store, _) = open(&room, 4_000_000, 1);
    let renewals = |count: u64| {
        let before = store.directory().synced();
        (0..count).for_each(|it| assert!(stale(&store, 1).revalidate(NOW, &head(1), &meta(5000 + it)).unwrap()));
        store.directory().synced() - before
    };
    assert!(put(&store, 1, &[1; 3000]));
    assert_eq!(renewals(3), 0); // no save has it yet
    for _ in 0..2 {
        store.save().unwrap();
        assert_eq!((renewals(1), renewals(1), renewals(2)), (0, 1, 2));
    }
}
/// While a hit stands before each of its calls of the directory others of its partition have their turns.
#[test]
fn a_hit_opens_its_file_under_no_lock_of_a_partition() {
    for at in 1..=3 {
        let (room, gate, (tell, told)) = (Room::new("under"), Gate::default(), mpsc::channel());
        let directory = Held { inner: room.open(), gate: gate.clone() };
        let store = FileStore::open(directory, &Options::new(4_000_000, 2), 1, &options()).unwrap().0;
        let put = |store: &FileStore<Held>, name: u64| store.put(NOW, &key(name), &head(1), &[1; 3000], &meta(9000)).unwrap();
        assert!(matches!(put(&store, 1), Finish::Stored { .. }));
        store.scan().unwrap();
        let (one, two, its) = (store.clone(), store.clone(), gate.clone());
        let one = thread::spawn(move || {
            its.hold_at(at);
            assert!(one.get(NOW, &key(1)).unwrap().is_some());
        });
        assert!(gate.stands_or(&one));
        thread::spawn(move || {
            let hit = two.get(NOW, &key(1)).unwrap().is_some();
            tell.send(hit && matches!(put(&two, 2), Finish::Stored { .. })).unwrap();
        });
        assert!(told.recv_timeout(Duration::from_secs(60)).unwrap());
        gate.let_go();
        one.join().unwrap();
    }
}
