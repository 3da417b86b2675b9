//! Two calls on one key, the first held before each of its calls of the directory while the second runs (till it ends, or waits for the first). Then tier
//! and files agree, what is served is what one of the two left, and a start over the same files serves just that.
use crate::common::{is_whole, LATER, NOW};
use crate::directories::held::{Gate, Held};
use crate::directories::Room;
use cache_tier::file_store::*;
use cache_tier::{Digest, Meta, Moment, Options};
use std::thread;
use std::time::{Duration, Instant};

const LIMIT: u64 = 30_000;
type Store = FileStore<Held>;
fn key(name: u64) -> Digest {
    Digest::of(&name.to_le_bytes())
}
fn body(turn: u64) -> Vec<u8> {
    vec![turn as u8; 5000 + turn as usize]
}
fn head(turn: u64) -> Vec<u8> {
    crate::common::head(turn)
}
fn turn_of(it: &StoredBody) -> u64 {
    let turn = crate::common::turn_of(it);
    assert!(it.read_to_vec().unwrap() == body(turn), "a body that isn't the one of its head");
    turn
}
fn put(store: &Store, name: u64, turn: u64) -> bool {
    matches!(store.put(NOW, &key(name), &head(turn), &body(turn), &Meta::until(Moment::at(2000), NOW)), Ok(Finish::Stored { .. }))
}
fn open(room: &Room, gate: &Gate, budget: u64) -> Store {
    let mut options = StoreOptions::default();
    options.max_bytes = Some(budget);
    options.max_body = Some(20_000);
    options.sync = SyncPolicy::Never;
    FileStore::open(Held { inner: room.open(), gate: gate.clone() }, &Options::new(LIMIT, 2), 1, &options).unwrap().0
}
#[derive(Clone, Copy, Debug, PartialEq)]
enum Call {
    Put,
    Fetch,
    Purge,
    Evict,
    Get,
    Renew,
    Scan,
    Save,
}
use Call::*;
/// What key 0 may have after it (0: nothing), if it did anything.
fn run(store: &Store, what: Call, turn: u64) -> Option<u64> {
    match what {
        Put => Some(turn).filter(|it| put(store, 0, *it)),
        Fetch => match store.lookup(LATER, &key(0)).unwrap() {
            Lookup::Miss(mut fetch) | Lookup::Stale(_, mut fetch) => {
                fetch.begin(LATER, &head(turn), &Meta::until(Moment::at(9000), LATER), None).unwrap();
                fetch.write(&body(turn));
                Some(turn).filter(|_| matches!(fetch.finish(LATER).unwrap(), Finish::Stored { .. }))
            }
            _ => None,
        },
        Purge => store.purge(&key(0)).map(|_| 0).ok(),
        Evict => {
            (1..4).for_each(|it| assert!(put(store, it, turn)));
            Some(0)
        }
        Get => {
            store.get(NOW, &key(0)).unwrap().map(|it| turn_of(&it));
            None
        }
        Renew => {
            if let Lookup::Stale(it, mut fetch) = store.lookup_stale(&key(0)).unwrap() {
                let _ = fetch.revalidate(NOW, &head(turn_of(&it)), &Meta::until(Moment::at(2500), NOW));
            }
            None
        }
        Scan => {
            store.scan().unwrap();
            None
        }
        Save => {
            store.save().unwrap();
            None
        }
    }
}
fn agree(store: &Store, room: &Room, what: &str) {
    let stats = store.stats();
    let files = (room.files().len() as u64, room.file_bytes());
    assert_eq!((stats.tiers.bodies + stats.folder.cold, stats.folder.used_bytes), files, "{}", what);
    assert_eq!((stats.folder.errors, stats.folder.corrupt), (0, 0), "{}", what);
}
/// What key 0 may have, by what the two calls left.
fn may_have(past: &str, one: Option<u64>, two: Option<u64>) -> Vec<u64> {
    match (one, two) {
        (None, None) => vec![u64::from(past != "nothing")],
        (Some(a), Some(b)) => vec![a, b],
        (a, b) => vec![a.or(b).unwrap_or(0)],
    }
}
/// One pair: whether the first was held, and whether the second waited for it.
fn pair(past: &str, first: Call, second: Call, at: u64, budget: u64) -> (bool, bool) {
    let (room, gate) = (Room::new("pairs"), Gate::default());
    if past != "nothing" {
        let store = open(&room, &gate, budget);
        assert!(put(&store, 0, 1));
        store.save().unwrap();
    }
    let store = open(&room, &gate, budget);
    if past == "scanned" || past == "hot" {
        store.scan().unwrap();
    }
    assert!(past != "hot" || store.get(NOW, &key(0)).unwrap().is_some());
    let (one, two, its) = (store.clone(), store.clone(), gate.clone());
    let one = thread::spawn(move || {
        its.hold_at(at);
        run(&one, first, 2)
    });
    let stands = gate.stands_or(&one);
    let two = thread::spawn(move || run(&two, second, 3));
    let until = Instant::now() + Duration::from_millis(if stands { 8 } else { 0 });
    while !two.is_finished() && Instant::now() < until {
        thread::sleep(Duration::from_micros(100));
    }
    let waited = stands && !two.is_finished();
    gate.let_go();
    let (one, two) = (one.join().unwrap(), two.join().unwrap());
    let what = format!("{}: {:?} held at {} and {:?}", past, first, at, second);
    store.scan().unwrap();
    agree(&store, &room, &what);
    let may = may_have(past, one, two);
    let has = |it: Option<StoredBody>| it.map_or(0, |it| turn_of(&it));
    let served = has(store.get(NOW, &key(0)).unwrap());
    // (an eviction may also pass the key by, where it was used or stored meanwhile, or leave it cold)
    let evicts = first == Evict || second == Evict;
    assert!(may.contains(&served) || evicts && served < 4, "{}: {} of {:?}", what, served, may);
    agree(&store, &room, &what);
    drop(store);
    let store = open(&room, &Gate::default(), budget);
    assert_eq!(has(store.get(NOW, &key(0)).unwrap()), served, "{}: after a start", what);
    (stands, waited)
}
fn pairs(budget: u64, step: usize) {
    let (mut held, mut waited) = (0, 0);
    for past in ["hot", "cold", "scanned", "nothing"] {
        for first in [Put, Fetch, Purge, Evict, Get, Renew, Scan, Save] {
            for second in [Put, Fetch, Purge, Evict, Get, Renew, Save] {
                for at in (1..).step_by(if is_whole() { 1 } else { step }) {
                    let it = pair(past, first, second, at, budget);
                    held += u64::from(it.0);
                    waited += u64::from(it.1);
                    if !it.0 {
                        break;
                    }
                }
            }
        }
    }
    println!("{} pairs, of which {} waited", held, waited);
    assert!(held > 300 && waited > 20);
}
/// The budget is the tiers' limit: what is evicted goes.
#[test]
fn pairs_of_calls() {
    pairs(LIMIT, 2);
}
/// The folder has room: what is evicted is cold.
#[test]
fn pairs_of_calls_with_room() {
    pairs(3 * LIMIT, 3);
}
