//! A store over a directory of a test, and small bodies by name and turn.
use crate::directories::{At, Failing, Room};
use cache_tier::file_store::*;
use cache_tier::{Digest, Meta, Moment, Options};
use std::collections::BTreeMap;
use std::io;
use std::path::Path;

pub const NOW: Moment = Moment::at(1000);
pub const LATER: Moment = Moment::at(5000);
pub type Store = FileStore<Failing>;

pub fn key(name: u64) -> Digest {
    Digest::of(&name.to_le_bytes())
}
/// The body of a name at its nth turn: some are empty, and some of more than two blocks.
pub fn body(name: u64, turn: u64) -> Vec<u8> {
    let length = (name * 7919 + turn * 31) % 9000 * u64::from(name % 11 != 3) + 140_000 * u64::from(name % 17 == 5);
    (0..length).map(|at| (at ^ name ^ (turn << 3) ^ (at >> 8)) as u8).collect()
}
pub fn head(turn: u64) -> Vec<u8> {
    format!("HTTP/1.1 200 OK\r\nX-Turn: {}\r\n\r\n", turn).into_bytes()
}
pub fn turn_of(it: &StoredBody) -> u64 {
    let line = it.response.iter_fields().find(|it| it.0 == b"x-turn").expect("a head");
    String::from_utf8_lossy(line.1).parse().unwrap()
}
pub fn meta(until: u64) -> Meta {
    Meta::until(Moment::at(until), NOW)
}
pub fn options() -> StoreOptions {
    let mut it = StoreOptions::default();
    it.max_inline = 600;
    it
}
pub fn open_by(path: &Path, limit: u64, partitions: usize, at: u64, how: At) -> io::Result<(Store, Recovery)> {
    FileStore::open(Failing::new(DiskDirectory::open(path)?, at, how), &Options::new(limit, 2), partitions, &options())
}
pub fn open(room: &Room, limit: u64, partitions: usize) -> (Store, Recovery) {
    open_by(&room.0, limit, partitions, 0, At::Ends).unwrap()
}
/// Whether each call is tried.
pub fn is_whole() -> bool {
    std::env::var_os("FILE_STORE_WHOLE").is_some()
}
/// Stores a body, where it isn't fresh. `known`: its length is told before.
pub fn fetch<D: Directory>(store: &FileStore<D>, now: Moment, name: u64, turn: u64, known: bool) -> Option<Finish> {
    let bytes = body(name, turn);
    match store.lookup(now, &key(name)) {
        Ok(Lookup::Miss(mut fetch)) | Ok(Lookup::Stale(_, mut fetch)) => {
            let length = if known { Some(bytes.len() as u64) } else { None };
            match fetch.begin(now, &head(turn), &meta(now.seconds + 1000), length).ok()? {
                Begin::Storing => {}
                Begin::NotStored(why) => return Some(Finish::NotStored(why)),
            }
            bytes.chunks(4000).for_each(|it| {
                fetch.write(it);
            });
            fetch.finish(now).ok()
        }
        _ => None,
    }
}
pub fn stores(store: &Store, name: u64) -> bool {
    matches!(fetch(store, NOW, name, 1, true), Some(Finish::Stored { .. }))
}
pub fn put(store: &Store, name: u64, bytes: &[u8]) -> bool {
    matches!(store.put(NOW, &key(name), &head(1), bytes, &meta(9000)).unwrap(), Finish::Stored { .. })
}
/// Which of so many names are served, each whole, with the turn that its head tells.
pub fn served<D: Directory>(store: &FileStore<D>, now: Moment, names: u64) -> BTreeMap<u64, u64> {
    let mut all = BTreeMap::new();
    for name in 0..names {
        if let Some(it) = store.get(now, &key(name)).unwrap() {
            let turn = turn_of(&it);
            assert!(it.read_to_vec().unwrap() == body(name, turn), "{}: a body that isn't the one of its head", name);
            all.insert(name, turn);
        }
    }
    all
}
pub fn miss(store: &Store, name: u64) -> Fetch<Failing> {
    match store.lookup(NOW, &key(name)).unwrap() {
        Lookup::Miss(it) => it,
        it => panic!("{:?}", it),
    }
}
pub fn follow(store: &Store, name: u64) -> Follower {
    match store.lookup(NOW, &key(name)).unwrap() {
        Lookup::Follow(it) => it,
        it => panic!("{:?}", it),
    }
}
pub fn stale(store: &Store, name: u64) -> Fetch<Failing> {
    match store.lookup_stale(&key(name)).unwrap() {
        Lookup::Stale(_, it) => it,
        it => panic!("{:?}", it),
    }
}
