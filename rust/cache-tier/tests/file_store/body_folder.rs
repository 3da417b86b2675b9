//! A folder of bodies over an index that is a map: stopped at each call, with each call failing once.
use crate::directories::{At, Failing, Room};
use cache_tier::file_store::*;
use cache_tier::{Digest, Error, Meta, Moment};
use std::collections::{BTreeMap, HashMap};
use std::sync::atomic::{AtomicU64, Ordering};
use std::sync::Mutex;

/// A map of what is hot, with its order of use: no tier. And the most entries that were asked for in one turn.
#[derive(Default)]
struct Map(Mutex<Hot>, AtomicU64);
#[derive(Default)]
struct Hot {
    hot: HashMap<Digest, FileId>,
    /// Most recently used first, with what its file takes.
    order: Vec<(Digest, u64)>,
}
impl Map {
    fn set(&self, key: &Digest, id: &FileId, bytes: u64) {
        let mut it = self.0.lock().unwrap();
        it.hot.insert(*key, *id);
        it.order.retain(|it| it.0 != *key);
        it.order.insert(0, (*key, bytes));
    }
}
impl HotIndex for Map {
    fn partitions(&self) -> usize {
        1
    }
    fn peek(&self, key: &Digest, partition: PartitionKey) -> Result<Option<FileId>, Error> {
        assert_eq!(partition, PartitionKey::of(&first(key)));
        Ok(self.0.lock().unwrap().hot.get(key).copied())
    }
    fn purge(&self, key: &Digest, _: PartitionKey) -> Result<Purged, Error> {
        let mut it = self.0.lock().unwrap();
        let file_bytes = it.order.iter().find(|it| it.0 == *key).map(|it| it.1);
        it.order.retain(|it| it.0 != *key);
        Ok(Purged { any: it.hot.remove(key).is_some(), file_bytes })
    }
    fn list(&self, _: usize, from: u64, most: u64, to: &mut Vec<HotEntry>) -> Result<u64, Error> {
        self.1.fetch_max(most, Ordering::SeqCst);
        let it = self.0.lock().unwrap();
        let some = it.order.iter().skip(from as usize).take(most as usize);
        to.extend(some.map(|it| HotEntry { key: it.0, partition: PartitionKey::of(&first(&it.0)), file_bytes: it.1 }));
        Ok(it.order.len() as u64)
    }
}
const NAMES: u64 = 12;
const HEAD: &[u8] = b"HTTP/1.1 200 OK\r\nETag: \"1\"\r\n\r\n";
static IDS: AtomicU64 = AtomicU64::new(1);
fn key(name: u64) -> Digest {
    Digest::of(&name.to_le_bytes())
}
/// Of each key another one names its partition.
fn first(key: &Digest) -> Digest {
    Digest::of(&key.0)
}
fn body(name: u64, turn: u64) -> Vec<u8> {
    let length = (name * 7919 + turn * 31) % 9000 + 140_000 * u64::from(name % 7 == 5);
    (0..length).map(|at| (at ^ name ^ (turn << 3)) as u8).collect()
}
fn text(name: u64, turn: u64) -> Vec<u8> {
    format!("/{} {}", name, turn).into_bytes()
}
fn meta(turn: u64) -> Meta {
    Meta::until(Moment::at(5000 + turn), Moment::at(1000))
}
struct Folder {
    folder: BodyFolder<Failing>,
    map: Map,
    max_bytes: u64,
}
impl Folder {
    fn open(room: &Room, max_bytes: u64, at: u64, how: At) -> Option<Folder> {
        let mut options = FolderOptions::new(max_bytes);
        options.max_cold = 1000;
        let folder = BodyFolder::open(Failing::new(DiskDirectory::open(&room.0).ok()?, at, how), &options).ok()?.0;
        Some(Folder { folder, map: Map::default(), max_bytes })
    }
    fn put(&self, name: u64, turn: u64) -> bool {
        let (folder, key, mut id) = (&self.folder, key(name), [0; 16]);
        id[..8].copy_from_slice(&IDS.fetch_add(1, Ordering::SeqCst).to_le_bytes());
        let (text, first, bytes) = (text(name, turn), first(&key), body(name, turn));
        let named = BodyKey::new(&key).with_first(&first).with_text(&text);
        let mut new = match folder.create(&id, &named, HEAD.len(), Some(bytes.len() as u64)) {
            Ok(it) => it,
            Err(_) => return false,
        };
        let came = bytes.chunks(70_000).all(|it| folder.append(&mut new, it).is_ok());
        let stored = came
            && folder
                .finish(&mut new, HEAD, &meta(turn), |lock, sealed| {
                    let before = self.map.0.lock().unwrap().order.iter().find(|it| it.0 == key).map(|it| it.1);
                    self.map.set(&key, &id, sealed.file_bytes());
                    let stored = lock.store(sealed, before);
                    if stored.is_err() {
                        self.map.purge(&key, named.partition()).unwrap();
                        let _ = lock.unlink(before);
                    }
                    stored.is_ok()
                })
                .unwrap_or(false);
        if !stored {
            folder.discard(&id);
        }
        folder.trim(&self.map);
        while stored && folder.stats().used_bytes > self.max_bytes && !self.map.0.lock().unwrap().order.is_empty() {
            self.evict();
        }
        stored
    }
    /// The turn that a key has, whole; 0: none.
    fn get(&self, name: u64) -> Result<u64, StoreError> {
        let (folder, key) = (&self.folder, key(name));
        if !folder.may_be_cold(&key) && !self.map.0.lock().unwrap().hot.contains_key(&key) {
            return Ok(0);
        }
        folder.with_key(&key, |lock| match lock.contents()? {
            Contents::Body(it) => {
                let hot = self.map.peek(&key, PartitionKey::of(&first(&key)))?;
                assert!(hot.map_or(true, |hot| hot == it.id()));
                let turn = it.meta().fresh_until.seconds - 5000;
                assert_eq!((it.length(), it.head(), it.text()), (body(name, turn).len() as u64, HEAD, Some(&text(name, turn)[..])));
                if hot.is_none() {
                    lock.mark_hot(&it);
                    self.map.set(&key, &it.id(), it.file_bytes());
                }
                Ok(turn)
            }
            Contents::Missing => Ok(0),
            Contents::Corrupt => panic!("{} is corrupt", name),
        })
    }
    /// The index gives up its oldest.
    fn evict(&self) {
        let gone = self.map.0.lock().unwrap().order.last().copied();
        if let Some((key, _)) = gone {
            let partition = PartitionKey::of(&first(&key));
            self.map.purge(&key, partition).unwrap();
            self.folder.unlink_evicted(&self.map, &[key], partition);
        }
    }
}
/// A life that tells what each key may have; it ends where the directory does.
fn life(room: &Room, max_bytes: u64, at: u64, may: &mut BTreeMap<u64, Vec<u64>>) -> u64 {
    let it = match Folder::open(room, max_bytes, at, At::Ends) {
        Some(it) => it,
        None => return 0,
    };
    let dead = || at != 0 && it.folder.directory().calls() >= at;
    for step in 0..40u64 {
        let (name, turn) = (step * 5 % NAMES, step + 1);
        let was = may.entry(name).or_insert_with(|| vec![0]).clone();
        match step % 8 {
            3 => {
                may.insert(name, [was, vec![0]].concat());
                let key = key(name);
                let first = first(&key);
                if it.folder.purge(&it.map, &BodyKey::new(&key).with_first(&first)).is_ok() && !dead() {
                    may.insert(name, vec![0]);
                }
            }
            5 => drop(it.folder.save(&it.map)),
            6 => it.evict(),
            7 => drop(it.get(name)),
            _ => {
                may.insert(name, [was, vec![turn]].concat());
                if it.put(name, turn) && !dead() {
                    may.insert(name, vec![turn]);
                }
            }
        }
        if dead() {
            break;
        }
    }
    it.folder.directory().calls()
}
fn stopped(max_bytes: u64, roomy: bool, step: usize) {
    let total = life(&Room::new("whole"), max_bytes, 0, &mut BTreeMap::new());
    let (mut owed, mut calls) = (0, 0);
    for at in (1..=total).step_by(step) {
        let (room, mut may) = (Room::new("stopped"), BTreeMap::new());
        life(&room, max_bytes, at, &mut may);
        let it = Folder::open(&room, max_bytes, 0, At::Ends).unwrap();
        if at % 2 == 0 {
            let told = it.folder.scan(&it.map).unwrap();
            assert_eq!((told.foreign, told.unread, told.corrupt), (0, 0, 0), "call {}", at);
        }
        for name in 0..NAMES {
            let (got, may) = (it.get(name).unwrap(), may.get(&name).cloned().unwrap_or(vec![0]));
            assert!(may.contains(&got) || !roomy && got == 0, "call {}: {} has {} and may have {:?}", at, name, got, may);
            owed += u64::from(may.len() == 1 && got != 0);
        }
        it.folder.scan(&it.map).unwrap();
        while it.folder.stats().used_bytes > max_bytes {
            it.evict();
        }
        let stats = it.folder.stats();
        assert_eq!((stats.used_bytes, stats.errors, stats.cold), (room.file_bytes(), 0, 0), "call {}", at);
        it.folder.save(&it.map).unwrap();
        calls += 1;
    }
    println!("stopped at {} of {} calls: {} bodies were owed and served", calls, total, owed);
    assert!(calls * step as u64 > 150 && (!roomy || owed > calls));
}
#[test]
fn stopped_at_each_call() {
    stopped(4_000_000, true, 1);
}
#[test]
fn stopped_at_each_call_with_evictions() {
    stopped(180_000, false, 1);
}
#[test]
fn each_call_fails_once() {
    let before = Room::new("before");
    {
        let it = Folder::open(&before, 4_000_000, 0, At::Ends).unwrap();
        assert!((0..6).all(|name| it.put(name, 1)));
        it.folder.save(&it.map).unwrap();
        assert!(it.put(6, 1));
    }
    for number in [24, 5, 13, 28] {
        // EMFILE, EIO, EACCES, ENOSPC
        for at in 1.. {
            let room = before.copied("fails");
            let (mut purged, mut ended) = (false, false);
            if let Some(it) = Folder::open(&room, 4_000_000, at, At::Fails(number)) {
                let _ = it.folder.scan(&it.map);
                let _ = (0..7).map(|name| it.get(name)).filter(|it| it.is_err()).count();
                it.put(3, 2);
                let named = (key(4), first(&key(4)));
                purged = it.folder.purge(&it.map, &BodyKey::new(&named.0).with_first(&named.1)).is_ok();
                let _ = it.folder.save(&it.map);
                it.evict();
                ended = it.folder.directory().calls() < at;
            }
            let it = Folder::open(&room, 4_000_000, 0, At::Ends).unwrap();
            it.folder.scan(&it.map).unwrap();
            for name in [0, 1, 2, 5, 6] {
                assert_eq!(it.get(name).unwrap(), 1, "error {} at call {}: {} is lost", number, at, name);
            }
            assert!(!purged || it.get(4).unwrap() == 0, "error {} at call {}: a purged body is back", number, at);
            assert_eq!(it.folder.stats().used_bytes, room.file_bytes());
            if ended {
                break;
            }
        }
    }
}
/// While a save lists 1,000 hot bodies, others have their turns: the longest is of 100 entries.
#[test]
fn m9_a_save_takes_100_entries_a_turn() {
    let room = Room::new("m9");
    let it = Folder::open(&room, 4_000_000, 0, At::Ends).unwrap();
    (0..1000).for_each(|name| it.map.set(&key(name), &[7; 16], 4608));
    assert_eq!(it.folder.save(&it.map).unwrap(), 1000);
    assert_eq!(it.map.1.load(Ordering::SeqCst), 100);
}
