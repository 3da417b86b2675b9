//! Loss of power, over a directory that forgets what wasn't synced. Whole bytes are served, or nothing; what a save had synced is there; with
//! `SyncPolicy::EachBody` what ended is there, and what was purged isn't.
use crate::common::*;
use crate::directories::forgetful::Forgetful;
use crate::directories::{At, Failing, Room};
use cache_tier::file_store::*;
use cache_tier::Options;
use std::collections::BTreeMap;
use std::fs::OpenOptions;
use std::os::unix::fs::FileExt;

const NAMES: u64 = 12;
fn open(room: &Room, durable: &Room, boot: u64, sync: SyncPolicy) -> FileStore<Forgetful> {
    let mut its = options();
    its.sync = sync;
    FileStore::open(Forgetful::open(&room.0, &durable.0, boot), &Options::new(4_000_000, 2), 2, &its).unwrap().0
}
/// The turn that a key has after its last ended call (0: none), and that at the last save, if it wasn't touched since.
#[derive(Clone, Copy, Default)]
struct Has {
    now: u64,
    saved: Option<u64>,
}
fn life(store: &FileStore<Forgetful>, has: &mut BTreeMap<u64, Has>, from: u64, random: &mut impl FnMut(u64) -> u64) {
    for step in from..from + 25 {
        let (name, turn) = (random(NAMES), step + 1);
        let it = has.entry(name).or_default();
        match random(8) {
            0 => {
                store.purge(&key(name)).unwrap();
                *it = Has::default();
            }
            1 => {
                store.save().unwrap();
                has.values_mut().for_each(|it| it.saved = Some(it.now));
            }
            2 => {
                if let Ok(Lookup::Stale(body, mut fetch)) = store.lookup_stale(&key(name)) {
                    assert!(fetch.revalidate(NOW, &head(turn_of(&body)), &meta(8000 + step)).unwrap());
                }
            }
            _ => {
                let done = store.put(NOW, &key(name), &head(turn), &body(name, turn), &meta(9000)).unwrap();
                assert!(matches!(done, Finish::Stored { .. }));
                *it = Has { now: turn, saved: None };
            }
        }
    }
}
fn losses(sync: SyncPolicy, seeds: u64) -> (u64, u64, u64) {
    let (mut whole, mut owed, mut corrupt) = (0, 0, 0);
    for seed in 1..=seeds {
        let mut state = seed.wrapping_mul(0x9E37_79B9_7F4A_7C15);
        let mut random = move |below: u64| {
            state ^= state << 13;
            state ^= state >> 7;
            state ^= state << 17;
            (state >> 11) % below
        };
        let (room, durable, mut has) = (Room::new("power"), Room::new("durable"), BTreeMap::new());
        let mut store = open(&room, &durable, 100, sync);
        for turn in 0..3 {
            life(&store, &mut has, turn * 100, &mut random);
            store.directory().lose_power(&mut random);
            drop(store);
            store = open(&room, &durable, 101 + turn, sync);
            let served = served(&store, NOW, NAMES); // whole, and the body of its head
            for (name, it) in &mut has {
                let got = served.get(name).copied().unwrap_or(0);
                if sync == SyncPolicy::EachBody {
                    assert_eq!(got, it.now, "seed {}: {}", seed, name);
                }
                if sync == SyncPolicy::AtSave && it.saved == Some(it.now) {
                    assert_eq!(got, it.now, "seed {}: {}", seed, name);
                    owed += 1;
                }
                *it = Has { now: got, saved: None };
            }
            store.scan().unwrap();
            whole += served.len() as u64;
            corrupt += store.stats().folder.corrupt;
        }
    }
    println!("{:?}: {} served whole, {} of them owed by a save, {} torn ones removed", sync, whole, owed, corrupt);
    (whole, owed, corrupt)
}
#[test]
fn what_is_torn_is_not_served() {
    let seeds = if is_whole() { 300 } else { 12 };
    let (whole, _, corrupt) = losses(SyncPolicy::Never, seeds);
    assert!(whole > seeds && corrupt > seeds);
}
#[test]
fn what_a_save_synced_is_served() {
    let seeds = if is_whole() { 300 } else { 12 };
    let (whole, owed, corrupt) = losses(SyncPolicy::AtSave, seeds);
    assert!(whole > seeds && owed > seeds && corrupt > 0);
}
#[test]
fn what_is_synced_by_body_is_as_it_ended() {
    let seeds = if is_whole() { 300 } else { 12 };
    let (whole, _, corrupt) = losses(SyncPolicy::EachBody, seeds);
    assert!(whole > seeds && corrupt == 0);
}
/// What was compared once isn't compared again in this start of the machine.
#[test]
fn a_doubtful_body_is_compared_once() {
    let room = Room::new("boot");
    let open = |boot: u64| {
        let mut directory = Failing::new(room.open(), 0, At::Ends);
        directory.boot = boot;
        FileStore::open(directory, &Options::new(4_000_000, 2), 1, &options()).unwrap().0
    };
    let store = open(11);
    (0..6).for_each(|it| assert!(stores(&store, it)));
    store.save().unwrap();
    (6..12).chain([22]).for_each(|it| assert!(stores(&store, it)));
    drop(store);
    for it in [7, 9] {
        let file = OpenOptions::new().write(true).open(room.file(&key(it))).unwrap();
        file.write_all_at(&[0; 300], file.metadata().unwrap().len() - 300).unwrap(); // nulls, as after a loss of power
    }
    OpenOptions::new().write(true).open(room.file(&key(8))).unwrap().set_len(0).unwrap();
    for boot in [12, 13] {
        let store = open(boot);
        let names: Vec<u64> = served(&store, NOW, 12).into_keys().collect();
        assert_eq!(names, [0, 1, 2, 3, 4, 5, 6, 10, 11]);
        assert_eq!(store.stats().folder.corrupt, if boot == 12 { 3 } else { 0 });
    }
    // a body of three blocks that no save had synced: they are read at its first hit alone
    let calls = || {
        let store = open(14);
        let before = store.directory().calls();
        assert!(store.get(NOW, &key(22)).unwrap().is_some());
        store.directory().calls() - before
    };
    assert_eq!((calls(), calls()), (6 + 3 + 4 + 2, 6)); // contents again, checks and blocks, open and write
}
