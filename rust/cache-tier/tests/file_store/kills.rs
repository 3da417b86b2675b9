//! Stopped at each call of the directory, in lives, in starts, and in a second life: what a start serves is what the ended and begun calls allow.
use crate::common::*;
use crate::directories::{At, Room};
use cache_tier::file_store::*;
use std::collections::BTreeMap;
use std::path::Path;

/// What a key may have after a kill: turns, 0 for nothing. One only: it must.
type May = BTreeMap<u64, Vec<u64>>;
const NAMES: u64 = 14;

/// A life that notes what may be there. It ends where the directory does.
fn life(path: &Path, limit: u64, partitions: usize, at: u64, may: &mut May) -> u64 {
    let store = match open_by(path, limit, partitions, at, At::Ends) {
        Ok(it) => it.0,
        Err(_) => return 0,
    };
    let dead = || at != 0 && store.directory().calls() >= at;
    for step in 0..46u64 {
        let (name, turn) = (step * 5 % NAMES, step + 1);
        let was = may.entry(name).or_insert_with(|| vec![0]).clone();
        match step % 9 {
            3 => {
                may.insert(name, [was, vec![0]].concat());
                if store.purge(&key(name)).is_ok() && !dead() {
                    may.insert(name, vec![0]);
                }
            }
            6 => renew(&store, name, step, &was, dead()),
            7 => drop(store.save()),
            8 => give_up(&store, name, turn),
            4 => {
                may.insert(name, [was, vec![turn]].concat());
                let done = store.put(NOW, &key(name), &head(turn), &body(name, turn), &meta(9000));
                note(done.ok(), name, turn, dead(), may);
            }
            _ => {
                may.insert(name, [was.clone(), vec![turn]].concat());
                let now = if step % 6 == 5 { LATER } else { NOW };
                match fetch(&store, now, name, turn, step % 2 == 0) {
                    None if !dead() => drop(may.insert(name, was)), // it was fresh
                    done => note(done, name, turn, dead(), may),
                }
            }
        }
        if dead() {
            break;
        }
    }
    store.directory().calls()
}
fn renew(store: &Store, name: u64, step: u64, was: &[u64], dead: bool) {
    if let Ok(Lookup::Stale(body, mut fetch)) = store.lookup_stale(&key(name)) {
        let old = turn_of(&body);
        let _ = fetch.revalidate(NOW, &head(old), &meta(8000 + step));
        assert!(dead || was.contains(&old));
    }
}
fn give_up(store: &Store, name: u64, turn: u64) {
    if let Ok(Lookup::Miss(mut fetch)) | Ok(Lookup::Stale(_, mut fetch)) = store.lookup(LATER, &key(name)) {
        let _ = fetch.begin(LATER, &head(turn), &meta(9000), None);
        fetch.write(&[1; 5000]);
    }
}
/// Notes what an acknowledged store leaves.
fn note(done: Option<Finish>, name: u64, turn: u64, dead: bool, may: &mut May) {
    if let (Some(Finish::Stored { .. }), false) = (done, dead) {
        may.insert(name, vec![turn]);
    }
}
fn started(room: &Room, limit: u64, partitions: usize, at: u64, may: &May, roomy: bool, scan: bool) -> u64 {
    let (store, _) = open(room, limit, partitions);
    if scan {
        let told = store.scan().unwrap();
        assert_eq!((told.foreign, told.unread, told.corrupt), (0, 0, 0));
    }
    let (served, mut owed) = (served(&store, NOW, NAMES), 0);
    for name in 0..NAMES {
        let (it, may) = (served.get(&name).copied().unwrap_or(0), may.get(&name).cloned().unwrap_or(vec![0]));
        assert!(may.contains(&it) || !roomy && it == 0, "call {} scan {}: {} has {} and may have {:?}", at, scan, name, it, may);
        owed += u64::from(may.len() == 1 && it != 0);
    }
    store.scan().unwrap();
    let stats = store.stats();
    assert_eq!((room.files().len() as u64, stats.folder.used_bytes), (stats.tiers.bodies + stats.folder.cold, room.file_bytes()), "call {}", at);
    assert!(stats.folder.used_bytes <= limit && stats.folder.errors == 0 && (!roomy || stats.folder.cold == 0));
    owed
}
fn killed(limit: u64, partitions: usize, roomy: bool, step: usize) {
    let total = life(&Room::new("whole").0, limit, partitions, 0, &mut May::new());
    let (mut owed, mut starts) = (0, 0);
    for at in (1..=total).step_by(if is_whole() { 1 } else { step }) {
        let (room, mut may) = (Room::new("killed"), May::new());
        life(&room.0, limit, partitions, at, &mut may);
        if at % 7 == 0 {
            life(&room.0, limit, partitions, 1 + at % 260, &mut may); // a second life after the kill, killed too
        }
        for call in (1..30).filter(|_| at % 20 == 0) {
            if let Ok((store, _)) = open_by(&room.0, limit, partitions, call * 2, At::Ends) {
                let _stopped_in_the_scan = store.scan();
            }
            starts += 1;
        }
        // (any number of partitions)
        owed += started(&room, limit, partitions, at, &may, roomy, false);
        owed += started(&room, limit, 1 + at as usize % 3, at, &may, roomy, true);
    }
    println!("stopped at {} calls, each {}th, and in {} starts: {} bodies were owed and served", total, step, starts, owed);
    assert!(total > 200 && owed > total / 2);
}
#[test]
fn stopped_at_each_call() {
    killed(4_000_000, 2, true, 3);
}
#[test]
fn stopped_at_each_call_with_evictions() {
    killed(190_000, 1, false, 3);
}
