//! Flipped bits, cut files, files in each other's place, foreign files, other programs.
use crate::common::*;
use crate::directories::Room;
use cache_tier::file_store::*;
use std::fs::{self, OpenOptions};
use std::os::unix::fs::{symlink, FileExt, PermissionsExt};

const LIMIT: u64 = 4_000_000;
fn filled(name: &str, bodies: u64) -> Room {
    let room = Room::new(name);
    let (store, _) = open(&room, LIMIT, 2);
    (0..bodies).for_each(|it| assert!(stores(&store, it)));
    store.save().unwrap();
    room
}
fn flip(path: &std::path::Path, at: u64, mask: u8) {
    let file = OpenOptions::new().read(true).write(true).open(path).unwrap();
    let mut one = [0];
    file.read_exact_at(&mut one, at).unwrap();
    file.write_all_at(&[one[0] ^ mask], at).unwrap();
}
#[test]
fn a_flipped_bit_of_the_order_loses_no_body() {
    let room = filled("flip", 20);
    for at in [100, 512 + 28 * 7 + 3] {
        let other = room.copied("flipped");
        flip(&other.0.join("order"), at, 4);
        let (store, told) = open(&other, LIMIT, 2);
        let scan = store.scan().unwrap();
        assert_eq!(served(&store, NOW, 20).len(), 20);
        assert_eq!((told.order_lost, scan.corrupt_rows, scan.known + scan.unknown), (at < 512, u64::from(at > 512), 20));
        assert!(at < 512 || scan.known == 19);
        assert_eq!(store.stats().folder.used_bytes, other.file_bytes());
    }
}
/// That body alone goes, or its older slot counts, and no wrong byte is given.
#[test]
fn a_flipped_bit_of_a_body_loses_that_body_alone() {
    let room = filled("flip", 20);
    let size = fs::metadata(room.file(&key(5))).unwrap().len();
    assert!(size > 140_000);
    let (mut at, mut gone, mut whole) = (3, 0, 0);
    while at < size {
        let other = room.copied("flipped");
        flip(&other.file(&key(5)), at, 16);
        let (store, _) = open(&other, LIMIT, 2);
        match store.get(NOW, &key(5)).unwrap().map(|it| it.read_to_vec()) {
            None => gone += 1,
            Some(Ok(bytes)) => {
                assert!(bytes == body(5, 1));
                whole += 1;
            }
            Some(Err(why)) => {
                assert_eq!(why.kind(), std::io::ErrorKind::InvalidData);
                assert!(store.get(NOW, &key(5)).unwrap().is_none() && !other.file(&key(5)).exists() && store.stats().folder.corrupt == 1);
                gone += 1;
            }
        }
        let mut others = served(&store, NOW, 20);
        others.remove(&5);
        assert_eq!(others.len(), 19);
        at += if at < 400 { 13 } else { 9973 };
    }
    assert!(gone > 20 && whole > 0, "{} {}", gone, whole);
}
#[test]
fn cut_and_exchanged_files_are_not_served() {
    let room = filled("cut", 20);
    let (store, _) = open(&room, LIMIT, 2);
    let cut = |name: u64, length: u64| OpenOptions::new().write(true).open(room.file(&key(name))).unwrap().set_len(length).unwrap();
    let hit = store.get(NOW, &key(1)).unwrap().unwrap();
    cut(1, 500); // under a reader
    assert!(hit.read_to_vec().is_err());
    assert!(store.get(NOW, &key(1)).unwrap().is_none());
    assert!(store.get(NOW, &key(2)).unwrap().is_some());
    [2, 4].iter().for_each(|it| cut(*it, 1500)); // 2 is hot, 4 cold
    assert!(store.get(NOW, &key(2)).unwrap().is_none() && store.get(NOW, &key(4)).unwrap().is_none());
    assert!(store.stats().folder.corrupt == 3 && !room.file(&key(4)).exists());
    for (a, b, hot) in [(6, 7, true), (8, 9, false)] {
        assert!(!hot || store.get(NOW, &key(a)).unwrap().is_some() && store.get(NOW, &key(b)).unwrap().is_some());
        fs::rename(room.file(&key(a)), room.0.join("t")).unwrap();
        fs::rename(room.file(&key(b)), room.file(&key(a))).unwrap();
        fs::rename(room.0.join("t"), room.file(&key(b))).unwrap();
        assert!(store.get(NOW, &key(a)).unwrap().is_none() && store.get(NOW, &key(b)).unwrap().is_none());
    }
}
/// The checks have one of their own.
#[test]
fn a_block_of_another_body_with_its_check_is_not_served() {
    let room = Room::new("blocks");
    let (store, _) = open(&room, LIMIT, 1);
    (1..3).for_each(|it| assert!(put(&store, it, &[it as u8; 140_000])));
    let file = |name: u64| OpenOptions::new().read(true).write(true).open(room.file(&key(name))).unwrap();
    let (one, two) = (file(1), file(2));
    let checks = one.metadata().unwrap().len() - 3 * 8;
    for (from, length) in [(checks - 140_000 + (1 << 16), 1 << 16), (checks + 8, 8)] {
        let mut bytes = vec![0; length];
        two.read_exact_at(&mut bytes, from).unwrap();
        one.write_all_at(&bytes, from).unwrap();
    }
    let hit = store.get(NOW, &key(1)).unwrap().unwrap();
    assert_eq!(hit.read_to_vec().unwrap_err().kind(), std::io::ErrorKind::InvalidData);
    assert_eq!(store.get(NOW, &key(2)).unwrap().unwrap().read_to_vec().unwrap(), [2; 140_000]);
}
/// Two variants of one resource, whose first key is the same.
#[test]
fn exchanged_variants_are_not_served() {
    let room = Room::new("exchanged");
    let (first, keys) = (key(1), [key(2), key(3)]);
    let named = |it: usize| BodyKey::new(&keys[it]).with_first(&first);
    for it in 0..2 {
        let (store, _) = open(&room, LIMIT, 2);
        assert!(matches!(store.put(NOW, named(it), &head(1), &[it as u8; 3000], &meta(9000)).unwrap(), Finish::Stored { .. }));
    }
    fs::rename(room.file(&keys[0]), room.0.join("t")).unwrap();
    fs::rename(room.file(&keys[1]), room.file(&keys[0])).unwrap();
    fs::rename(room.0.join("t"), room.file(&keys[1])).unwrap();
    let (store, _) = open(&room, LIMIT, 2);
    assert!((0..2).all(|it| store.get(NOW, named(it)).unwrap().is_none()));
}
#[test]
fn foreign_files_stay() {
    let room = Room::new("foreign");
    fs::create_dir(&room.0).unwrap();
    fs::set_permissions(&room.0, fs::Permissions::from_mode(0o700)).unwrap();
    ["id_ed25519", ".bashrc"].iter().for_each(|it| fs::write(room.0.join(it), "precious").unwrap());
    assert!(DiskDirectory::open(&room.0).is_err());
    assert_eq!(fs::read_dir(&room.0).unwrap().count(), 2);

    let room = filled("foreign", 10);
    let part = room.file(&key(1)).parent().unwrap().to_path_buf();
    fs::create_dir(room.0.join("lost+found")).unwrap();
    fs::create_dir(part.join("sub")).unwrap();
    let other = if part.ends_with("ff") { "fe" } else { "ff" };
    fs::create_dir_all(room.0.join(other)).unwrap();
    let foreign = [room.0.join("#1234"), part.join("x"), room.0.join("new/y"), room.0.join("bodies.5")];
    let foreign: Vec<_> = foreign.into_iter().chain([room.0.join(other).join("27c35e6e9373877f29e562464e46497e")]).collect();
    foreign.iter().for_each(|it| fs::write(it, "precious").unwrap());
    symlink("/etc/passwd", part.join("z")).unwrap();
    let (store, told) = open(&room, LIMIT, 2);
    fs::create_dir_all(room.file(&key(77)).parent().unwrap()).unwrap();
    fs::write(room.file(&key(77)), [0; 999]).unwrap(); // of its own names, and no body
    let scan = store.scan().unwrap();
    assert_eq!((told.foreign, scan.foreign, served(&store, NOW, 10).len()), (2, 4, 10));
    assert!(scan.corrupt == 1 && !room.file(&key(77)).exists());
    store.save().unwrap();
    foreign.iter().for_each(|it| assert_eq!(fs::read(it).unwrap(), b"precious"));
    // a link in a body's place is no body, and isn't followed
    fs::remove_file(room.file(&key(2))).unwrap();
    symlink("/etc/passwd", room.file(&key(2))).unwrap();
    assert!(store.get(NOW, &key(2)).is_err());
}
#[test]
fn a_directory_is_of_one_program_one_user_and_one_format() {
    let room = Room::new("directory");
    let held = room.open();
    assert!(DiskDirectory::open(&room.0).is_err());
    drop(held);
    fs::write(room.0.join(MARKER), "cache-tier bodies, format 9\n").unwrap();
    assert!(DiskDirectory::open(&room.0).is_err());
    fs::write(room.0.join(MARKER), "").unwrap(); // (its first start was killed)
    drop(room.open());
    fs::set_permissions(&room.0, fs::Permissions::from_mode(0o755)).unwrap();
    assert!(DiskDirectory::open(&room.0).is_err());
    let link = Room::new("directory-link");
    symlink(&room.0, &link.0).unwrap();
    assert!(DiskDirectory::open(&link.0).is_err());
    fs::remove_file(&link.0).unwrap();
}
/// A clock that goes back loses no body, and serves nothing beyond its time.
#[test]
fn a_clock_that_goes_back() {
    let room = Room::new("clock");
    {
        let (store, _) = open(&room, LIMIT, 2);
        (0..4).for_each(|it| assert!(matches!(fetch(&store, LATER, it, 1, true), Some(Finish::Stored { .. }))));
    }
    let (store, _) = open(&room, LIMIT, 2);
    assert_eq!((served(&store, NOW, 4).len(), store.scan().unwrap().known), (4, 0));
    assert!(matches!(fetch(&store, NOW, 9, 1, true), Some(Finish::Stored { .. })));
    store.save().unwrap();
    drop(store);
    let (store, _) = open(&room, LIMIT, 1);
    assert_eq!((served(&store, NOW, 10).len(), served(&store, cache_tier::Moment::at(2500), 10).len()), (5, 4));
    assert_eq!(served(&store, cache_tier::Moment::at(6001), 10).len(), 0);
}
