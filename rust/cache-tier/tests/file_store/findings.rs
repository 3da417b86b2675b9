//! Inputs by which a store of bodies lost what it should keep, served what was purged, or told nothing, each as small as it gets. `Api` is all that they
//! ask of a store. (M9 is `body_folder::m9_a_save_takes_100_entries_a_turn`.)
use crate::directories::Room;
use crate::findings_api::Api;
use std::fs::{self, OpenOptions};
use std::os::unix::fs::{FileExt, PermissionsExt};

fn filled(room: &Room, names: u64) -> Api {
    let api = Api::open(&room.0, 1 << 20).unwrap();
    (0..names).for_each(|it| assert!(api.fill(it, &[it as u8; 900], None)));
    api
}
fn serves(api: &Api, names: u64) -> usize {
    (0..names).filter(|it| api.get(*it) == Ok(Some(vec![*it as u8; 900]))).count()
}
#[test]
fn h1_a_hit_that_cant_open_its_file_keeps_the_body() {
    let room = Room::new("h1");
    let api = filled(&room, 3);
    for name in 0..3 {
        api.fail_next_call();
        assert!(api.get(name) != Ok(Some(vec![name as u8; 900])));
    }
    assert_eq!(serves(&api, 3), 3);
}
#[test]
fn h2_a_directory_of_others_is_not_emptied() {
    let room = Room::new("h2");
    fs::create_dir(&room.0).unwrap();
    fs::set_permissions(&room.0, fs::Permissions::from_mode(0o700)).unwrap();
    for it in ["id_ed25519", "known_hosts", ".bashrc"] {
        fs::write(room.0.join(it), "precious").unwrap();
    }
    let _refused = Api::open(&room.0, 1 << 20).map(|it| it.fill(1, b"x", None));
    for it in ["id_ed25519", "known_hosts", ".bashrc"] {
        assert_eq!(fs::read(room.0.join(it)).unwrap(), b"precious");
    }
}
#[test]
fn m1_a_save_on_a_full_disk_loses_no_body() {
    for call in 1..6 {
        let room = Room::new("m1");
        let api = filled(&room, 5);
        api.fail_call(call);
        let _full = api.save();
        drop(api);
        assert_eq!(serves(&Api::open(&room.0, 1 << 20).unwrap(), 5), 5, "call {}", call);
    }
}
#[test]
fn m2_a_flipped_bit_of_what_a_save_wrote_loses_no_body() {
    let room = Room::new("m2");
    let api = filled(&room, 5);
    api.save().unwrap();
    drop(api);
    for it in fs::read_dir(&room.0).unwrap().map(|it| it.unwrap()) {
        let name = it.file_name().to_string_lossy().into_owned();
        if it.file_type().unwrap().is_file() && (name.starts_with("order") || name.starts_with("bodies.")) {
            let (file, mut byte) = (OpenOptions::new().read(true).write(true).open(it.path()).unwrap(), [0]);
            file.read_exact_at(&mut byte, 40).unwrap();
            file.write_all_at(&[byte[0] ^ 1], 40).unwrap();
        }
    }
    assert_eq!(serves(&Api::open(&room.0, 1 << 20).unwrap(), 5), 5);
}
#[test]
fn m3_small_bodies_that_were_purged_or_replaced_stay_so_after_a_kill() {
    let room = Room::new("m3");
    let api = Api::open(&room.0, 1 << 20).unwrap();
    assert!(api.put(1, b"small") && api.put(2, b"old"));
    api.save().unwrap();
    assert!(api.purge(1).unwrap() && api.put(2, b"new"));
    let killed = room.copied("m3"); // as a kill leaves it
    let api = Api::open(&killed.0, 1 << 20).unwrap();
    assert_eq!(api.get(1), Ok(None));
    assert_ne!(api.get(2), Ok(Some(b"old".to_vec())));
}
#[test]
fn m4_a_purge_whose_unlink_fails_says_so_or_holds() {
    let room = Room::new("m4");
    let api = filled(&room, 1);
    api.save().unwrap();
    api.fail_next_call();
    let purged = api.purge(0).is_ok();
    drop(api);
    assert!(!purged || Api::open(&room.0, 1 << 20).unwrap().get(0) == Ok(None));
}
#[test]
fn m5_a_file_system_of_its_own_can_be_started() {
    let room = Room::new("m5");
    drop(filled(&room, 1));
    for it in ["lost+found", "bodies.5"] {
        fs::create_dir(room.0.join(it)).unwrap();
    }
    assert!(Api::open(&room.0, 1 << 20).is_ok());
}
#[test]
fn m6_an_announced_length_is_never_too_large_to_be_passed() {
    let room = Room::new("m6");
    let api = filled(&room, 3);
    for length in [1 << 40, 1 << 62, u64::MAX - 8192, u64::MAX] {
        assert!(!api.fill(9, b"x", Some(length)), "{}", length);
    }
    assert_eq!(serves(&api, 3), 3);
}
#[test]
fn m7_a_full_disk_cuts_no_answer_of_who_follows() {
    let room = Room::new("m7");
    let api = Api::open(&room.0, 1 << 20).unwrap();
    assert_eq!(api.followed_on_a_full_disk(&[b"hello", b"world", b"again"]), (b"helloworldagain".to_vec(), true));
}
#[test]
fn m8_a_disk_error_is_told() {
    let room = Room::new("m8");
    let api = filled(&room, 1);
    api.fail_next_call();
    assert!(!api.fill(5, b"x", None));
    let told = api.last_error().unwrap();
    assert!(told.contains("os error 28"), "{}", told);
}
#[test]
fn m12_a_file_that_was_cut_meanwhile_is_no_hit() {
    let room = Room::new("m12");
    let api = filled(&room, 1);
    let file = api.file(&room.0, 0);
    OpenOptions::new().write(true).open(&file).unwrap().set_len(500).unwrap();
    assert_eq!(api.get(0), Ok(None));
}
#[test]
fn m16_who_waits_is_woken() {
    let room = Room::new("m16");
    assert!(Api::open(&room.0, 1 << 20).unwrap().wakes());
}
#[test]
fn f2_who_follows_has_head_and_length() {
    let room = Room::new("f2");
    assert_eq!(Api::open(&room.0, 1 << 20).unwrap().head_of_a_follower(), Some((200, Some(15))));
}
#[test]
fn f3_a_no_cache_that_hangs_holds_nobody_for_ever() {
    let room = Room::new("f3");
    let api = filled(&room, 1);
    assert!(api.goes_on_beside_a_no_cache(0));
    assert_eq!(api.get(0), Ok(Some(vec![0; 900]))); // it was fresh all the time
}
