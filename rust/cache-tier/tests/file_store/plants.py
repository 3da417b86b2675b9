#!/usr/bin/env python3
"""Wrong forms of the file store, each planted in a copy of the crate; the tests named with it have to find it.

    CACHE_TIER_LIB=LIB python3 tests/file_store/plants.py [NUMBER ..]
    CACHE_TIER_LIB=LIB python3 tests/file_store/plants.py --minutes N     by turns: some of them, from another one on each day

A file's change without the lock of its name can't be planted: `KeyLock`, which has these calls, is given by `with_key` alone.
"""
import os
import shutil
import subprocess
import sys
import tempfile
import time

CRATE = os.path.abspath(os.path.join(os.path.dirname(__file__), "..", ".."))
# What is wrong, the file, the text and what is in its place, tests.
PLANTS = [
    ("a hit takes an I/O error for no file", "body_file", "        let file = match self.directory.open(&name, false) {\n            Err(why) if why.kind() == ErrorKind::NotFound => return Ok(None),", "        let file = match self.directory.open(&name, false) {\n            Err(_) => return Ok(None),", "h1 a_disk_that"),
    ("contents take an I/O error for no file", "body_file", "Err(why) if why.kind() == ErrorKind::NotFound => return Ok(Contents::Missing),", "Err(_) => return Ok(Contents::Missing),", "each_call_fails a_scan_that"),
    ("a hit compares no id", "body_file", "it.id == *id && it.size() == length", "it.size() == length", "damage pairs"),
    ("a hit compares no length", "body_file", "it.id == *id && it.size() == length", "it.id == *id", "m12 damage"),
    ("contents compare no key", "body_file", "Some(it) if it.key == *key && is_sound(&it) => it,", "Some(it) if is_sound(&it) => it,", "damage"),
    ("contents compare no length", "body_file", "if front.size() != self.noted(\"stat\", &name, self.directory.len(&file))? {", "if false {", "damage power"),
    ("nothing is doubtful", "folder", "front.boot != self.boot && ", "false && ", "power"),
    ("all of a start is synced", "folder", "*boot == written.0 && *span >= written.1", "*boot == written.0", "power"),
    ("a torn body counts as compared", "revive", "if !self.folder.is_whole(&file.file, &file.front)? {", "if false {", "power"),
    ("a compared file isn't marked", "revive", "lock.mark_compared(&file.front);", "", "power"),
    ("a purge swallows a failed unlink", "key_lock", ".map(|_| true).map_err(|_| why)", ".map(|_| true).or(Ok(true))", "errors m4"),
    ("a purge whose unlink fails wipes nothing", "key_lock", "        directory.write_at(&file, 0, &[0; FRONT])?;\n", "", "m4 errors"),
    ("what couldn't be removed is revived", "folder", "held(&self.cold).may_have(key) && !held(&self.unremoved).contains(key)", "held(&self.cold).may_have(key)", "a_disk_that"),
    ("a renewal is written into the slot that counts", "key_lock", "it.front.slot_start(1 - it.slot_place)", "it.front.slot_start(it.slot_place)", "power kills renewals each_call"),
    ("a renewal keeps its turn", "key_lock", "(it.slot.turn + 1, (folder.boot, self.span), &it.slot)", "(it.slot.turn, (folder.boot, self.span), &it.slot)", "renewals waits"),
    ("a renewal isn't written", "key_lock", "folder.directory.write_at(&it.file, it.front.slot_start(1 - it.slot_place), &bytes)?;", "", "renewals waits"),
    ("an open leaves unfinished files", "folder", "if key_of_name(&name).is_some() && directory.remove", "if false && directory.remove", "kills limits"),
    ("a scan knows no new bodies", "scan", "to.new.push((it.slot.meta.updated, Row { key, partition, units }));", "drop((partition, units));", "kills body_folder"),
    ("a scan leaves what is no body", "scan", "Ok(Contents::Corrupt) if !held(&self.cold).is_touched(key) => {", "Ok(Contents::Corrupt) if false && !held(&self.cold).is_touched(key) => {", "damage"),
    ("an unread directory has nothing", "cold", " || self.unread.contains(&key.0[0])", "", "a_scan_that"),
    ("the youngest row goes first", "rows", "self.nodes.get(self.oldest as usize).map(|it| it.row)", "self.nodes.get(self.newest as usize).map(|it| it.row)", "order"),
    ("an evicted body is the oldest", "cold", "        self.rows.push_newest(row);", "        self.rows.remove(&row.key);\n        self.rows.push_oldest(row);", "order cold"),
    ("touched keys aren't counted", "cold", "            sum += takes; // as it was", "            // as it was", "kills body_folder pairs"),
    ("a save turns the order round", "save", "a.0.total_cmp(&b.0)", "b.0.total_cmp(&a.0)", "order"),
    ("a save forgets the cold", "save", "cold.iter().try_for_each(|it| rows.add(it))?;", "", "order calls"),
    ("a save in place", "save", "self.directory.rename(ORDER_NEXT, ORDER)?;", "self.directory.remove(ORDER)?;\n        self.directory.rename(ORDER_NEXT, ORDER)?;", "calls limits"),
    ("a failed save leaves its file", "save", "if saved.is_err() {", "if false {", "errors"),
    ("a revival isn't counted", "revive", "lock.mark_hot(file);", "", "kills body_folder pairs order"),
    ("a revival asks nobody", "revive", "if self.index.peek(&key.key, key.partition())?.is_some() {\n            return Ok(Revival::Hot);", "if false {\n            return Ok(Revival::Hot);", "renewals"),
    ("another first key's body is revived", "revive", "file.front.first != key.first || ", "", "variants"),
    ("a failed rename leaves the tier", "landing", "Err(why) => Landing::NotRenamed(evicted, why, self.remove_replaced(lock, key, before)),", "Err(why) => Landing::NotRenamed(evicted, why, Ok(())),", "a_rename"),
    ("nobody is trimmed", "evict", "while self.is_over_budget() && failures < FAILURES {", "while false && failures < FAILURES {", "order limits"),
    ("a trim that fails loses the row", "evict", "        held(&self.cold).add(*row);\n        false", "        held(&self.cold).forget(&row.key, 0);\n        false", "a_trim_that"),
    ("evictions ask nobody", "evict", "if !matches!(index.peek(key, partition), Ok(None)) {", "if false {", "pairs"),
    ("what is evicted goes at once", "evict", "if self.is_over_budget() && held(&self.cold).len() == 0 {", "if true {", "order"),
    ("what is evicted is forgotten", "evict", "                    lock.mark_cold(partition);", "                    let _ = lock.is_cold();", "order limits"),
    ("no locks of names", "folder", "held(&self.names[key.slice(self.names.len())])", "held(Box::leak(Box::new(Mutex::new(()))))", "pairs"),
    ("a stat is spared", "key_lock", "None => folder.noted(\"stat\", &name, folder.directory.len_of(&name))?.map(file_bytes),", "None => None,", "pairs kills"),
    ("too large is not asked", "store", "let fits = length <=", "let fits = true || length <=", "limits m6"),
    ("a reading compares nothing", "stored_body", "self.check(block)? == Some(xxh64(block, buf))", "self.check(block)?.is_some()", "damage"),
    ("a corrupt reading keeps the body", "stored_body", "self.of.found_corrupt(&self.front);", "", "damage"),
    ("the checks have no check", "stored_body", "count == all.len() && xxh64(0, &all) == self.front.checks", "count == all.len()", "damage"),
    ("a front has no check", "format/front", "|| xxh64(0, &it[..FRONT - 8]) != u64_at(it, FRONT - 8)", "", "format damage"),
    ("a full directory without a marker is taken", "disk", "return Err(refused(\"the directory isn't empty, and has no marker of bodies\"));", "", "damage"),
    ("any format is taken", "disk", "_ => return Err(refused(\"the directory is of another format\")),", "_ => {}", "damage"),
    ("links are followed", "disk", "if write { WRITE } else { 0 } | NO_FOLLOW | NO_WAIT | OWN", "if write { WRITE } else { 0 } | NO_WAIT | OWN", "damage"),
    ("the announced length is passed over", "fetch", "let wrong = it.flight.announced.filter(|it| *it != came);", "let wrong: Option<u64> = None.filter(|it| *it != came);", "limits"),
    ("a drop wakes nobody", "fetch", "if self.request.take().is_some() {\n            self.of.waits.wake(&self.key);", "if self.request.take().is_some() {", "waits"),
    ("a begin wakes nobody", "fetch", "        of.waits.wake(&self.key);\n        Ok(Begin::Storing)", "        Ok(Begin::Storing)", "waits m16"),
    ("who follows is cut off where the disk is full", "fetch", "            it.flight.add_unfiled(bytes);\n            self.end_request();", "            it.flight.end(false);\n            self.end_request();", "limits m7"),
    ("a body of unknown length weighs nothing", "fetch", "        if weigh {", "        if false && weigh {", "limits"),
    ("after a full disk others follow still", "fetch", "            self.end_request();\n            self.end_storing();\n            return false;", "            return false;", "limits"),
    ("a flight ends before it lands", "fetch", "        let mut request = self.request.take();\n", "        it.flight.end(true);\n        held(&self.of.flights).remove(&it.flight.id);\n        let mut request = self.request.take();\n", "pairs"),
    ("a refused finish is renamed", "landing", "Err(why) => Landing::Refused(why),", "Err(why) => {\n                let _ = lock.store(sealed, None);\n                Landing::Refused(why)\n            }", "waits pairs"),
    ("a damaged row loses those behind it", "scan", "bytes[..count].chunks(ROW).for_each(|it| to.add_row(Row::of(it)));", "bytes[..count].chunks(ROW).map_while(Row::of).for_each(|it| to.add_row(Some(it)));", "damage"),
    ("a part that is a link is taken", "disk", "return Err(refused(\"a part of the directory is a link\"));", "", "attacks"),
    ("the marker alone is locked", "disk", "if matches!(ffi::locks(&directory), Ok(false)) {", "if false {", "attacks"),
    ("a torn marker is of another format", "disk", "it if is_torn(it) => marker", "[] => marker", "attacks"),
    ("an unknown start is always the same", "disk", "_ => RandomState::new().build_hasher().finish(),", "_ => 0,", "disk"),
    ("a renewal that doesn't fit leaves the older head as it was", "key_lock", "bytes = Slot::bytes(turn, written, &good_for_both(&slot.meta, meta), &slot.head, id);", "return Ok(());", "attacks"),
    ("a renewal that doesn't fit takes nothing back", "key_lock", "old.fresh_until.min(new.fresh_until)", "old.fresh_until", "attacks"),
    ("a renewal that fails takes nothing back", "fetch", "if written.is_ok() || !takes_back(old, &meta) {", "if true {", "attacks"),
    ("a purge syncs what it removed itself alone", "evict", "lock.sync_name()?; // (also", "if file {\n                lock.sync_name()?;\n            } // (also", "attacks"),
    ("what is wiped isn't synced", "key_lock", "        self.sync_file(&file)\n", "        Ok(())\n", "attacks"),
    ("a second renewal leaves no slot that is synced", "key_lock", "            if owed && folder", "            if false && owed && folder", "calls"),
    ("a renewal isn't synced", "key_lock", "            self.sync_file(&it.file)\n", "            Ok(())\n", "calls"),
    ("a missing file counts still", "key_lock", "if counted.is_some() || self.is_cold() {", "if self.is_cold() {", "attacks"),
    ("what is unlinked counts as it is now", "key_lock", "if let Some(bytes) = counted {", "if let Some(bytes) = counted.filter(|_| false) {", "attacks"),
    ("the directory of what is unfinished isn't made again", "new_body", "self.directory.create_directory(UNFINISHED).and_then(|_| self.directory.create(&name))", "self.directory.create(&name)", "attacks"),
    ("a waker goes under the lock of those who wait", "waits", "        let _old = self.table(key).entry(*key).or_default().insert(number, waker);", "        self.table(key).entry(*key).or_default().insert(number, waker);", "attacks"),
    ("a waker goes under the lock of those who follow", "flight", "        let _old = waker.and_then(|it| now.wakers.insert(self.number, it.clone()));\n", "        drop(waker.and_then(|it| now.wakers.insert(self.number, it.clone())));\n", "attacks"),
    ("what is given up before the scan is noted twice", "cold", "            self.touched.remove(&row.key);\n", "", "cold"),
    ("a walk ends where a row goes", "rows", "            self.cursor = older;\n", "            self.cursor = NONE;\n", "rows"),
    ("a row that goes hides those behind it", "rows", "                self.table[hole] = self.table[place];\n                hole = place;", "                break;", "rows"),
    ("a no-cache has the permit", "lookup", "self.index.open(key, now.is_some())?", "self.index.open(key, true)?", "waits f3"),
]


def tried(folder, plant):
    """What found a plant; None where nothing did."""
    _, name, old, new, tests = plant
    path = os.path.join(folder, "src", "file_store", name + ".rs")
    with open(path, encoding="utf-8") as file:
        text = file.read()
    if text.count(old) != 1:
        return f"NOT PLACED ({text.count(old)} places)"
    with open(path, "w", encoding="utf-8") as file:
        file.write(text.replace(old, new))
    words = ["cargo", "test", "-q", "--offline", "--features", "file_store", "--lib", "--test", "file_store"]
    try:
        ran = subprocess.run(words + ["--"] + tests.split(), cwd=folder, stdin=subprocess.DEVNULL, capture_output=True, text=True, timeout=900)
    except subprocess.TimeoutExpired:
        return "a hang"
    finally:
        with open(path, "w", encoding="utf-8") as file:
            file.write(text)
    if "error[" in ran.stderr or "could not compile" in ran.stderr:
        return "DOES NOT BUILD: " + ran.stderr[-400:]
    found = [line.split()[0] for line in ran.stdout.splitlines() if line.startswith("    ") and "::" in line and " " not in line.strip()]
    return " ".join(dict.fromkeys(it for it in found if it)) or ("a crash" if ran.returncode else None)


def main():
    minutes = float(sys.argv[2]) if sys.argv[1:2] == ["--minutes"] else None
    chosen = list(range(len(PLANTS))) if minutes else [int(it) for it in sys.argv[1:]] or list(range(len(PLANTS)))
    if minutes:
        first = int(time.time() // 86400) * 11 % len(PLANTS)
        chosen = chosen[first:] + chosen[:first]
    tries, missed, until = 0, 0, time.monotonic() + 60 * (minutes or 1e9)
    with tempfile.TemporaryDirectory() as room:
        folder = os.path.join(room, "crate")
        shutil.copytree(CRATE, folder, ignore=shutil.ignore_patterns("target"))
        os.environ.setdefault("CARGO_TARGET_DIR", os.path.join(room, "target"))
        for at in chosen:
            if tries and time.monotonic() >= until:
                break
            found = tried(folder, PLANTS[at])
            tries += 1
            missed += found is None or found.startswith(("NOT PLACED", "DOES NOT BUILD"))
            print(at, PLANTS[at][0], ":", found or "MISSED", flush=True)
    print(f"{tries - missed} of {tries} were found")
    return 1 if missed else 0


if __name__ == "__main__":
    sys.exit(main())
