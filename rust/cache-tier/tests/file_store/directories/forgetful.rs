//! A directory that forgets what wasn't synced, as a loss of power does.
use super::copy;
use cache_tier::file_store::{Directory, DiskDirectory};
use std::collections::{BTreeSet, HashMap};
use std::fs::{self, File};
use std::io;
use std::os::unix::fs::{FileExt, MetadataExt};
use std::path::{Path, PathBuf};
use std::sync::Mutex;

/// What is on the disk itself lies in a second tree: all of the first at a `sync_all`, and a directory's names at a `sync_directory`.
pub struct Forgetful {
    inner: DiskDirectory,
    path: PathBuf,
    durable: PathBuf,
    /// What of a file was written since it was last synced, by inode.
    unsynced: Mutex<HashMap<u64, Unsynced>>,
    pub boot: u64,
}
#[derive(Clone)]
enum Unsynced {
    /// It is new.
    All,
    Ranges(Vec<(u64, u64)>),
}
fn inode(file: &File) -> u64 {
    file.metadata().unwrap().ino()
}
impl Forgetful {
    pub fn open(path: &Path, durable: &Path, boot: u64) -> Forgetful {
        let inner = DiskDirectory::open(path).unwrap();
        let _of_an_earlier_run = fs::remove_dir_all(durable);
        copy(path, durable);
        Forgetful { inner, path: path.to_path_buf(), durable: durable.to_path_buf(), unsynced: Mutex::default(), boot }
    }
    fn of(&self, path: &Path) -> Option<Unsynced> {
        let about = fs::metadata(path).ok()?;
        self.unsynced.lock().unwrap().get(&about.ino()).cloned()
    }
    /// Leaves what a loss of power may: of each name that has changed since it was synced the old file, or the new one, whole or torn.
    pub fn lose_power(&self, mut random: impl FnMut(u64) -> u64) {
        let mut names = BTreeSet::new();
        for tree in [&self.path, &self.durable] {
            for it in fs::read_dir(tree).unwrap().map(|it| it.unwrap()) {
                let name = PathBuf::from(it.file_name());
                if it.file_type().unwrap().is_dir() {
                    names.extend(fs::read_dir(it.path()).unwrap().map(|it| name.join(it.unwrap().file_name())));
                } else {
                    names.insert(name);
                }
            }
        }
        for name in names.iter().filter(|it| *it != Path::new("cache-tier-bodies")) {
            let (now, old) = (self.path.join(name), self.durable.join(name));
            let unsynced = self.of(&now);
            if fs::read(&now).ok() == fs::read(&old).ok() && unsynced.is_none() {
                continue;
            }
            match random(4) {
                0 if old.exists() => {
                    fs::copy(&old, &now).unwrap();
                }
                0 => drop(fs::remove_file(&now)),
                1 if !now.exists() => drop(fs::copy(&old, &now)), // a removal is forgotten
                2 | 3 => tear(&now, unsynced, &mut random),
                _ => {}
            }
        }
    }
}
fn tear(path: &Path, unsynced: Option<Unsynced>, random: &mut impl FnMut(u64) -> u64) {
    let unsynced = match unsynced {
        Some(it) => it,
        None => return,
    };
    let file = fs::OpenOptions::new().write(true).open(path).unwrap();
    let length = file.metadata().unwrap().len();
    let zeros = |from: u64, to: u64| file.write_all_at(&vec![0; (to - from) as usize], from).unwrap();
    match unsynced {
        Unsynced::All if random(2) == 0 => file.set_len(random(length + 1)).unwrap(),
        Unsynced::All => zeros(random(length + 1), length),
        Unsynced::Ranges(all) => all.iter().for_each(|(from, to)| zeros(from + random(to - from + 1), *to)),
    }
}
impl Directory for Forgetful {
    fn create(&self, name: &str) -> io::Result<File> {
        let file = self.inner.create(name)?;
        self.unsynced.lock().unwrap().insert(inode(&file), Unsynced::All);
        Ok(file)
    }
    fn open(&self, name: &str, write: bool) -> io::Result<File> {
        self.inner.open(name, write)
    }
    fn read_at(&self, file: &File, at: u64, buf: &mut [u8]) -> io::Result<usize> {
        self.inner.read_at(file, at, buf)
    }
    fn write_at(&self, file: &File, at: u64, bytes: &[u8]) -> io::Result<()> {
        // (128 bytes of one sector of a file that is whole are written whole or not at all)
        if at != 0 || bytes.len() != 128 {
            if let Unsynced::Ranges(it) = self.unsynced.lock().unwrap().entry(inode(file)).or_insert(Unsynced::Ranges(vec![])) {
                it.push((at, at + bytes.len() as u64));
            }
        }
        self.inner.write_at(file, at, bytes)
    }
    fn len(&self, file: &File) -> io::Result<u64> {
        self.inner.len(file)
    }
    fn len_of(&self, name: &str) -> io::Result<Option<u64>> {
        self.inner.len_of(name)
    }
    fn reserve(&self, file: &File, length: u64) -> io::Result<()> {
        self.inner.reserve(file, length)
    }
    fn rename(&self, from: &str, to: &str) -> io::Result<()> {
        self.inner.rename(from, to)
    }
    fn remove(&self, name: &str) -> io::Result<bool> {
        self.inner.remove(name)
    }
    fn list(&self, directory: &str) -> io::Result<Vec<String>> {
        self.inner.list(directory)
    }
    fn create_directory(&self, name: &str) -> io::Result<()> {
        self.inner.create_directory(name)?;
        let there = self.durable.join(name);
        if there.exists() {
            return Ok(());
        }
        fs::create_dir(there)
    }
    fn sync(&self, file: &File) -> io::Result<()> {
        self.unsynced.lock().unwrap().remove(&inode(file));
        Ok(())
    }
    fn sync_directory(&self, name: &str) -> io::Result<()> {
        let (now, durable) = (self.path.join(name), self.durable.join(name));
        fs::remove_dir_all(&durable)?;
        copy(&now, &durable);
        Ok(())
    }
    fn sync_all(&self) -> io::Result<()> {
        self.unsynced.lock().unwrap().clear();
        fs::remove_dir_all(&self.durable)?;
        copy(&self.path, &self.durable);
        Ok(())
    }
    fn boot(&self) -> u64 {
        self.boot
    }
}
