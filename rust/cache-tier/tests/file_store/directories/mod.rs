//! Directories for tests: one with something at its Nth call, and rooms on the disk.
#![allow(dead_code)] // each test uses some of it
pub mod forgetful;
pub mod held;

use cache_tier::file_store::{Directory, DiskDirectory};
use cache_tier::Digest;
use std::fs::{self, File};
use std::io;
use std::path::{Path, PathBuf};
use std::sync::atomic::{AtomicU64, Ordering};

/// What happens at a call.
#[derive(Clone, Copy, Debug, PartialEq, Eq)]
pub enum At {
    /// It and all later calls fail, a write in its middle: so the directory is as after a kill.
    Ends,
    /// The call fails with that number.
    Fails(i32),
    /// It and all later calls that write fail with that number.
    Stays(i32),
}
/// A directory with something at its call of that number (from 1 on; 0: at none). `boot`, where not 0, is said in the place of the machine's.
pub struct Failing {
    pub inner: DiskDirectory,
    pub at: AtomicU64,
    pub how: At,
    pub calls: AtomicU64,
    /// Bytes that were read, and files and directories that were synced.
    pub read: AtomicU64,
    pub synced: AtomicU64,
    pub boot: u64,
}
impl Failing {
    pub fn new(inner: DiskDirectory, at: u64, how: At) -> Failing {
        Failing { inner, at: AtomicU64::new(at), how, calls: AtomicU64::new(0), read: AtomicU64::new(0), synced: AtomicU64::new(0), boot: 0 }
    }
    pub fn calls(&self) -> u64 {
        self.calls.load(Ordering::SeqCst)
    }
    pub fn read(&self) -> u64 {
        self.read.load(Ordering::SeqCst)
    }
    pub fn synced(&self) -> u64 {
        self.synced.load(Ordering::SeqCst)
    }
    /// From the nth call on from now.
    pub fn at_call_from_now(&self, calls: u64) {
        self.at.store(self.calls() + calls, Ordering::SeqCst);
    }
    pub fn at_none(&self) {
        self.at.store(0, Ordering::SeqCst);
    }
    fn call<R>(&self, writes: bool, before: impl FnOnce(), run: impl FnOnce() -> io::Result<R>) -> io::Result<R> {
        let (call, at) = (self.calls.fetch_add(1, Ordering::SeqCst) + 1, self.at.load(Ordering::SeqCst));
        let fails = |number: i32| Err(io::Error::from_raw_os_error(number));
        if at == 0 || call < at {
            return run();
        }
        match self.how {
            At::Ends => {
                if call == at {
                    before();
                }
                fails(5)
            }
            At::Fails(number) if call == at => {
                before();
                fails(number)
            }
            At::Stays(number) if writes => fails(number),
            _ => run(),
        }
    }
}
impl Directory for Failing {
    fn create(&self, name: &str) -> io::Result<File> {
        self.call(true, || {}, || self.inner.create(name))
    }
    fn open(&self, name: &str, write: bool) -> io::Result<File> {
        self.call(write, || {}, || self.inner.open(name, write))
    }
    fn read_at(&self, file: &File, at: u64, buf: &mut [u8]) -> io::Result<usize> {
        let count = self.call(false, || {}, || self.inner.read_at(file, at, buf))?;
        self.read.fetch_add(count as u64, Ordering::SeqCst);
        Ok(count)
    }
    fn write_at(&self, file: &File, at: u64, bytes: &[u8]) -> io::Result<()> {
        let half = || self.inner.write_at(file, at, &bytes[..bytes.len() / 2]).unwrap_or(());
        self.call(true, half, || self.inner.write_at(file, at, bytes))
    }
    fn len(&self, file: &File) -> io::Result<u64> {
        self.call(false, || {}, || self.inner.len(file))
    }
    fn len_of(&self, name: &str) -> io::Result<Option<u64>> {
        self.call(false, || {}, || self.inner.len_of(name))
    }
    fn reserve(&self, file: &File, length: u64) -> io::Result<()> {
        self.call(true, || {}, || self.inner.reserve(file, length))
    }
    fn rename(&self, from: &str, to: &str) -> io::Result<()> {
        self.call(true, || {}, || self.inner.rename(from, to))
    }
    fn remove(&self, name: &str) -> io::Result<bool> {
        self.call(true, || {}, || self.inner.remove(name))
    }
    fn list(&self, directory: &str) -> io::Result<Vec<String>> {
        self.call(false, || {}, || self.inner.list(directory))
    }
    fn create_directory(&self, name: &str) -> io::Result<()> {
        self.call(true, || {}, || self.inner.create_directory(name))
    }
    fn sync(&self, file: &File) -> io::Result<()> {
        self.synced.fetch_add(1, Ordering::SeqCst);
        self.call(true, || {}, || self.inner.sync(file))
    }
    fn sync_directory(&self, name: &str) -> io::Result<()> {
        self.synced.fetch_add(1, Ordering::SeqCst);
        self.call(true, || {}, || self.inner.sync_directory(name))
    }
    fn sync_all(&self) -> io::Result<()> {
        self.synced.fetch_add(1, Ordering::SeqCst);
        self.call(true, || {}, || Ok(())) // (a kill loses nothing that wasn't synced)
    }
    fn boot(&self) -> u64 {
        if self.boot == 0 {
            self.inner.boot()
        } else {
            self.boot
        }
    }
}

static NEXT: AtomicU64 = AtomicU64::new(0);
/// A directory's path, which is removed with it. In memory, where the machine has that, unless FILE_STORE_TESTS names a place.
pub struct Room(pub PathBuf);
impl Room {
    pub fn new(name: &str) -> Room {
        let shm = Path::new("/dev/shm");
        let base = std::env::var_os("FILE_STORE_TESTS").map_or(if shm.is_dir() { shm.into() } else { std::env::temp_dir() }, PathBuf::from);
        let it = base.join(format!("file-store-{}-{}-{}", std::process::id(), name, NEXT.fetch_add(1, Ordering::SeqCst)));
        let _of_another_run = fs::remove_dir_all(&it);
        Room(it)
    }
    pub fn file(&self, key: &Digest) -> PathBuf {
        self.0.join(format!("{:02x}/{}", key.0[0], key))
    }
    /// The files of bodies and what is unfinished.
    pub fn files(&self) -> Vec<PathBuf> {
        let mut all = Vec::new();
        for it in fs::read_dir(&self.0).unwrap().map(|it| it.unwrap()).filter(|it| it.file_type().unwrap().is_dir()) {
            all.extend(fs::read_dir(it.path()).unwrap().map(|it| it.unwrap().path()));
        }
        all
    }
    pub fn file_bytes(&self) -> u64 {
        self.files().iter().map(|it| cache_tier::file_store::file_bytes(fs::metadata(it).unwrap().len())).sum()
    }
    pub fn copied(&self, name: &str) -> Room {
        let other = Room::new(name);
        copy(&self.0, &other.0);
        other
    }
    pub fn open(&self) -> DiskDirectory {
        DiskDirectory::open(&self.0).unwrap()
    }
}
impl Drop for Room {
    fn drop(&mut self) {
        let _tidy = fs::remove_dir_all(&self.0);
    }
}
pub fn copy(from: &Path, to: &Path) {
    fs::create_dir(to).unwrap();
    fs::set_permissions(to, fs::metadata(from).unwrap().permissions()).unwrap();
    for it in fs::read_dir(from).unwrap().map(|it| it.unwrap()) {
        if it.file_type().unwrap().is_dir() {
            copy(&it.path(), &to.join(it.file_name()));
        } else {
            fs::copy(it.path(), to.join(it.file_name())).unwrap();
        }
    }
}
