//! A directory that holds one thread before its Nth call, until it is let go.
use cache_tier::file_store::{Directory, DiskDirectory};
use std::fs::File;
use std::io;
use std::sync::{Arc, Condvar, Mutex};
use std::thread::{self, ThreadId};
use std::time::Duration;

#[derive(Default)]
struct State {
    thread: Option<ThreadId>,
    calls: u64,
    at: u64,
    stands: bool,
    open: bool,
}
#[derive(Clone, Default)]
pub struct Gate(Arc<(Mutex<State>, Condvar)>);
impl Gate {
    /// Holds this thread before its call of that number.
    pub fn hold_at(&self, at: u64) {
        let mut now = self.0 .0.lock().unwrap();
        now.thread = Some(thread::current().id());
        now.at = at;
    }
    /// Whether the thread stands there; else it has ended.
    pub fn stands_or<R>(&self, of: &thread::JoinHandle<R>) -> bool {
        loop {
            let now = self.0 .0.lock().unwrap();
            let stands = self.0 .1.wait_timeout_while(now, Duration::from_micros(300), |it| !it.stands).unwrap().0.stands;
            if stands || of.is_finished() {
                return stands;
            }
        }
    }
    pub fn let_go(&self) {
        self.0 .0.lock().unwrap().open = true;
        self.0 .1.notify_all();
    }
    fn pass(&self) {
        let mut now = self.0 .0.lock().unwrap();
        if now.thread == Some(thread::current().id()) {
            now.calls += 1;
            if now.calls == now.at {
                now.stands = true;
                self.0 .1.notify_all();
                while !now.open {
                    now = self.0 .1.wait(now).unwrap();
                }
            }
        }
    }
}
pub struct Held {
    pub inner: DiskDirectory,
    pub gate: Gate,
}
impl Held {
    fn pass(&self) -> &DiskDirectory {
        self.gate.pass();
        &self.inner
    }
}
impl Directory for Held {
    fn create(&self, name: &str) -> io::Result<File> {
        self.pass().create(name)
    }
    fn open(&self, name: &str, write: bool) -> io::Result<File> {
        self.pass().open(name, write)
    }
    fn read_at(&self, file: &File, at: u64, buf: &mut [u8]) -> io::Result<usize> {
        self.pass().read_at(file, at, buf)
    }
    fn write_at(&self, file: &File, at: u64, bytes: &[u8]) -> io::Result<()> {
        self.pass().write_at(file, at, bytes)
    }
    fn len(&self, file: &File) -> io::Result<u64> {
        self.pass().len(file)
    }
    fn len_of(&self, name: &str) -> io::Result<Option<u64>> {
        self.pass().len_of(name)
    }
    fn reserve(&self, file: &File, length: u64) -> io::Result<()> {
        self.pass().reserve(file, length)
    }
    fn rename(&self, from: &str, to: &str) -> io::Result<()> {
        self.pass().rename(from, to)
    }
    fn remove(&self, name: &str) -> io::Result<bool> {
        self.pass().remove(name)
    }
    fn list(&self, directory: &str) -> io::Result<Vec<String>> {
        self.pass().list(directory)
    }
    fn create_directory(&self, name: &str) -> io::Result<()> {
        self.pass().create_directory(name)
    }
    fn sync(&self, file: &File) -> io::Result<()> {
        self.pass().sync(file)
    }
    fn sync_directory(&self, name: &str) -> io::Result<()> {
        self.pass().sync_directory(name)
    }
    fn sync_all(&self) -> io::Result<()> {
        self.pass();
        Ok(())
    }
    fn boot(&self) -> u64 {
        self.inner.boot()
    }
}
