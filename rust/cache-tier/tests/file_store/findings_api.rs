//! What the findings ask of a store.
use crate::common::{head, key, meta};
use crate::directories::{At, Failing};
use cache_tier::file_store::*;
use cache_tier::{Moment, Options};
use std::io;
use std::path::{Path, PathBuf};
use std::sync::atomic::{AtomicU64, Ordering};
use std::sync::Arc;
use std::task::Wake;

const NOW: Moment = Moment::at(1000);
pub struct Api(FileStore<Failing>);
struct Woken(AtomicU64);
impl Wake for Woken {
    fn wake(self: Arc<Self>) {
        self.0.fetch_add(1, Ordering::SeqCst);
    }
}
impl Api {
    pub fn open(path: &Path, limit: u64) -> io::Result<Api> {
        let mut options = StoreOptions::default();
        options.max_inline = 100;
        let directory = Failing::new(DiskDirectory::open(path)?, 0, At::Fails(28));
        Ok(Api(FileStore::open(directory, &Options::new(limit, 2), 1, &options)?.0))
    }
    /// The nth call of the directory from now fails.
    pub fn fail_call(&self, call: u64) {
        self.0.directory().at_call_from_now(call);
    }
    pub fn fail_next_call(&self) {
        self.fail_call(1);
    }
    fn fetch(&self, name: u64) -> Fetch<Failing> {
        match self.0.lookup(NOW, &key(name)).unwrap() {
            Lookup::Miss(it) => it,
            it => panic!("{:?}", it),
        }
    }
    /// Whether a fetched body was stored.
    pub fn fill(&self, name: u64, bytes: &[u8], length: Option<u64>) -> bool {
        let mut fetch = match self.0.lookup(NOW, &key(name)) {
            Ok(Lookup::Miss(it)) => it,
            _ => return false, // (an error of the disk, which is told)
        };
        let begun = fetch.begin(NOW, &head(1), &meta(2000), length).unwrap();
        matches!(begun, Begin::Storing) && fetch.write(bytes) && matches!(fetch.finish(NOW).unwrap(), Finish::Stored { .. })
    }
    pub fn put(&self, name: u64, bytes: &[u8]) -> bool {
        matches!(self.0.put(NOW, &key(name), &head(1), bytes, &meta(2000)).unwrap(), Finish::Stored { .. })
    }
    /// A hit's bytes. An error: what the disk said.
    pub fn get(&self, name: u64) -> Result<Option<Vec<u8>>, String> {
        let hit = self.0.get(NOW, &key(name)).map_err(|it| it.to_string())?;
        hit.map(|it| it.read_to_vec()).transpose().map_err(|it| it.to_string())
    }
    pub fn purge(&self, name: u64) -> Result<bool, String> {
        self.0.purge(&key(name)).map_err(|it| it.to_string())
    }
    pub fn save(&self) -> Result<(), String> {
        self.0.save().map(|_| ()).map_err(|it| it.to_string())
    }
    pub fn file(&self, path: &Path, name: u64) -> PathBuf {
        path.join(format!("{:02x}/{}", key(name).0[0], key(name)))
    }
    pub fn last_error(&self) -> Option<String> {
        self.0.stats().folder.last_error
    }
    /// What one who follows gets, and whether that was all, where the disk takes the first part alone.
    pub fn followed_on_a_full_disk(&self, parts: &[&[u8]]) -> (Vec<u8>, bool) {
        let mut fetch = self.fetch(1);
        fetch.begin(NOW, &head(1), &meta(2000), None).unwrap();
        fetch.write(parts[0]);
        let mut follower = match self.0.lookup(NOW, &key(1)).unwrap() {
            Lookup::Follow(it) => it,
            it => panic!("{:?}", it),
        };
        self.fail_next_call();
        assert!(parts[1..].iter().all(|it| !fetch.write(it)));
        let _not_stored = fetch.finish(NOW).unwrap();
        let (mut all, mut buf) = (Vec::new(), [0; 99]);
        loop {
            match follower.read(&mut buf).unwrap() {
                ReadProgress::Data(count) => all.extend_from_slice(&buf[..count]),
                ReadProgress::End { complete } => return (all, complete),
                ReadProgress::Pending => return (all, false),
            }
        }
    }
    pub fn wakes(&self) -> bool {
        let mut fetch = self.fetch(1);
        let mut waiting = match self.0.lookup(NOW, &key(1)).unwrap() {
            Lookup::Wait(_, it) => it,
            it => panic!("{:?}", it),
        };
        let woken = Arc::new(Woken(AtomicU64::new(0)));
        assert!(waiting.poll_with(NOW, &woken.clone().into()).unwrap().is_none());
        fetch.begin(NOW, &head(1), &meta(2000), None).unwrap();
        woken.0.load(Ordering::SeqCst) == 1
    }
    /// Status and length that one who follows has.
    pub fn head_of_a_follower(&self) -> Option<(u16, Option<u64>)> {
        let mut fetch = self.fetch(1);
        fetch.begin(NOW, &head(1), &meta(2000), Some(15)).unwrap();
        match self.0.lookup(NOW, &key(1)).unwrap() {
            Lookup::Follow(it) => Some((it.response.status_code(), it.length())),
            it => panic!("{:?}", it),
        }
    }
    /// A client's `no-cache` hangs in its fetch. Whether one who finds the body stale later may fetch it, or is told that the wait has ended.
    pub fn goes_on_beside_a_no_cache(&self, name: u64) -> bool {
        let hangs = self.0.lookup_stale(&key(name)).unwrap();
        assert!(matches!(hangs, Lookup::Stale(..)));
        match self.0.lookup(Moment::at(5000), &key(name)).unwrap() {
            Lookup::Wait(_, mut it) => it.poll(Moment::at(3_000_000)).unwrap().is_some(),
            it => matches!(it, Lookup::Stale(..)),
        }
    }
}
