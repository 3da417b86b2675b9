//! Those who wait for another's permit, and their wakers by key.
use super::directory::Directory;
use super::folder::held;
use super::store::Inner;
use crate::given::{Digest, Moment};
use crate::partitions::Request;
use crate::words::{Error, LockStatus};
use std::collections::HashMap;
use std::fmt;
use std::sync::atomic::{AtomicU64, Ordering};
use std::sync::{Arc, Mutex, MutexGuard};
use std::task::{Wake, Waker};
use std::thread::Thread;
use std::time::{Duration, Instant};

const TABLES: usize = 64;

/// Wakers by key, then by the number of the wait.
type Table = HashMap<Digest, HashMap<u64, Waker>>;
pub(crate) struct Waits {
    tables: Vec<Mutex<Table>>,
    next: AtomicU64,
}
impl Waits {
    pub fn new() -> Waits {
        Waits { tables: (0..TABLES).map(|_| Mutex::default()).collect(), next: AtomicU64::new(0) }
    }
    fn table(&self, key: &Digest) -> MutexGuard<'_, Table> {
        held(&self.tables[key.partition(TABLES)])
    }
    /// Wakes those who wait for a key's permit.
    pub fn wake(&self, key: &Digest) {
        let wakers = self.table(key).remove(key);
        wakers.into_iter().flat_map(HashMap::into_values).for_each(Waker::wake);
    }
    // (A waker may own what waits here too, so none is made or dropped under the lock.)
    fn add(&self, key: &Digest, number: u64, waker: &Waker) {
        let waker = waker.clone();
        let _old = self.table(key).entry(*key).or_default().insert(number, waker);
    }
    fn remove(&self, key: &Digest, number: u64) {
        let mut table = self.table(key);
        let _old = table.get_mut(key).and_then(|it| it.remove(&number));
        if table.get(key).map_or(false, HashMap::is_empty) {
            table.remove(key);
        }
        drop(table);
    }
}

/// A request that waits for another's permit.
pub struct LockWait<D: Directory> {
    of: Arc<Inner<D>>,
    key: Digest,
    request: Request,
    number: u64,
}
impl<D: Directory> fmt::Debug for LockWait<D> {
    fn fmt(&self, f: &mut fmt::Formatter<'_>) -> fmt::Result {
        write!(f, "LockWait({})", self.key)
    }
}
impl<D: Directory> LockWait<D> {
    pub(crate) fn new(of: Arc<Inner<D>>, key: Digest, request: Request) -> LockWait<D> {
        let number = of.waits.next.fetch_add(1, Ordering::Relaxed);
        LockWait { of, key, request, number }
    }
    /// How the wait ended: look up again, or go on without the store; none: it goes on.
    pub fn poll(&mut self, now: Moment) -> Result<Option<LockStatus>, Error> {
        self.request.poll(now)
    }
    /// The same; where it goes on the waker is woken once whoever has the permit goes on. Poll also when the permit's age has passed: time wakes nobody.
    pub fn poll_with(&mut self, now: Moment, waker: &Waker) -> Result<Option<LockStatus>, Error> {
        self.of.waits.add(&self.key, self.number, waker);
        self.poll(now) // (after the waker is known, so that no end is missed)
    }
    /// Waits in this thread, so long at most.
    pub fn wait(&mut self, mut now: impl FnMut() -> Moment, most: Duration) -> Result<Option<LockStatus>, Error> {
        let (waker, until) = (Waker::from(Arc::new(Parked(std::thread::current()))), Instant::now() + most);
        loop {
            if let Some(it) = self.poll_with(now(), &waker)? {
                return Ok(Some(it));
            }
            match until.checked_duration_since(Instant::now()) {
                Some(left) if left.as_nanos() > 0 => std::thread::park_timeout(left.min(Duration::from_secs(1))),
                _ => return Ok(None),
            }
        }
    }
}
impl<D: Directory> Drop for LockWait<D> {
    fn drop(&mut self) {
        self.of.waits.remove(&self.key, self.number);
    }
}
struct Parked(Thread);
impl Wake for Parked {
    fn wake(self: Arc<Self>) {
        self.0.unpark();
    }
}
