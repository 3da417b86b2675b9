//! Who is told that an exchange has something new: the task of its client, and that of its origin.
use cache_tier::gateway::Handle;
use std::collections::HashMap;
use std::sync::atomic::{AtomicBool, Ordering};
use std::sync::{Arc, Mutex, MutexGuard, PoisonError, Weak};
use std::time::Instant;
use tokio::sync::Notify;

/// An exchange that goes on.
pub struct Waiter {
    handle: Handle,
    all: Weak<Waiters>,
    /// Something came for the client: its task polls.
    client: Notify,
    client_gone: AtomicBool,
    /// Memory ran out in the middle of a call: the exchange is ended.
    broken: AtomicBool,
    /// The origin's task is to close its connection, or to read on.
    origin: Notify,
    closes: AtomicBool,
    continues: AtomicBool,
    /// When it is polled at the latest.
    due: Mutex<Option<Instant>>,
}

pub struct Waiters {
    parts: Vec<Mutex<HashMap<Handle, Weak<Waiter>>>>,
}

fn locked<T>(it: &Mutex<T>) -> MutexGuard<'_, T> {
    it.lock().unwrap_or_else(PoisonError::into_inner)
}

impl Waiters {
    pub fn new(parts: usize) -> Waiters {
        Waiters { parts: (0..parts).map(|_| Mutex::default()).collect() }
    }

    fn part(&self, handle: Handle) -> &Mutex<HashMap<Handle, Weak<Waiter>>> {
        &self.parts[handle.partition % self.parts.len()]
    }

    /// From here on the exchange is told; it polls once behind this, so that nothing is missed that came before.
    pub fn register(self: &Arc<Self>, handle: Handle) -> Arc<Waiter> {
        let it = Arc::new(Waiter {
            handle,
            all: Arc::downgrade(self),
            client: Notify::new(),
            client_gone: AtomicBool::new(false),
            broken: AtomicBool::new(false),
            origin: Notify::new(),
            closes: AtomicBool::new(false),
            continues: AtomicBool::new(false),
            due: Mutex::new(None),
        });
        locked(self.part(handle)).insert(handle, Arc::downgrade(&it));
        it
    }

    /// There is something new for it. Who isn't registered yet polls anyway.
    pub fn wake(&self, handle: Handle) {
        let it = locked(self.part(handle)).get(&handle).and_then(Weak::upgrade);
        if let Some(it) = it {
            it.wake();
        }
    }

    /// A call ended in its middle: whom it would have woken isn't known.
    pub fn wake_all(&self) {
        for part in &self.parts {
            let all: Vec<_> = locked(part).values().filter_map(Weak::upgrade).collect();
            all.iter().for_each(|it| it.wake());
        }
    }

    pub fn len(&self) -> usize {
        self.parts.iter().map(|it| locked(it).len()).sum()
    }
}

impl Drop for Waiter {
    fn drop(&mut self) {
        if let Some(all) = self.all.upgrade() {
            locked(all.part(self.handle)).remove(&self.handle);
        }
    }
}

impl Waiter {
    /// Whoever keeps its moments polls: its client's task, or its origin's once the client is gone.
    pub fn wake(&self) {
        self.client.notify_one();
        if self.is_client_gone() {
            self.origin.notify_one();
        }
    }

    pub async fn woken(&self) {
        self.client.notified().await;
    }

    pub fn breaks(&self) {
        self.broken.store(true, Ordering::Release);
        self.client.notify_one();
    }

    pub fn is_broken(&self) -> bool {
        self.broken.load(Ordering::Acquire)
    }

    pub fn client_goes(&self) {
        self.client_gone.store(true, Ordering::Release);
        self.origin.notify_one();
    }

    pub fn is_client_gone(&self) -> bool {
        self.client_gone.load(Ordering::Acquire)
    }

    pub fn close_origin(&self) {
        self.closes.store(true, Ordering::Release);
        self.origin.notify_one();
    }

    pub fn continue_origin(&self) {
        self.continues.store(true, Ordering::Release);
        self.origin.notify_one();
    }

    /// Waits until the origin's task has something to do besides its connection.
    pub async fn origin_told(&self) {
        self.origin.notified().await;
    }

    pub fn takes_close(&self) -> bool {
        self.closes.swap(false, Ordering::AcqRel)
    }

    pub fn takes_continue(&self) -> bool {
        self.continues.swap(false, Ordering::AcqRel)
    }

    pub fn due(&self) -> Option<Instant> {
        *locked(&self.due)
    }

    /// Each out says when it is due next; who waits for a later moment is woken.
    pub fn set_due(&self, due: Option<Instant>) {
        let mut own = locked(&self.due);
        let is_sooner = match (*own, due) {
            (_, None) => false,
            (None, Some(_)) => true,
            (Some(own), Some(due)) => due < own,
        };
        *own = due;
        drop(own);
        if is_sooner {
            self.origin.notify_one();
            self.client.notify_one();
        }
    }
}
