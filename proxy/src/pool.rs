//! Connections to origins, kept and bounded.
use crate::config::Limits;
use crate::counts::add;
use crate::seldom::Seldom;
use crate::shared::Local;
use crate::wire::{Stream, Wire};
use cache_tier::gateway::Closed;
use std::io;
use std::sync::atomic::{AtomicU64, AtomicUsize, Ordering};
use std::sync::{Arc, Mutex, PoisonError};
use std::time::{Duration, Instant};
use tokio::net::TcpStream;
use tokio::sync::{OwnedSemaphorePermit, Semaphore};
use tokio::time::timeout;

/// After so many failures in a row an origin is passed over for so long.
const FAILURES: usize = 3;
const DOWN: Duration = Duration::from_secs(10);
/// For so long a name's addresses hold.
const NAMES: Duration = Duration::from_secs(30);
/// One read takes at most so many bytes; then others have a turn.
const ROOM: usize = 1 << 16;

/// The connections to one origin.
pub struct Pool {
    address: String,
    /// A list for each thread: a stream belongs to the runtime that made it.
    idle: Vec<Mutex<Vec<Stream>>>,
    most_idle: usize,
    connect: Duration,
    wait: Duration,
    room: Arc<Semaphore>,
    names: Mutex<Option<(Instant, Vec<std::net::SocketAddr>)>>,
    failures: AtomicUsize,
    pub failed: Seldom,
    down_until: AtomicU64,
    start: Instant,
}

/// A connection to an origin, with its place among the bounded ones.
pub struct Link {
    pub wire: Wire,
    /// It served another exchange before.
    pub is_kept: bool,
    pool: Arc<Pool>,
    thread: usize,
    _place: OwnedSemaphorePermit,
}

impl Pool {
    pub fn new(address: String, threads: usize, limits: &Limits) -> Pool {
        Pool {
            address,
            idle: (0..threads).map(|_| Mutex::default()).collect(),
            most_idle: limits.idle_by_origin.div_euclid(threads.max(1)).max(1),
            connect: limits.connect_timeout.duration(),
            wait: limits.fetch_wait.duration(),
            room: Arc::new(Semaphore::new(limits.fetches_by_origin)),
            names: Mutex::new(None),
            failures: AtomicUsize::new(0),
            failed: Seldom::default(),
            down_until: AtomicU64::new(0),
            start: Instant::now(),
        }
    }

    pub fn address(&self) -> &str {
        &self.address
    }

    pub fn is_down(&self) -> bool {
        self.down_until.load(Ordering::Relaxed) > self.start.elapsed().as_secs()
    }

    fn fails(&self) {
        if self.failures.fetch_add(1, Ordering::Relaxed) + 1 >= FAILURES {
            self.down_until.store((self.start.elapsed() + DOWN).as_secs(), Ordering::Relaxed);
        }
    }

    async fn addresses(&self) -> io::Result<Vec<std::net::SocketAddr>> {
        let known = self.names.lock().unwrap_or_else(PoisonError::into_inner).clone();
        if let Some((at, all)) = known {
            if at.elapsed() < NAMES {
                return Ok(all);
            }
        }
        let all: Vec<_> = tokio::net::lookup_host(&self.address).await?.collect();
        *self.names.lock().unwrap_or_else(PoisonError::into_inner) = Some((Instant::now(), all.clone()));
        Ok(all)
    }

    async fn connection(&self) -> io::Result<TcpStream> {
        let mut last = io::Error::from(io::ErrorKind::NotFound);
        for it in self.addresses().await? {
            match TcpStream::connect(it).await {
                Ok(it) => return Ok(it),
                Err(why) => last = why,
            }
        }
        Err(last)
    }

    /// A kept connection that is silent, or a new one, once there is a place. `is_new`: a new one, for what goes again after a kept one ended: it goes again but
    /// once, and another kept one may be as dead as the last.
    pub async fn link(self: &Arc<Pool>, local: &Local, is_new: bool) -> Result<Link, Closed> {
        let place = timeout(self.wait, self.room.clone().acquire_owned()).await;
        let place = place.map_err(|_| Closed::Timeout)?.map_err(|_| Closed::Failed)?;
        let of = |stream, is_kept| Link { wire: Wire::new(stream, ROOM), is_kept, pool: self.clone(), thread: local.thread, _place: place };
        while !is_new {
            let kept = self.idle[local.thread].lock().unwrap_or_else(PoisonError::into_inner).pop();
            match kept {
                Some(it) if it.is_silent() => return Ok(of(it, true)),
                Some(_) => {} // it was closed, or bytes came unasked
                None => break,
            }
        }
        match timeout(self.connect, self.connection()).await {
            Ok(Ok(it)) => {
                it.set_nodelay(true).ok();
                self.failures.store(0, Ordering::Relaxed);
                add(&local.own().origin_connections, 1);
                Ok(of(Stream::Tcp(it), false))
            }
            other => {
                self.fails();
                add(&local.own().origin_failures, 1);
                let (why, closed) = match other {
                    Ok(it) => (it.err().map_or(String::new(), |it| it.to_string()), Closed::Failed),
                    Err(_) => ("connect_timeout".to_string(), Closed::Timeout),
                };
                self.failed.note(why);
                Err(closed)
            }
        }
    }
}

impl Link {
    /// Gives it back for another exchange.
    pub fn keep(mut self) {
        if !self.wire.is_empty() {
            return;
        }
        self.wire.rest();
        if let Some(stream) = self.wire.take_stream() {
            let mut idle = self.pool.idle[self.thread].lock().unwrap_or_else(PoisonError::into_inner);
            if idle.len() < self.pool.most_idle {
                idle.push(stream);
            }
        }
    }
}

#[cfg(test)]
mod tests {
    use super::*;

    #[test]
    fn names_hold_for_thirty_seconds() {
        let runtime = tokio::runtime::Builder::new_current_thread().enable_all().build().unwrap();
        let it = Pool::new("localhost:80".into(), 1, &Limits::default());
        let known = "192.0.2.1:80".parse().unwrap();
        let after = |seconds| {
            let at = Instant::now() - Duration::from_secs(seconds);
            *it.names.lock().unwrap() = Some((at, vec![known]));
            runtime.block_on(it.addresses()).unwrap()
        };
        assert_eq!(after(29), [known]);
        let anew = after(31);
        assert!(!anew.is_empty() && anew.iter().all(|it| it.ip().is_loopback()), "{:?}", anew);
        assert_eq!(runtime.block_on(it.addresses()).unwrap(), anew);
    }
}
