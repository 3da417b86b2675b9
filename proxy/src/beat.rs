//! How long a connection may stay as it is. A sweeper of each thread ends what is past that, so that a request costs a store and no timer.
use std::sync::atomic::{AtomicBool, AtomicU64, Ordering};
use std::sync::Arc;
use std::time::{Duration, Instant};

/// Milliseconds of a coarse clock, which the sweepers set.
static CLOCK: AtomicU64 = AtomicU64::new(0);

pub fn tick(start: Instant) {
    CLOCK.fetch_max(start.elapsed().as_millis() as u64, Ordering::Relaxed);
}

fn now() -> u64 {
    CLOCK.load(Ordering::Relaxed)
}

#[derive(Clone)]
pub struct Beat {
    until: Arc<AtomicU64>,
    idle: Arc<AtomicBool>,
}

impl Beat {
    pub fn new(patience: Duration) -> Beat {
        let it = Beat { until: Arc::default(), idle: Arc::default() };
        it.lasts(patience);
        it
    }

    /// From now on so long.
    pub fn lasts(&self, patience: Duration) {
        self.until.store(now() + patience.as_millis() as u64, Ordering::Relaxed);
    }

    /// Whether it is between two requests.
    pub fn set_idle(&self, idle: bool) {
        self.idle.store(idle, Ordering::Relaxed);
    }

    pub fn is_idle(&self) -> bool {
        self.idle.load(Ordering::Relaxed)
    }

    pub fn is_past(&self) -> bool {
        self.until.load(Ordering::Relaxed) < now()
    }
}

/// Bytes that go one way: each gives `patience` more, but in all no more than `patience` and what the slowest rate takes. Only the time counts in which the
/// other side is waited for.
pub struct Pace {
    patience: Duration,
    min_rate: u64,
    moved: u64,
    /// Milliseconds that were waited, before the last wait began.
    waited: u64,
    since: u64,
}

impl Pace {
    pub fn new(patience: Duration, min_rate: u64) -> Pace {
        Pace { patience, min_rate: min_rate.max(1), moved: 0, waited: 0, since: 0 }
    }

    /// A wait begins: how long it may last.
    pub fn begins(&mut self) -> Duration {
        self.since = now();
        self.left()
    }

    /// So many bytes went: how long the next ones may take.
    pub fn moves(&mut self, count: usize) -> Duration {
        self.moved += count as u64;
        self.left()
    }

    /// The wait is over.
    pub fn rests(&mut self) {
        self.waited += now().saturating_sub(self.since);
    }

    fn left(&self) -> Duration {
        let waited = self.waited + now().saturating_sub(self.since);
        let patience = self.patience.as_millis() as u64;
        let most = patience.saturating_add(self.moved.saturating_mul(1000) / self.min_rate);
        Duration::from_millis(most.saturating_sub(waited).min(patience))
    }
}

#[cfg(test)]
mod tests {
    use super::*;

    #[test]
    fn who_takes_a_byte_now_and_then_is_ended() {
        let begun = Instant::now();
        let mut it = Pace::new(Duration::from_secs(2), 1000);
        tick(begun);
        assert_eq!(it.begins(), Duration::from_secs(2));
        tick(begun - Duration::from_secs(3));
        assert_eq!(it.moves(1), Duration::ZERO);
        assert!(it.moves(5000) > Duration::from_secs(1));
        it.rests();
        tick(begun - Duration::from_secs(9));
        assert!(it.begins() > Duration::from_secs(1)); // (nobody waited for it)
    }
}
