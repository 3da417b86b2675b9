//! What may happen often, and is told on standard error at most once a second, with its count.
use std::sync::{Mutex, MutexGuard, PoisonError};
use std::time::{Duration, Instant};

const EACH: Duration = Duration::from_secs(1);

#[derive(Default)]
pub struct Seldom(Mutex<State>);

#[derive(Default)]
struct State {
    count: u64,
    last: String,
    told: Option<Instant>,
}

impl Seldom {
    fn state(&self) -> MutexGuard<'_, State> {
        self.0.lock().unwrap_or_else(PoisonError::into_inner)
    }

    /// Once more, with what is told of the last one.
    pub fn note(&self, what: String) {
        let mut it = self.state();
        it.count += 1;
        it.last = what;
    }

    /// How often since that was told last, and of the last one what; none, where nothing is to be told now.
    pub fn due(&self, now: Instant) -> Option<(u64, String)> {
        let mut it = self.state();
        if it.count == 0 || it.told.map_or(false, |at| now.saturating_duration_since(at) < EACH) {
            return None;
        }
        it.told = Some(now);
        Some((std::mem::take(&mut it.count), std::mem::take(&mut it.last)))
    }
}

#[cfg(test)]
mod tests {
    use super::*;

    #[test]
    fn once_a_second_with_a_count() {
        let (it, now) = (Seldom::default(), Instant::now());
        assert_eq!(it.due(now), None);
        it.note("a".into());
        assert_eq!(it.due(now), Some((1, "a".into())));
        it.note("b".into());
        it.note("c".into());
        assert_eq!(it.due(now + EACH / 2), None);
        assert_eq!(it.due(now + EACH), Some((2, "c".into())));
    }
}
