//! What was done, by counts of each thread, which alone adds to them; the admin address sums them up.
use std::sync::atomic::{AtomicU64, Ordering};
use std::time::Duration;

macro_rules! counts {
    ($($name:ident $help:literal)*) => {
        #[derive(Default)]
        #[repr(align(128))]
        pub struct Counts {
            $(pub $name: AtomicU64,)*
            pub latency: Latency,
        }

        impl Counts {
            pub fn each(&self, mut run: impl FnMut(&'static str, &'static str, u64)) {
                $(run(stringify!($name), $help, self.$name.load(Ordering::Relaxed));)*
            }
        }
    };
}
counts! {
    connections "Connections of clients that were taken."
    connections_refused "Connections past a limit, closed at once."
    requests "Requests that were read, or refused."
    requests_limited "Requests answered 429, past requests_by_client."
    hits "Answers by what is stored, that was fresh or might be stale."
    collapsed "Answers by what another request fetched."
    revalidated "Answers by what is stored, after the origin confirmed it."
    stale_on_error "Answers by what is stale, where the origin failed."
    generated "Answers of the gateway's own, as 400 and 502."
    relayed "Responses that went to the client and weren't stored."
    fetches "Requests to origins."
    stored "Responses that were stored."
    truncated "Bodies that broke off."
    waited "Requests that waited for another's fetch."
    purged "Keys that were purged: asked for and found, or changed by a request."
    purged_all "Purges of everything."
    evicted "Entries that went for room."
    sent_bytes "Bytes to clients."
    received_bytes "Bytes from origins."
    origin_connections "Connections to origins that were opened."
    origin_failures "Connections to origins that failed."
}

/// Adds to a count of the calling thread.
pub fn add(to: &AtomicU64, count: u64) {
    to.store(to.load(Ordering::Relaxed).wrapping_add(count), Ordering::Relaxed);
}

/// The bounds of the histogram's buckets, in milliseconds.
pub const BUCKETS: [u64; 15] = [1, 2, 5, 10, 20, 50, 100, 200, 500, 1000, 2000, 5000, 10_000, 30_000, 60_000];

/// How long answers took, from the request's head to their last byte.
#[derive(Default)]
pub struct Latency {
    buckets: [AtomicU64; BUCKETS.len() + 1],
    micros: AtomicU64,
}

impl Latency {
    pub fn add(&self, took: Duration) {
        let millis = took.as_millis() as u64;
        let at = BUCKETS.iter().position(|it| millis < *it).unwrap_or(BUCKETS.len());
        add(&self.buckets[at], 1);
        add(&self.micros, took.as_micros() as u64);
    }

    /// The sums up to each bound, the last one of all, and seconds in all.
    pub fn add_to(&self, sums: &mut [u64; BUCKETS.len() + 1], micros: &mut u64) {
        let mut below = 0;
        for (sum, own) in sums.iter_mut().zip(&self.buckets) {
            below += own.load(Ordering::Relaxed);
            *sum += below;
        }
        *micros += self.micros.load(Ordering::Relaxed);
    }
}
