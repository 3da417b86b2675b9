//! What all connections share: the gateways, the sites, the counts.
use crate::config::Config;
use crate::counts::{add, Counts};
use crate::log::Log;
use crate::pool::Pool;
use crate::rules::{self, Plan, Plans};
use crate::seldom::Seldom;
use crate::waiters::Waiters;
use cache_tier::gateway::{Event, Gateway, Gateways, Limits, Out, Parsed, Parser, RequestHead, Status};
use cache_tier::{Error, Moment};
use std::collections::HashMap;
use std::io::Read;
use std::net::IpAddr;
use std::sync::atomic::{AtomicBool, AtomicUsize, Ordering};
use std::sync::{Arc, Mutex, PoisonError, RwLock};
use std::time::{Duration, Instant, SystemTime, UNIX_EPOCH};

/// The origins of these hosts.
pub struct Site {
    hosts: Vec<String>,
    pub origins: Vec<Arc<Pool>>,
    /// Prefixes of paths with rules of their own, the longest first, and the places of these.
    pub paths: Vec<(String, usize)>,
    next: AtomicUsize,
}

impl Site {
    /// The next origin that isn't down; of all that are, the next.
    pub fn origin(&self) -> &Arc<Pool> {
        let count = self.origins.len();
        let first = self.next.fetch_add(1, Ordering::Relaxed);
        let at = (0..count).map(|it| (first + it) % count).find(|it| !self.origins[*it].is_down());
        &self.origins[at.unwrap_or(first % count)]
    }
}

/// What a reload changes.
pub struct Live {
    pub config: Config,
    pub sites: Vec<Arc<Site>>,
    pub log: Option<Log>,
}

impl Live {
    /// An origin that was there before keeps its connections and its bound, where its limits are the same. `paths`: of each site.
    pub fn new(config: Config, threads: usize, paths: Vec<Vec<(String, usize)>>, old: Option<&Live>) -> Result<Live, String> {
        let limits = &config.limits;
        let kept: Vec<_> = old.filter(|it| it.config.limits == *limits).map_or(Vec::new(), |it| it.sites.iter().flat_map(|it| &it.origins).collect());
        let pool = |it: &crate::config::Origin| {
            let same = kept.iter().find(|own| own.address() == it.address);
            same.map_or_else(|| Arc::new(Pool::new(it.address.clone(), threads, limits)), |it| Arc::clone(it))
        };
        let site = |(it, paths): (&crate::config::Site, Vec<(String, usize)>)| {
            let hosts = it.host.iter().map(|it| it.to_ascii_lowercase()).collect();
            Arc::new(Site { hosts, origins: it.origin.iter().map(pool).collect(), paths, next: AtomicUsize::new(0) })
        };
        let sites = config.site.iter().zip(paths).map(site).collect();
        let log = match &config.log {
            None => None,
            Some(it) => Some(Log::open(&it.file, it.format).map_err(|why| format!("log: {}: {}", it.file, why))?),
        };
        Ok(Live { config, sites, log })
    }

    /// The site of a host, as the rules write hosts; its port doesn't count.
    pub fn site(&self, host: &[u8]) -> Option<&Arc<Site>> {
        let named = |it: &&Arc<Site>| it.hosts.iter().any(|own| is_host(host, own.as_bytes()));
        self.sites.iter().find(named).or_else(|| self.sites.iter().find(|it| it.hosts.is_empty()))
    }
}

fn is_host(given: &[u8], own: &[u8]) -> bool {
    given == own || given.strip_prefix(own).map_or(false, |rest| rest.first() == Some(&b':'))
}

/// What a partition holds: bytes of its bodies and heads, how many it may have, and how many bodies.
pub struct Partition {
    pub weight: u64,
    pub limit: u64,
    pub bodies: u64,
}

/// What is stored by one set of options, and who waits there.
pub struct Store {
    pub gateways: Gateways,
    pub waiters: Arc<Waiters>,
    partitions: usize,
    /// Bytes that each may have.
    share: u64,
    /// Without the lines that say whose request it is.
    of_strangers: Parser,
}

impl Store {
    fn new(plan: &Plan, config: &Config, started: Moment) -> Result<Store, String> {
        let mut secret = [0; 32];
        random(&mut secret);
        let mut seed = [0; 8];
        seed.copy_from_slice(&secret[..8]);
        let (limits, secret) = (limits(config, plan.memory, u64::from_le_bytes(seed)), &secret[8..]);
        let wrong = |why| format!("memory: {}", why);
        let gateways = Gateways::new(plan.partitions as usize, started, secret, &limits, &plan.options).map_err(wrong)?;
        // (a parser is a gateway's, of which nothing else is wanted)
        let of_strangers = Gateway::new(started, secret, &Limits::default(), &rules::of_strangers(&plan.options)).map_err(wrong)?.parser();
        let (partitions, share) = (plan.partitions as usize, plan.memory / plan.partitions);
        Ok(Store { gateways, waiters: Arc::new(Waiters::new(partitions)), partitions, share, of_strangers })
    }

    /// Its partitions, each looked at by itself.
    pub fn partitions(&self) -> impl Iterator<Item = Partition> + '_ {
        let told = (0..self.partitions).filter_map(|it| self.gateways.counts(it));
        told.map(|it| Partition { weight: it.weight, limit: self.share, bodies: it.tracked })
    }

    /// A head once more, by the rules of this store: as it is, or without the lines that say whose request it is.
    fn parse_again(&self, head: &[u8], is_whole: bool) -> Result<Parsed, Error> {
        if is_whole {
            self.gateways.parse_request(head, 0)
        } else {
            self.of_strangers.parse_request(head, 0)
        }
    }
}

pub struct Shared {
    pub live: RwLock<Arc<Live>>,
    pub plans: Plans,
    pub stores: Vec<Store>,
    pub counts: Vec<Counts>,
    pub connections: AtomicUsize,
    pub clients: Mutex<HashMap<IpAddr, ClientState>>,
    pub stops: AtomicBool,
    /// Connections past a limit.
    pub refused: Seldom,
    start: (Instant, SystemTime),
}

/// After so long a client that was limited may send as many requests at once as any other.
const RATES: Duration = Duration::from_secs(2);

/// What one client has.
pub struct ClientState {
    connections: usize,
    /// Requests that it may still send, and when that was reckoned.
    left: f64,
    at: Instant,
}

/// The same, the thread that it is used in, and the store of an exchange.
#[derive(Clone)]
pub struct Local {
    pub shared: Arc<Shared>,
    pub thread: usize,
    pub store: usize,
}

impl std::ops::Deref for Local {
    type Target = Shared;

    fn deref(&self) -> &Shared {
        &self.shared
    }
}

impl Shared {
    pub fn new(config: Config) -> Result<Shared, String> {
        let threads = config.threads();
        let plans = Plans::of(&config)?;
        let start = (Instant::now(), SystemTime::now());
        let store = |it| Store::new(it, &config, moment(start.1));
        let stores = plans.stores.iter().map(store).collect::<Result<Vec<_>, String>>()?;
        let live = Live::new(config, threads, plans.paths.clone(), None)?;
        Ok(Shared {
            live: RwLock::new(Arc::new(live)),
            plans,
            stores,
            counts: (0..threads).map(|_| Counts::default()).collect(),
            connections: AtomicUsize::new(0),
            clients: Mutex::default(),
            stops: AtomicBool::new(false),
            refused: Seldom::default(),
            start,
        })
    }

    pub fn live(&self) -> Arc<Live> {
        self.live.read().unwrap_or_else(PoisonError::into_inner).clone()
    }

    /// The present moment, of a clock that doesn't go back: what others say of dates is compared with it.
    pub fn now(&self) -> Moment {
        self.moment(Instant::now())
    }

    /// That moment of the same clock.
    pub fn moment(&self, at: Instant) -> Moment {
        moment(self.start.1 + at.saturating_duration_since(self.start.0))
    }

    /// A moment of that clock, as timers have it.
    pub fn instant(&self, moment: Moment) -> Instant {
        let begun = self.start.1.duration_since(UNIX_EPOCH).unwrap_or_default();
        let at = Duration::new(moment.seconds, moment.nanoseconds);
        // (a moment that no timer has is in a day)
        self.start.0 + at.saturating_sub(begun).min(self.start.0.elapsed() + Duration::from_secs(86_400))
    }

    /// A connection of a client more, unless it has too many; a balancer's are many clients'.
    pub fn admit(&self, client: IpAddr, is_balancer: bool) -> bool {
        let most = self.live().config.limits.connections_by_client;
        let mut all = self.clients.lock().unwrap_or_else(PoisonError::into_inner);
        let it = all.entry(client).or_insert_with(|| ClientState { connections: 0, left: f64::MAX, at: Instant::now() });
        if it.connections >= most && !is_balancer {
            return false;
        }
        it.connections += 1;
        true
    }

    pub fn dismiss(&self, client: IpAddr) {
        let mut all = self.clients.lock().unwrap_or_else(PoisonError::into_inner);
        if let Some(it) = all.get_mut(&client) {
            it.connections = it.connections.saturating_sub(1);
            if it.connections == 0 && it.left == f64::MAX {
                all.remove(&client);
            }
        }
    }

    /// Forgets clients that are gone, and may send as many requests as any other by now.
    pub fn forget_clients(&self) {
        let mut all = self.clients.lock().unwrap_or_else(PoisonError::into_inner);
        all.retain(|_, it| it.connections > 0 || it.left < f64::MAX && it.at.elapsed() < RATES);
    }

    /// Tells on standard error what may happen often: connections past a limit, and to origins that failed.
    pub fn tell(&self) {
        let now = Instant::now();
        if let Some((count, client)) = self.refused.due(now) {
            eprintln!("nijpdra-proxy: {} connections closed, past connections or connections_by_client; the last one of {}", count, client);
        }
        for pool in self.live().sites.iter().flat_map(|it| &it.origins) {
            if let Some((count, why)) = pool.failed.due(now) {
                eprintln!("nijpdra-proxy: origin {}: {} connections failed: {}", pool.address(), count, why);
            }
        }
    }

    /// Whether a client may send one request more: `rate` a second, and as many at once.
    pub fn allows(&self, client: IpAddr, rate: u32) -> bool {
        let (rate, now) = (f64::from(rate), Instant::now());
        let mut all = self.clients.lock().unwrap_or_else(PoisonError::into_inner);
        let it = all.entry(client).or_insert_with(|| ClientState { connections: 0, left: f64::MAX, at: now });
        let since = now.duration_since(it.at).as_secs_f64();
        it.left = (it.left + since * rate).min(rate);
        it.at = now;
        let may = it.left >= 1.0;
        if may {
            it.left -= 1.0;
        }
        may
    }
}

impl Local {
    pub fn new(shared: Arc<Shared>, thread: usize) -> Local {
        Local { shared, thread, store: 0 }
    }

    /// The same, of another store.
    pub fn of(&self, store: usize) -> Local {
        Local { store, ..self.clone() }
    }

    pub fn own(&self) -> &Counts {
        &self.shared.counts[self.thread]
    }

    pub fn gateways(&self) -> &Gateways {
        &self.shared.stores[self.store].gateways
    }

    pub fn waiters(&self) -> &Arc<Waiters> {
        &self.shared.stores[self.store].waiters
    }

    /// The next request's head, its site, and the place of its store: that of its key, whose path the rules of all requests say.
    pub fn parse(&self, live: &Live, data: &[u8], looked: usize, is_trusted: bool) -> Result<Request, Error> {
        let head = match self.stores[0].gateways.parse_request(data, looked)? {
            Parsed::Head(it) => it,
            Parsed::More => return Ok(Request::More),
        };
        let site = live.site(head.host()).cloned();
        if site.is_none() && !head.is_rejected() {
            return Ok(Request::Refused(head, &NO_SITE));
        }
        let has_paths = site.as_ref().map_or(false, |it| !it.paths.is_empty());
        if has_paths && !head.is_rejected() && rules::is_unclear(head.key()) {
            return Ok(Request::Refused(head, &UNCLEAR_PATH));
        }
        let store = site.as_ref().filter(|_| has_paths).map_or(0, |it| rules::store_of(&it.paths, head.key()));
        let bytes = &data[..head.head_len().min(data.len())];
        let tells = !is_trusted && rules::tells_whose(bytes);
        if head.is_rejected() || store == 0 && !tells {
            return Ok(Request::Head(head, site, store));
        }
        match self.stores[store].parse_again(bytes, !tells)? {
            Parsed::Head(it) => Ok(Request::Head(it, site, store)),
            Parsed::More => Ok(Request::Head(head, site, 0)),
        }
    }

    /// Purges a URL in every store but one: whether it is one, and whether anything was there. None: no memory.
    pub fn purge(&self, url: &[u8], but: Option<usize>) -> Option<(bool, bool)> {
        let mut told = (true, false);
        for store in (0..self.stores.len()).filter(|it| Some(*it) != but) {
            let own = self.of(store);
            let out = own.gateways().purge(url);
            own.noted(&out, out.found());
            match out.status() {
                Status::Done => told.1 |= out.found(),
                Status::BadArgument => told.0 = false,
                _ => return None,
            }
        }
        Some(told)
    }

    /// Purges everything that was asked for until now.
    pub fn purge_all(&self) -> bool {
        add(&self.own().purged_all, 1);
        let now = self.now();
        for own in (0..self.stores.len()).map(|it| self.of(it)) {
            own.note(&own.gateways().purge_all(now));
        }
        true
    }

    /// What each call says besides: whom to wake, and what was done. How the cache answered, where that is told.
    pub fn note(&self, out: &Out) -> Option<&'static str> {
        self.noted(out, true)
    }

    /// `found`: what was purged was there.
    fn noted(&self, out: &Out, found: bool) -> Option<&'static str> {
        for it in out.purges().filter(|_| self.stores.len() > 1) {
            self.purge(it, Some(self.store)); // (the gateways saw to the partitions of this store)
        }
        if out.status() == Status::Memory {
            self.waiters().wake_all();
        }
        for it in out.wakes() {
            self.waiters().wake(it);
        }
        let counts = self.own();
        add(&counts.evicted, out.evicted().len() as u64);
        let mut how = None;
        for it in out.events() {
            let (count, word) = match it {
                Event::Requested { .. } => (&counts.fetches, Some("miss")),
                Event::Hit(_) => (&counts.hits, Some("hit")),
                Event::Waiting => (&counts.waited, None),
                Event::Collapsed(_) => (&counts.collapsed, Some("collapsed")),
                Event::StaleOnError => (&counts.stale_on_error, Some("stale")),
                Event::Stored(_) => (&counts.stored, None),
                Event::Truncated => (&counts.truncated, None),
                Event::Relayed(_) => (&counts.relayed, Some("relayed")),
                Event::Revalidated => (&counts.revalidated, Some("revalidated")),
                Event::Generated(..) => (&counts.generated, Some("generated")),
                Event::Purged(_) if found => (&counts.purged, None),
                _ => continue,
            };
            add(count, 1);
            how = word.or(how);
        }
        how
    }
}

/// What came of a request's head.
pub enum Request {
    More,
    Head(RequestHead, Option<Arc<Site>>, usize),
    Refused(RequestHead, &'static Refusal),
}

/// An answer of the proxy's own, behind which the connection ends.
pub struct Refusal {
    pub status: u16,
    pub reason: &'static str,
    pub answer: &'static [u8],
}

macro_rules! refusal {
    ($status:literal $words:literal $reason:literal $lines:literal) => {
        Refusal {
            status: $status,
            reason: $reason,
            answer: concat!("HTTP/1.1 ", $status, " ", $words, "\r\n", $lines, "Content-Length: 0\r\nConnection: close\r\n\r\n").as_bytes(),
        }
    };
}
/// Its site has rules by paths, and the origin may read another path than these do.
pub static UNCLEAR_PATH: Refusal = refusal!(400 "Bad Request" "unclear-path" "");
/// No site has its host.
pub static NO_SITE: Refusal = refusal!(421 "Misdirected Request" "no-site" "");
pub static TOO_MANY: Refusal = refusal!(429 "Too Many Requests" "rate" "Retry-After: 1\r\n");

fn moment(at: SystemTime) -> Moment {
    let at = at.duration_since(UNIX_EPOCH).unwrap_or_default();
    Moment { seconds: at.as_secs(), nanoseconds: at.subsec_nanos() }
}

/// Of all partitions together `memory`; of each the others.
fn limits(config: &Config, memory: u64, hash_seed: u64) -> Limits {
    let (it, mut own) = (&config.limits, Limits::default());
    own.max_bytes = memory;
    own.lock_age = it.first_byte_timeout.0.max(own.lock_age);
    own.lock_timeout = it.first_byte_timeout.0.max(own.lock_timeout);
    own.max_exchanges = it.connections as u64;
    own.max_body_bytes = config.max_body.0;
    own.first_byte_timeout = it.first_byte_timeout.0 + it.fetch_wait.0;
    own.between_bytes_timeout = it.between_bytes_timeout.0;
    own.hash_seed = hash_seed;
    own
}

pub fn random(room: &mut [u8]) {
    let read = std::fs::File::open("/dev/urandom").and_then(|mut it| it.read_exact(room));
    read.expect("/dev/urandom gives bytes");
}
