//! The threads, their sockets, and what signals do.
use crate::admin;
use crate::beat::{self, Beat};
use crate::client::Client;
use crate::config::{Config, Listen};
use crate::counts::add;
use crate::proxy_protocol;
use crate::rules::{Plan, Plans};
use crate::shared::{Live, Local, Shared};
use crate::sizes::{Address, Network, Place};
use crate::wire::{Stream, Wire};
use std::cell::RefCell;
use std::io;
use std::net::{IpAddr, Ipv4Addr, SocketAddr};
use std::os::unix::fs::{FileTypeExt, PermissionsExt};
use std::os::unix::net::{UnixDatagram, UnixStream};
use std::path::PathBuf;
use std::rc::Rc;
use std::sync::atomic::Ordering;
use std::sync::{Arc, PoisonError};
use std::task::Poll;
use std::time::{Duration, Instant};
use tokio::net::{TcpListener, TcpSocket, UnixListener};
use tokio::signal::unix::{signal, Signal, SignalKind};
use tokio::task::JoinHandle;

/// After so many turns of tasks sockets are asked. tokio's 61 let a body that comes fast (8 MB a turn) hold up all others of its thread for a second.
const EVENTS: u32 = 8;
/// One read of a client takes at most so many bytes.
const ROOM: usize = 1 << 13;
/// What listens, polls and logs has so many.
const OWN_DESCRIPTORS: usize = 64;
/// At a stop a request that was sent has come after so long.
const UNDER_WAY: Duration = Duration::from_millis(200);
const SWEEP: Duration = Duration::from_millis(250);

enum Listener {
    Tcp(TcpListener),
    Unix(UnixListener),
}

/// The connections of a thread, and until when each may stay as it is.
type Connections = Rc<RefCell<Vec<(JoinHandle<()>, Beat)>>>;

/// Serves until SIGTERM.
pub fn run(mut config: Config, file: Option<PathBuf>) -> Result<(), String> {
    let start = Instant::now();
    if !fits(&mut config) {
        eprintln!("nijpdra-proxy: {} descriptors let {} connections: ulimit -n, or LimitNOFILE of a unit", descriptors(), config.limits.connections);
    }
    let threads = config.threads();
    let max_body = config.max_body.0;
    if let Some(Address(Place::Tcp(at))) = &config.admin {
        // (before any thread takes connections that another proxy would have)
        std::net::TcpListener::bind(at).map_err(|why| format!("admin: {}: {}", at, why))?;
    }
    for it in &config.listen {
        if let Place::Tcp(at) = &it.address.0 {
            is_free(*at).map_err(|why| format!("listen: {}: {}", at, why))?;
        }
    }
    let shared = Arc::new(Shared::new(config)?);
    let words = |it: &Plan| format!("{} bytes in {} partitions, bodies up to {}", it.memory, it.partitions, max_body);
    for it in &shared.plans.stores[1..] {
        eprintln!("nijpdra-proxy: {}: {}", it.path.as_deref().unwrap_or(""), words(it));
    }
    let words = format!("{}, {} threads", words(&shared.plans.stores[0]), threads);
    let mut others = Vec::new();
    for thread in 1..threads {
        let local = Local::new(shared.clone(), thread);
        let run = move || serve(local, None, start);
        others.push(std::thread::Builder::new().name(format!("serve-{}", thread)).spawn(run).map_err(|why| why.to_string())?);
    }
    eprintln!("nijpdra-proxy: {}", words);
    serve(Local::new(shared, 0), file, start)?;
    for it in others {
        it.join().map_err(|_| "a thread ended early".to_string())??;
    }
    Ok(())
}

fn serve(local: Local, file: Option<PathBuf>, start: Instant) -> Result<(), String> {
    let runtime = tokio::runtime::Builder::new_current_thread().event_interval(EVENTS).enable_all().build().map_err(|why| why.to_string())?;
    runtime.block_on(listen(local, file, start))
}

/// A thread's own sockets, where they are shared: the kernel spreads connections over the threads.
fn bound(at: SocketAddr, is_shared: bool) -> io::Result<TcpListener> {
    let socket = if at.is_ipv4() { TcpSocket::new_v4() } else { TcpSocket::new_v6() }?;
    socket.set_reuseaddr(true)?;
    socket.set_reuseport(is_shared)?;
    socket.bind(at)?;
    socket.listen(4096)
}

/// Whether nobody listens there: threads share an address, and by the same way another proxy of this user would take half of the connections.
fn is_free(at: SocketAddr) -> io::Result<()> {
    let socket = if at.is_ipv4() { TcpSocket::new_v4() } else { TcpSocket::new_v6() }?;
    socket.set_reuseaddr(true)?;
    socket.bind(at)
}

fn opened(it: &Listen, thread: usize, is_shared: bool) -> Result<Option<(Listener, Vec<Network>)>, String> {
    let of = |listener| Ok(Some((listener, it.proxy_protocol_from.clone())));
    match &it.address.0 {
        Place::Tcp(at) => of(Listener::Tcp(bound(*at, is_shared).map_err(|why| format!("{}: {}", at, why))?)),
        Place::Unix(_) if thread > 0 => Ok(None),
        Place::Unix(path) => of(Listener::Unix(bound_here(path, is_shared).map_err(|why| format!("unix:{}: {}", path.display(), why))?)),
    }
}

/// A socket of this host, in the place of one that nobody listens at. Who reaches its folder may connect, but to the admin address.
fn bound_here(path: &std::path::Path, is_shared: bool) -> io::Result<UnixListener> {
    let is_socket = std::fs::symlink_metadata(path).map_or(false, |it| it.file_type().is_socket());
    if is_socket && UnixStream::connect(path).is_err() {
        std::fs::remove_file(path)?;
    }
    let it = UnixListener::bind(path)?;
    std::fs::set_permissions(path, std::fs::Permissions::from_mode(if is_shared { 0o666 } else { 0o600 }))?;
    Ok(it)
}

/// Files that this process may have open.
fn descriptors() -> usize {
    let text = std::fs::read_to_string("/proc/self/limits").unwrap_or_default();
    let most = text.lines().find_map(|it| it.strip_prefix("Max open files")?.split_whitespace().next()?.parse().ok());
    most.unwrap_or(usize::MAX)
}

/// Not more connections than there are descriptors for, beside those to origins, which may have half: without one of these a miss is an error. Whether there are.
fn fits(config: &mut Config) -> bool {
    let all = descriptors().saturating_sub(OWN_DESCRIPTORS);
    let of_origins: usize = config.site.iter().map(|it| it.origin.len() * (config.limits.fetches_by_origin + config.limits.idle_by_origin)).sum();
    let most = (all - of_origins.min(all / 2)).max(1);
    let fits = config.limits.connections <= most;
    config.limits.connections = config.limits.connections.min(most);
    fits
}

/// An address of IPv4 is that on a socket of IPv6 too.
pub fn plain(it: IpAddr) -> IpAddr {
    match it {
        IpAddr::V6(own) => own.to_ipv4_mapped().map_or(it, IpAddr::V4),
        IpAddr::V4(_) => it,
    }
}

async fn listen(local: Local, file: Option<PathBuf>, start: Instant) -> Result<(), String> {
    let live = local.live();
    let mut listeners = Vec::new();
    for it in &live.config.listen {
        listeners.extend(opened(it, local.thread, true)?);
    }
    // (one alone has the admin address: of two proxies by one configuration the second one ends)
    let admin = match (&live.config.admin, local.thread) {
        (Some(it), 0) => opened(&Listen { address: it.clone(), proxy_protocol_from: Vec::new() }, 0, false)?.map(|it| it.0),
        _ => None,
    };
    let open = Connections::default();
    let mut sweep = tokio::time::interval(SWEEP);
    let (mut hup, mut term) = (signal(SignalKind::hangup()).ok(), signal(SignalKind::terminate()).ok());
    tell_systemd(&local, "READY=1");
    while !local.stops.load(Ordering::Relaxed) {
        tokio::select! {
            (accepted, networks) = any(&listeners) => match accepted {
                Ok(stream) => accept(&local, stream, networks, &open),
                Err(_) => tokio::time::sleep(Duration::from_millis(10)).await, // (no descriptor is free)
            },
            Ok(stream) = maybe(&admin) => drop(tokio::spawn(admin::serve(local.clone(), Wire::new(stream, ROOM)))),
            _ = sweep.tick() => {
                beat::tick(start);
                end_late(&open);
                if local.thread == 0 {
                    local.forget_clients();
                    local.tell();
                }
            }
            _ = signalled(&mut hup) => if let (0, Some(file)) = (local.thread, &file) {
                reload(&local, file);
            },
            _ = signalled(&mut term) => local.stops.store(true, Ordering::Relaxed),
        }
    }
    // (who is connected already is served, and told that his connection ends)
    if local.thread == 0 {
        local.stores.iter().for_each(|it| it.gateways.stop());
    }
    loop {
        tokio::select! {
            biased;
            (accepted, networks) = any(&listeners) => match accepted {
                Ok(stream) => accept(&local, stream, networks, &open),
                Err(_) => break,
            },
            _ = std::future::ready(()) => break,
        }
    }
    drop((listeners, admin));
    tell_systemd(&local, "STOPPING=1");
    stop(&local, &open, start).await;
    Ok(())
}

/// No more are taken; who is between two requests ends, unless one is under way already; others have so long.
async fn stop(local: &Local, open: &Connections, start: Instant) {
    let begun = Instant::now();
    let end = begun + local.live().config.limits.stop_timeout.duration();
    while Instant::now() < end && !open.borrow().is_empty() {
        beat::tick(start);
        open.borrow_mut().retain(|(task, beat)| {
            if beat.is_idle() && begun.elapsed() > UNDER_WAY || beat.is_past() {
                task.abort();
            }
            !task.is_finished()
        });
        tokio::time::sleep(Duration::from_millis(20)).await;
    }
}

fn end_late(open: &Connections) {
    open.borrow_mut().retain(|(task, beat)| {
        if beat.is_past() {
            task.abort();
        }
        !task.is_finished()
    });
}

/// Counts a connection for as long as it lasts.
struct Counted {
    local: Local,
    client: IpAddr,
}

impl Drop for Counted {
    fn drop(&mut self) {
        self.local.connections.fetch_sub(1, Ordering::Relaxed);
        self.local.dismiss(self.client);
    }
}

fn accept(local: &Local, stream: Stream, networks: &[Network], open: &Connections) {
    let address = stream.peer().map_or(IpAddr::V4(Ipv4Addr::LOCALHOST), |it| plain(it.ip()));
    let limits = local.live().config.limits.clone();
    let is_balancer = networks.iter().any(|it| it.contains(address));
    let beat = Beat::new(limits.head_timeout.duration());
    let (own, task_beat) = (local.clone(), beat.clone());
    let task = async move {
        let mut wire = Wire::new(stream, ROOM);
        let client = if is_balancer {
            match proxy_protocol::client(&mut wire).await {
                Ok(it) => it.map_or(address, plain),
                Err(_) => return,
            }
        } else {
            address
        };
        let is_trusted = own.live().config.trust_forwarded.iter().any(|it| it.contains(client));
        if own.connections.fetch_add(1, Ordering::Relaxed) >= limits.connections || !own.admit(client, is_trusted) {
            own.connections.fetch_sub(1, Ordering::Relaxed);
            own.refused.note(client.to_string());
            return add(&own.own().connections_refused, 1);
        }
        let _place = Counted { local: own.clone(), client };
        Client::new(own, wire, task_beat, client, is_trusted).serve().await;
    };
    open.borrow_mut().push((tokio::spawn(task), beat));
}

const PATHS_STAND: &str = "nijpdra-proxy: rules and memory of paths take a new start; what was read before stands";

/// Whether a site has fewer paths than before. (What is stored by the rules of one that went would be found by no request.)
fn loses_paths(old: &Config, new: &Config) -> bool {
    let is_same = |a: &[String], b: &[String]| a.is_empty() && b.is_empty() || a.iter().any(|it| b.iter().any(|own| own.eq_ignore_ascii_case(it)));
    old.site.iter().any(|it| new.site.iter().any(|own| is_same(&it.host, &own.host) && own.path.len() < it.path.len()))
}

/// Reads the file again. What is wrong in it changes nothing; what takes a new start is told.
fn reload(local: &Local, file: &std::path::Path) {
    let old = local.live();
    if let Some(log) = &old.log {
        log.open_again();
    }
    let mut config = match Config::read(file) {
        Ok(it) => it,
        Err(why) => return eprintln!("nijpdra-proxy: {}; what was read before stands", why),
    };
    fits(&mut config);
    if !config.keeps(&old.config) {
        eprintln!("nijpdra-proxy: listen, admin, memory, max_body, threads and rules take a new start; what was read before stands of these");
    }
    let paths = Plans::of(&config).map(|it| local.plans.places(&it));
    let paths = match paths {
        Ok(Some(it)) => it,
        _ => return eprintln!("{}", PATHS_STAND),
    };
    if loses_paths(&old.config, &config) {
        return eprintln!("{}", PATHS_STAND);
    }
    match Live::new(config, old.config.threads(), paths, Some(&old)) {
        Ok(it) => {
            *local.live.write().unwrap_or_else(PoisonError::into_inner) = Arc::new(it);
            eprintln!("nijpdra-proxy: {}: read again", file.display());
        }
        Err(why) => eprintln!("nijpdra-proxy: {}; what was read before stands", why),
    }
}

async fn any(listeners: &[(Listener, Vec<Network>)]) -> (io::Result<Stream>, &[Network]) {
    std::future::poll_fn(|cx| {
        for (listener, networks) in listeners {
            let accepted = match listener {
                Listener::Tcp(it) => it.poll_accept(cx).map_ok(|(it, _)| {
                    it.set_nodelay(true).ok();
                    Stream::Tcp(it)
                }),
                Listener::Unix(it) => it.poll_accept(cx).map_ok(|(it, _)| Stream::Unix(it)),
            };
            if let Poll::Ready(it) = accepted {
                return Poll::Ready((it, &networks[..]));
            }
        }
        Poll::Pending
    })
    .await
}

async fn maybe(listener: &Option<Listener>) -> io::Result<Stream> {
    match listener {
        Some(Listener::Tcp(it)) => it.accept().await.map(|it| Stream::Tcp(it.0)),
        Some(Listener::Unix(it)) => it.accept().await.map(|it| Stream::Unix(it.0)),
        None => std::future::pending().await,
    }
}

async fn signalled(it: &mut Option<Signal>) {
    match it {
        Some(it) => drop(it.recv().await),
        None => std::future::pending().await,
    }
}

/// `Type=notify` of a unit.
fn tell_systemd(local: &Local, what: &str) {
    if let (0, Some(path)) = (local.thread, std::env::var_os("NOTIFY_SOCKET")) {
        let _told = UnixDatagram::unbound().and_then(|it| it.send_to(what.as_bytes(), path));
    }
}
