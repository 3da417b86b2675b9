//! A caching reverse proxy over the gateway: a mover of bytes over threads of the standard library, and nothing else. It isn't for load.
//!
//! `proxy PORT ORIGIN_PORT [NAME=VALUE ..]`, where NAME is one of `set`; of `settings=` the lines stand between semicolons. A client's connection has a thread,
//! one more while a request's body comes, and so has the origin's side of an exchange. One lock is round the gateway and what belongs to its exchanges: what a call asks for is noted under
//! it, in the order of calls, and written behind it.
use cache_tier::gateway::{ClientEnd, Closed, Gateway, Limits, OriginAction, Out, Parsed, Parser, Status};
use cache_tier::{rules::Options, Moment};
use std::collections::{HashMap, HashSet, VecDeque};
use std::io::{Read, Write};
use std::net::{Shutdown, TcpListener, TcpStream};
use std::sync::{Arc, Condvar, Mutex, MutexGuard};
use std::time::{Duration, SystemTime, UNIX_EPOCH};

const PIECE: usize = 1 << 16;
const PATIENCE: Duration = Duration::from_secs(60);

/// Never less than last time: the host's clock may be set back.
fn now() -> Moment {
    static LATEST: Mutex<Duration> = Mutex::new(Duration::ZERO);
    let mut latest = LATEST.lock().unwrap();
    *latest = SystemTime::now().duration_since(UNIX_EPOCH).unwrap_or_default().max(*latest);
    Moment { seconds: latest.as_secs(), nanoseconds: latest.subsec_nanos() }
}

fn since_1970(at: Moment) -> Duration {
    Duration::new(at.seconds, at.nanoseconds)
}

/// Someone who waits, and whether he was woken.
#[derive(Default)]
struct Bell(Mutex<bool>, Condvar);

impl Bell {
    fn ring(&self) {
        *self.0.lock().unwrap() = true;
        self.1.notify_all();
    }

    fn wait(&self, patience: Duration) {
        let rung = self.0.lock().unwrap();
        let (mut rung, _) = self.1.wait_timeout_while(rung, patience, |it| !*it).unwrap();
        *rung = false;
    }
}

/// The connection to the origin of one exchange.
#[derive(Default)]
struct Origin {
    unsent: Mutex<VecDeque<Vec<u8>>>,
    turn: Mutex<()>,
    stream: Mutex<Option<Arc<TcpStream>>>,
    goes_on: Bell,
}

impl Origin {
    /// Writes what is there, in its order; before it is connected nothing.
    fn flush(&self) {
        let _turn = self.turn.lock().unwrap();
        let stream = self.stream.lock().unwrap().clone();
        while let Some(stream) = &stream {
            let next = self.unsent.lock().unwrap().pop_front();
            match next {
                // (where that fails an answer may have come before the request was whole)
                Some(it) => drop((&**stream).write_all(&it)),
                None => return,
            }
        }
    }

    fn close(&self) {
        self.stream.lock().unwrap().iter().for_each(|it| drop(it.shutdown(Shutdown::Both)));
    }
}

struct State {
    gateway: Gateway,
    origins: HashMap<u64, Arc<Origin>>,
    clients: HashMap<u64, Arc<Bell>>,
    due: HashMap<u64, Moment>,
    /// Where memory ran out, perhaps in the middle of a call: these are ended.
    broken: HashSet<u64>,
}

#[derive(Clone)]
struct Mover {
    state: Arc<Mutex<State>>,
    parser: Parser,
    origin: u16,
}

impl Mover {
    fn state(&self) -> MutexGuard<'_, State> {
        self.state.lock().unwrap()
    }

    /// A call, and what it asks for besides of its own client.
    fn call(&self, x: u64, call: impl FnOnce(&mut Gateway) -> Out) -> Out {
        let mut state = self.state();
        let out = call(&mut state.gateway);
        let origin = self.obey(&mut state, x, &out);
        drop(state);
        origin.iter().for_each(|it| it.flush());
        out
    }

    /// Notes what an out asks for: in the order of calls, under the lock. Whom to flush.
    fn obey(&self, state: &mut State, x: u64, out: &Out) -> Option<Arc<Origin>> {
        for it in out.wakes().map(|it| it.exchange) {
            match state.clients.get(&it) {
                Some(bell) => bell.ring(),
                None => {
                    let out = state.gateway.poll(now(), it);
                    self.obey(state, it, &out);
                }
            }
        }
        if out.status() == Status::Memory {
            state.broken.insert(x);
            state.clients.values().for_each(|it| it.ring());
        }
        state.due.remove(&x);
        state.due.extend(out.at().filter(|_| !state.clients.contains_key(&x)).map(|at| (x, at)));
        match out.origin() {
            OriginAction::SendRequest => {
                let origin = Arc::new(Origin::default());
                origin.unsent.lock().unwrap().push_back(out.to_origin().to_vec());
                state.origins.insert(x, origin.clone()).iter().for_each(|old| old.close());
                let own = self.clone();
                std::thread::spawn(move || own.fetch(x, &origin));
            }
            OriginAction::SendData => {
                let origin = state.origins.get(&x)?;
                origin.unsent.lock().unwrap().push_back(out.to_origin().to_vec());
                return Some(origin.clone());
            }
            OriginAction::Continue => state.origins.get(&x)?.goes_on.ring(),
            // (one that may serve another exchange isn't kept here)
            OriginAction::CloseOrigin | OriginAction::Reusable => state.origins.remove(&x)?.close(),
            _ => {}
        }
        None
    }

    /// The origin's side of an exchange, on a connection of its own.
    fn fetch(&self, x: u64, origin: &Arc<Origin>) {
        let connected = TcpStream::connect(("127.0.0.1", self.origin));
        let why = connected.map_or(Some(Closed::Failed), |it| self.read(x, origin, &Arc::new(it)));
        if let Some(why) = why.filter(|_| self.has(x, origin)) {
            self.call(x, |it| it.origin_closed(now(), x, why));
        }
    }

    /// Reads till the exchange wants nothing more, or till the connection's end.
    fn read(&self, x: u64, origin: &Arc<Origin>, stream: &Arc<TcpStream>) -> Option<Closed> {
        *origin.stream.lock().unwrap() = Some(stream.clone());
        origin.flush();
        let (mut rest, mut is_body) = (Vec::new(), false);
        loop {
            match read_more(stream, &mut rest) {
                Ok(0) => return Some(Closed::Clean),
                Ok(_) if self.give(x, origin, &mut rest, &mut is_body) => {}
                Ok(_) => return None,
                Err(_) => return Some(Closed::Failed),
            }
        }
    }

    /// Gives what came; whether more is read on this connection.
    fn give(&self, x: u64, origin: &Arc<Origin>, rest: &mut Vec<u8>, is_body: &mut bool) -> bool {
        while !rest.is_empty() {
            let of_body = *is_body;
            let out = self.call(x, |it| if of_body { it.response_data(now(), x, rest) } else { it.response_head(now(), x, rest) });
            rest.drain(..out.used());
            let begins = out.origin() == OriginAction::ReceiveBody;
            *is_body |= begins;
            if !self.has(x, origin) || matches!(out.status(), Status::NoExchange | Status::WrongPhase) {
                return false;
            }
            if out.status() == Status::Blocked {
                origin.goes_on.wait(PATIENCE);
            } else if out.used() == 0 && !begins {
                break;
            }
        }
        true
    }

    /// Whether this is the exchange's connection still.
    fn has(&self, x: u64, origin: &Arc<Origin>) -> bool {
        self.state().origins.get(&x).map_or(false, |it| Arc::ptr_eq(it, origin))
    }

    /// A client's exchange, from its head on.
    fn answer(&self, mut stream: &TcpStream, rest: &mut Vec<u8>) -> std::io::Result<ClientEnd> {
        let mut looked = 0;
        let request = loop {
            match self.parser.parse_request(rest, looked) {
                Ok(Parsed::Head(it)) => break it,
                Ok(Parsed::More) => looked = rest.len(),
                Err(_) => return Ok(ClientEnd::Close),
            }
            if read_more(stream, rest)? == 0 {
                return Ok(ClientEnd::Close);
            }
        };
        let bell = Arc::new(Bell::default());
        let mut state = self.state();
        let mut out = state.gateway.start(now(), request, b"127.0.0.1");
        let x = out.exchange();
        state.clients.insert(x, bell.clone());
        self.obey(&mut state, x, &out);
        drop(state);
        rest.drain(..out.used());
        let feeds = out.body_follows();
        let (own, of_body, mut ahead) = (self.clone(), stream.try_clone()?, if feeds { std::mem::take(rest) } else { Vec::new() });
        let feeding = feeds.then(|| std::thread::spawn(move || (own.feed(x, &of_body, &mut ahead), ahead).1));
        let end = loop {
            let wrote = out.pieces().try_for_each(|it| stream.write_all(it));
            let is_broken = self.state().broken.remove(&x);
            match out.client() {
                _ if is_broken => break self.call(x, |it| it.origin_closed(now(), x, Closed::Failed)).client(),
                _ if wrote.is_err() => break ClientEnd::Truncated,
                ClientEnd::Wait => bell.wait(out.at().map_or(PATIENCE, |at| since_1970(at).saturating_sub(since_1970(now())).min(PATIENCE))),
                other => break other,
            }
            out = self.call(x, |it| it.poll(now(), x));
        };
        self.state().clients.remove(&x);
        self.call(x, |it| it.client_closed(now(), x));
        let _ended = if end == ClientEnd::End { Ok(()) } else { stream.shutdown(Shutdown::Both) };
        feeding.map(|it| *rest = it.join().unwrap_or_default());
        Ok(end)
    }

    /// The body of a request; what is left behind it is the next one's.
    fn feed(&self, x: u64, stream: &TcpStream, ahead: &mut Vec<u8>) {
        loop {
            let out = self.call(x, |it| it.request_data(now(), x, ahead));
            ahead.drain(..out.used());
            if out.last() || out.status() != Status::Done {
                return;
            }
            if out.used() == 0 && !matches!(read_more(stream, ahead), Ok(1..)) {
                self.call(x, |it| it.client_closed(now(), x));
                return self.state().clients.get(&x).map_or((), |it| it.ring());
            }
        }
    }

    /// Polls the exchanges that nobody waits for once their moments have come.
    fn tick(&self) {
        std::thread::sleep(Duration::from_millis(100));
        let (mut state, at) = (self.state(), now());
        let due: Vec<u64> = state.due.iter().filter(|it| *it.1 <= at).map(|it| *it.0).collect();
        for x in due {
            let out = state.gateway.poll(at, x);
            self.obey(&mut state, x, &out);
        }
    }
}

fn read_more(mut stream: &TcpStream, rest: &mut Vec<u8>) -> std::io::Result<usize> {
    let had = rest.len();
    rest.resize(had + PIECE, 0);
    let read = stream.read(&mut rest[had..]);
    rest.truncate(had + *read.as_ref().unwrap_or(&0));
    read
}

fn set(options: &mut Options, limits: &mut Limits, text: &str) {
    let (name, value) = text.split_once('=').expect("NAME=VALUE");
    match name {
        "settings" => options.settings = value.replace(';', "\n"),
        "max_bytes" => limits.max_bytes = value.parse().expect("a number"),
        "max_field_bytes" => options.max_field_bytes = value.parse().expect("a number"),
        "honor_request_directives" => options.honor_request_directives = value == "True",
        "add_x_forwarded_for" => options.add_x_forwarded_for = value == "True",
        "fill_on_head" => options.fill_on_head = value == "True",
        "fill_on_range" => options.fill_on_range = value == "True",
        _ => panic!("there is no option {}", name),
    }
}

fn main() {
    let words: Vec<String> = std::env::args().skip(1).collect();
    let (mut options, mut limits) = (Options::default(), Limits::default());
    words.iter().skip(2).for_each(|it| set(&mut options, &mut limits, it));
    let mut secret = [0; 16];
    std::fs::File::open("/dev/urandom").unwrap().read_exact(&mut secret).unwrap();
    let gateway = Gateway::new(now(), &secret, &limits, &options).expect("options, and memory");
    let parser = gateway.parser();
    let state = State { gateway, origins: HashMap::new(), clients: HashMap::new(), due: HashMap::new(), broken: HashSet::new() };
    let mover = Mover { state: Arc::new(Mutex::new(state)), parser, origin: words[1].parse().expect("a port") };
    let ticks = mover.clone();
    std::thread::spawn(move || std::iter::repeat(()).for_each(|_| ticks.tick()));
    for stream in TcpListener::bind(("127.0.0.1", words[0].parse::<u16>().expect("a port"))).unwrap().incoming().flatten() {
        let own = mover.clone();
        std::thread::spawn(move || {
            let mut rest = Vec::new();
            while matches!(own.answer(&stream, &mut rest), Ok(ClientEnd::End)) {}
        });
    }
}
