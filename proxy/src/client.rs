//! A client's connection: its requests one after the other, each an exchange of the gateway. It moves bytes, and does what an out says.
use crate::beat::{Beat, Pace};
use crate::counts::add;
use crate::exchange::{Open, RequestBody, Then};
use crate::log::Line;
use crate::origin::until;
use crate::run::plain;
use crate::shared::{Live, Local, Refusal, Request, Site, TOO_MANY};
use crate::wire::Wire;
use cache_tier::gateway::{ClientEnd, OriginAction, Out, RequestHead, Status};
use std::io;
use std::net::IpAddr;
use std::sync::atomic::Ordering;
use std::sync::Arc;
use std::time::{Duration, Instant};

/// What a client may send ahead while an answer is under way, of which nothing is read.
const MOST_AHEAD: usize = 1 << 16;
const STATUS: &[u8] = b"cache-status:";
/// An answer may take so long up to its next byte: the gateway's own limits end sooner.
const ANSWER: Duration = Duration::from_secs(3600);
/// After the last byte of an answer the other side may have bytes under way: a close with unread bytes would take the answer away.
const LINGER: (Duration, usize) = (Duration::from_secs(2), 1 << 20);

pub struct Client {
    local: Local,
    wire: Wire,
    beat: Beat,
    address: IpAddr,
    /// As origins are told of it.
    peer: String,
    /// It is a balancer, that says whose request it is.
    is_trusted: bool,
    /// It sends nothing more, and may still read.
    has_ended: bool,
}

/// A request's head, and what is known beside it.
struct Asked {
    head: RequestHead,
    /// Its bytes, where a log wants them.
    text: Vec<u8>,
    site: Option<Arc<Site>>,
    /// The place of its store.
    store: usize,
    client: IpAddr,
    refusal: Option<&'static Refusal>,
}

/// A request that the gateway has.
struct Begun {
    open: Open,
    told: Told,
    site: Option<Arc<Site>>,
    client: IpAddr,
    /// Method, target and host, where a log wants them.
    named: Option<(Vec<u8>, Vec<u8>, Vec<u8>)>,
    text: Vec<u8>,
    /// The first out, and so many bytes of it that went, where it has all of the answer.
    out: Option<Out>,
    wrote: Option<usize>,
}

/// What the log says of an answer.
struct Told {
    begun: Instant,
    status: u16,
    sent: u64,
    cache: &'static str,
    /// As Cache-Status has it.
    reason: String,
}

impl Client {
    pub fn new(local: Local, wire: Wire, beat: Beat, address: IpAddr, is_trusted: bool) -> Client {
        Client { local, wire, beat, address, peer: address.to_string(), is_trusted, has_ended: false }
    }

    /// Serves it to its end.
    pub async fn serve(mut self) {
        add(&self.local.own().connections, 1);
        let _ended = self.requests().await;
    }

    async fn requests(&mut self) -> io::Result<()> {
        loop {
            let live = self.local.live();
            let asked = match self.head(&live).await? {
                Some(it) => it,
                None => return Ok(()),
            };
            add(&self.local.own().requests, 1);
            let rate = live.config.limits.requests_by_client;
            if rate > 0 && !self.local.allows(asked.client, rate) {
                add(&self.local.own().requests_limited, 1);
                return self.refuse(&live, &asked, &TOO_MANY).await;
            }
            if let Some(it) = asked.refusal {
                return self.refuse(&live, &asked, it).await;
            }
            let then = match self.at_once(&live, asked) {
                Ok(it) => it,
                // (what waits has much beside it, and who is between two requests hasn't)
                Err(begun) => Box::pin(self.wait(&live, begun)).await?,
            };
            match then {
                Then::NextRequest if !self.local.stops.load(Ordering::Relaxed) => self.wire.rest(),
                Then::Abort => return Ok(()),
                _ => return self.linger().await,
            }
        }
    }

    /// The next request's head. None: the client ended the connection.
    async fn head(&mut self, live: &Live) -> io::Result<Option<Asked>> {
        let limits = &live.config.limits;
        let mut looked = 0;
        if self.wire.is_empty() {
            self.beat.set_idle(true);
            self.beat.lasts(limits.idle_timeout.duration());
            let count = self.wire.receive().await?;
            self.beat.set_idle(false);
            if count == 0 {
                return Ok(None);
            }
        }
        self.beat.lasts(limits.head_timeout.duration());
        let mut slow = Slow { live, beat: &self.beat, client: self.address, begun: Instant::now(), is_whole: false };
        loop {
            match self.local.parse(live, self.wire.bytes(), looked, self.is_trusted) {
                Ok(Request::More) => looked = self.wire.bytes().len(),
                Ok(it) => {
                    let (head, site, store, refusal) = match it {
                        Request::Head(head, site, store) => (head, site, store, None),
                        Request::Refused(head, why) => (head, None, 0, Some(why)),
                        Request::More => continue,
                    };
                    let count = head.head_len().min(self.wire.bytes().len());
                    let bytes = &self.wire.bytes()[..count];
                    let text = if live.log.is_some() { bytes.to_vec() } else { Vec::new() };
                    let client = if self.is_trusted { whose(bytes, self.address, live) } else { self.address };
                    self.wire.consume(count);
                    slow.is_whole = true;
                    return Ok(Some(Asked { head, text, site, store, client, refusal }));
                }
                Err(_) => return Err(io::ErrorKind::OutOfMemory.into()),
            }
            if self.wire.receive().await? == 0 {
                return Ok(None);
            }
        }
    }

    /// Answers a request that the gateway doesn't see, and logs it.
    async fn refuse(&mut self, live: &Live, asked: &Asked, why: &'static Refusal) -> io::Result<()> {
        let head = &asked.head;
        let line = Line {
            client: asked.client,
            method: head.method(),
            target: head.target(),
            host: head.host(),
            referer: field(&asked.text, b"referer:"),
            agent: field(&asked.text, b"user-agent:"),
            status: why.status,
            sent: why.answer.len() as u64,
            took: Duration::ZERO,
            cache: "refused",
            reason: why.reason,
        };
        live.log.iter().for_each(|it| it.write(&line));
        self.wire.send(&[why.answer], |_| ()).await?;
        self.linger().await
    }

    /// One request, where its first out has all of the answer and the kernel takes that at once, as a hit's; else what has begun.
    fn at_once(&mut self, live: &Live, asked: Asked) -> Result<Then, Box<Begun>> {
        let begun = Instant::now();
        let told = Told { begun, status: 0, sent: 0, cache: "generated", reason: String::new() };
        let Asked { head, text, site, store, client, .. } = asked;
        let named = live.log.as_ref().map(|_| (head.method().to_vec(), head.target().to_vec(), head.host().to_vec()));
        self.local.store = store;
        let (handle, out) = self.local.gateways().start(self.local.moment(begun), head, self.peer.as_bytes());
        if out.status() != Status::Done {
            // (memory: where it has a number it was begun)
            Some(handle).filter(|it| it.exchange > 0).map(|it| Open::new(self.local.clone(), it).breaks());
            return Ok(Then::Abort);
        }
        let mut it = Begun { open: Open::new(self.local.clone(), handle), told, site, client, named, text, wrote: None, out: None };
        if out.client() == ClientEnd::End && out.origin() == OriginAction::Nothing && !out.body_follows() {
            it.told.cache = self.local.note(&out).unwrap_or(it.told.cache);
            let pieces: Vec<&[u8]> = out.pieces().collect();
            it.told.status = pieces.first().map_or(0, |it| status_of(it));
            if it.named.is_some() && it.told.cache != "hit" {
                it.told.reason = reason_of(&pieces);
            }
            let all: usize = pieces.iter().map(|it| it.len()).sum();
            let wrote = self.wire.try_send_all(&pieces);
            it.told.sent = wrote as u64;
            if wrote == all {
                self.tell(live, &it);
                return Ok(it.open.ends(Then::NextRequest));
            }
            it.wrote = Some(wrote);
        }
        it.out = Some(out);
        Err(Box::new(it))
    }

    /// The rest of it, up to the answer's last byte.
    async fn wait(&mut self, live: &Arc<Live>, mut begun: Box<Begun>) -> io::Result<Then> {
        self.beat.lasts(ANSWER);
        let then = self.answer(live, &mut begun).await;
        if then.is_err() {
            begun.told.cache = "aborted";
        }
        self.tell(live, &begun);
        then
    }

    /// Counts an answer, and logs it.
    fn tell(&self, live: &Live, it: &Begun) {
        let (told, took) = (&it.told, it.told.begun.elapsed());
        self.local.own().latency.add(took);
        add(&self.local.own().sent_bytes, told.sent);
        if let (Some(log), Some((method, target, host))) = (&live.log, &it.named) {
            let (referer, agent) = (field(&it.text, b"referer:"), field(&it.text, b"user-agent:"));
            log.write(&Line {
                client: it.client,
                method,
                target,
                host,
                referer,
                agent,
                status: told.status,
                sent: told.sent,
                took,
                cache: told.cache,
                reason: &told.reason,
            });
        }
    }

    /// From the first out on: what each says is done, until the client's answer is over.
    async fn answer(&mut self, live: &Arc<Live>, begun: &mut Begun) -> io::Result<Then> {
        let limits = &live.config.limits;
        let pace = || Pace::new(limits.body_timeout.duration(), limits.min_rate.0);
        let (mut down, mut up) = (pace(), pace());
        let Begun { open, told, site, out, wrote, .. } = begun;
        let mut out = match out.take() {
            Some(it) => it,
            None => open.poll(),
        };
        let mut body = RequestBody::new(!out.body_follows());
        if let Some(wrote) = *wrote {
            // (it was noted)
            let rest = behind(out.pieces(), wrote);
            self.write(&rest, &mut down, told).await?;
            return Ok(open.ends(Then::NextRequest));
        }
        loop {
            let is_new = open.waiter.is_none() && matches!(out.client(), ClientEnd::Wait | ClientEnd::Nothing);
            if is_new || out.origin() != OriginAction::Nothing && open.waiter.is_none() {
                open.waiter = Some(self.local.waiters().register(open.handle));
            }
            told.cache = open.obey(&mut body, site, &out).unwrap_or(told.cache);
            if out.status() == Status::Memory {
                return Err(open.breaks());
            }
            let pieces: Vec<&[u8]> = out.pieces().collect();
            self.write(&pieces, &mut down, told).await?;
            match out.client() {
                ClientEnd::End => return Ok(open.ends(Then::NextRequest)),
                ClientEnd::Close => return Ok(open.ends(Then::Close)),
                ClientEnd::Truncated => return Ok(open.ends(Then::Abort)),
                _ => {}
            }
            drop(out);
            out = if is_new { open.poll() } else { self.next(open, &mut body, &mut up).await? };
        }
    }

    /// Waits for what comes next: something for the client, a moment, or bytes of the request's body.
    async fn next(&mut self, open: &mut Open, body: &mut RequestBody, pace: &mut Pace) -> io::Result<Out> {
        let waiter = match &open.waiter {
            Some(it) => it.clone(),
            None => return Ok(open.poll()),
        };
        loop {
            if !body.is_over && body.ahead.is_none() && !self.wire.is_empty() {
                let out = self.local.gateways().request_data(self.local.now(), open.handle, self.wire.bytes());
                self.wire.consume(out.used());
                body.is_over = out.last() || out.status() != Status::Done;
                if out.used() > 0 || body.is_over {
                    return Ok(out);
                }
            }
            let waits = !body.is_over && body.ahead.is_none();
            self.beat.lasts(if waits { pace.begins() } else { ANSWER });
            let reads = !self.has_ended && (waits || body.is_over && self.wire.bytes().len() < MOST_AHEAD);
            let came = tokio::select! {
                biased;
                _ = waiter.woken() => None,
                _ = until(waiter.due()) => None,
                is_sent = body.send(), if body.ahead.is_some() => {
                    if !is_sent {
                        body.ahead = None;
                    }
                    continue;
                }
                count = self.wire.receive(), if reads => Some(count?),
            };
            if waits {
                pace.moves(came.unwrap_or(0));
                pace.rests();
            }
            match came {
                None if waiter.is_broken() => return Err(open.breaks()),
                None => return Ok(open.poll()),
                Some(0) if !body.is_over => return Err(io::ErrorKind::UnexpectedEof.into()),
                // (its own end says only that no more requests come: who is gone is known by what is sent)
                Some(count) => self.has_ended = count == 0,
            }
        }
    }

    /// Writes the pieces that are there.
    async fn write(&mut self, pieces: &[&[u8]], pace: &mut Pace, told: &mut Told) -> io::Result<()> {
        let first = match pieces.first() {
            Some(it) => it,
            None => return Ok(()),
        };
        if told.status < 200 {
            told.status = status_of(first);
            told.reason = reason_of(pieces);
        }
        self.beat.lasts(pace.begins());
        let (beat, sent) = (&self.beat, &mut told.sent);
        let wrote = self.wire.send(pieces, |count| {
            *sent += count as u64;
            beat.lasts(pace.moves(count));
        });
        wrote.await?;
        pace.rests();
        self.beat.lasts(ANSWER);
        Ok(())
    }

    /// Lets the other side read what was sent.
    async fn linger(&mut self) -> io::Result<()> {
        self.beat.lasts(LINGER.0);
        self.wire.shutdown().await?;
        let mut read = 0;
        while read < LINGER.1 {
            let count = self.wire.receive().await?;
            if count == 0 {
                break;
            }
            read += count;
            self.wire.consume(count);
        }
        Ok(())
    }
}

/// The pieces without so many bytes.
fn behind<'a>(pieces: impl Iterator<Item = &'a [u8]>, mut count: usize) -> Vec<&'a [u8]> {
    let rest = pieces.map(|it| {
        let gone = count.min(it.len());
        count -= gone;
        &it[gone..]
    });
    rest.filter(|it| !it.is_empty()).collect()
}

/// The status of an answer, whose first bytes the gateway gave.
fn status_of(piece: &[u8]) -> u16 {
    piece.get(9..12).map_or(0, |it| it.iter().fold(0, |sum, it| sum * 10 + u16::from(it.wrapping_sub(b'0') % 10)))
}

/// The detail of the proxy's own element of Cache-Status, in an answer's first pieces; none is "".
fn reason_of(pieces: &[&[u8]]) -> String {
    let mut head = Vec::new();
    for it in pieces {
        head.extend_from_slice(&it[..it.len().min(MOST_AHEAD)]);
        if head.windows(4).any(|it| it == b"\r\n\r\n") {
            break;
        }
    }
    let lines = head.split(|it| *it == b'\n').take_while(|it| **it != *b"\r");
    let line = lines.filter(|it| it.len() > STATUS.len() && it[..STATUS.len()].eq_ignore_ascii_case(STATUS)).last().unwrap_or(b"");
    let line = String::from_utf8_lossy(line);
    let own = line.rsplit(", ").next().unwrap_or("");
    own.split("; detail=").nth(1).map_or(String::new(), |it| it.split(';').next().unwrap_or("").trim().to_string())
}

/// Logs a head that didn't come in time: who is past his time is ended by the sweeper, which drops this.
struct Slow<'a> {
    live: &'a Live,
    beat: &'a Beat,
    client: IpAddr,
    begun: Instant,
    is_whole: bool,
}

impl Drop for Slow<'_> {
    fn drop(&mut self) {
        if self.is_whole || !self.beat.is_past() {
            return;
        }
        let (client, took) = (self.client, self.begun.elapsed());
        let line = Line {
            client,
            method: b"",
            target: b"",
            host: b"",
            referer: b"",
            agent: b"",
            status: 408,
            sent: 0,
            took,
            cache: "aborted",
            reason: "head-timeout",
        };
        self.live.log.iter().for_each(|it| it.write(&line));
    }
}

/// Whose request it is: of the addresses in X-Forwarded-For the last one that isn't a balancer's. It counts for the log and for limits alone.
fn whose(head: &[u8], peer: IpAddr, live: &Live) -> IpAddr {
    let lines = String::from_utf8_lossy(field(head, b"x-forwarded-for:"));
    let is_own = |it: &IpAddr| live.config.trust_forwarded.iter().any(|own| own.contains(*it));
    let known = lines.rsplit(',').map(|it| it.trim().parse()).take_while(Result::is_ok).flatten();
    known.map(plain).find(|it| !is_own(it)).unwrap_or(peer)
}

/// A field's value, for the log alone; the name is in small letters and has its colon.
fn field<'a>(head: &'a [u8], name: &[u8]) -> &'a [u8] {
    let line = head.split(|it| *it == b'\n').find(|it| it.len() >= name.len() && it[..name.len()].eq_ignore_ascii_case(name));
    let value = line.map_or(&[][..], |it| &it[name.len()..]);
    let from = value.iter().position(|it| !it.is_ascii_whitespace()).unwrap_or(value.len());
    let to = value.iter().rposition(|it| !it.is_ascii_whitespace()).map_or(from, |it| it + 1);
    &value[from..to]
}
