//! The gateway: a miss stored, a hit, a follower, a 304, purges, a stop, unlawful calls; and partitions by threads.
#![cfg(cache_gateway)]
use cache_tier::gateway::{ClientEnd, Closed, Counts, Event, Fetch, Gateway, Gateways, Handle, Limits, OriginAction, Out, Parsed, RequestHead, Reuse, Status};
use cache_tier::rules::{Options, Reason};
use cache_tier::{Digest, Error, ErrorKind, Moment};

const SECRET: &[u8] = b"sixteen random..";
const FRESH: &[u8] = b"HTTP/1.1 200 OK\r\nCache-Control: max-age=10\r\nETag: \"1\"\r\nContent-Length: 4\r\n\r\n";

fn at(seconds: u64) -> Moment {
    Moment::at(seconds)
}
fn made() -> Gateway {
    Gateway::new(at(1000), SECRET, &Limits::default(), &Options::default()).unwrap()
}
fn get(path: &str) -> Vec<u8> {
    format!("GET {path} HTTP/1.1\r\nHost: a.example\r\n\r\n").into_bytes()
}
fn whole(parsed: Result<Parsed, Error>) -> RequestHead {
    match parsed {
        Ok(Parsed::Head(head)) => head,
        other => panic!("{other:?}"),
    }
}
fn starts(gateway: &mut Gateway, now: u64, head: &[u8]) -> Out {
    let request = whole(gateway.parse_request(head, 0));
    gateway.start(at(now), request, b"127.0.0.1")
}
fn text(out: &Out) -> String {
    String::from_utf8_lossy(&out.pieces().collect::<Vec<_>>().concat()).into_owned()
}
fn stored(gateway: &mut Gateway, now: u64) {
    let x = starts(gateway, now, &get("/a")).exchange();
    assert_eq!(gateway.response_head(at(now), x, FRESH).origin(), OriginAction::ReceiveBody);
    assert_eq!(gateway.response_data(at(now), x, b"page").used(), 4);
    let out = gateway.poll(at(now), x);
    assert!(out.client() == ClientEnd::End && text(&out).ends_with("\r\n\r\npage"), "{out:?}");
}

#[test]
fn a_head_is_parsed_as_it_comes() {
    let mut gateway = made();
    let head = get("/a");
    assert!(matches!(gateway.parse_request(&head[..head.len() - 1], 0), Ok(Parsed::More)));
    let request = whole(gateway.parse_request(&head, head.len() - 1));
    assert_eq!((request.head_len(), request.key(), request.is_rejected()), (head.len(), &b"http://a.example/a"[..], false));
    assert_eq!((request.partition(7), request.partition(0)), (Digest::of(request.key()).partition(7), 0));
    assert_eq!((request.method(), request.host(), request.target()), (&b"GET"[..], &b"a.example"[..], &b"/a"[..]));
    drop(request);
    let parser = gateway.parser();
    let bad = whole(parser.parse_request(b"GET / HTTP/1.1\r\nHost : a\r\n\r\n", 0));
    assert!(bad.is_rejected() && bad.key().is_empty());
    let out = gateway.start(at(1000), bad, b"");
    assert!(text(&out).starts_with("HTTP/1.1 400 ") && out.client() == ClientEnd::Close);
    let reasons = out.events().filter_map(|it| match it {
        Event::Generated(400, number) => Some(Reason::from_word(number).as_str()),
        _ => None,
    });
    assert_eq!((reasons.collect::<Vec<_>>(), Reason::from_word(0)), (vec!["blank-before-colon"], Reason::Unknown));
}

#[test]
fn a_hit_is_one_call_and_outlives_all() {
    let mut gateway = made();
    stored(&mut gateway, 1000);
    let out = starts(&mut gateway, 1002, &get("/a"));
    assert_eq!((out.client(), out.origin(), gateway.exchanges()), (ClientEnd::End, OriginAction::Nothing, 0));
    assert_eq!(out.events().collect::<Vec<_>>(), [Event::Hit(Reuse::Fresh)]);
    let purged = gateway.purge(b"http://a.example/a");
    assert!(purged.found() && !gateway.purge(b"http://a.example/a").found());
    drop(gateway);
    let read = std::thread::spawn(move || out.pieces().last() == Some(&b"page"[..]));
    assert!(read.join().unwrap());
}

#[test]
fn who_comes_meanwhile_follows() {
    let mut gateway = made();
    let out = starts(&mut gateway, 1000, &get("/a"));
    let key = Some(Digest::of(b"http://a.example/a"));
    assert_eq!((out.origin(), out.client()), (OriginAction::SendRequest, ClientEnd::Wait));
    assert_eq!(out.events().next(), Some(Event::Requested { fetch: Fetch::Full, key, leads: true }));
    let (x, waits) = (out.exchange(), starts(&mut gateway, 1000, &get("/a")));
    assert_eq!((waits.origin(), waits.client(), waits.at()), (OriginAction::Nothing, ClientEnd::Wait, Some(at(1010))));
    assert_eq!(gateway.response_head(at(1000), x, b"HTTP/1.1").status(), Status::NeedMore);
    let out = gateway.response_head(at(1000), x, FRESH);
    assert_eq!((out.used(), out.wakes().count()), (FRESH.len(), 2));
    gateway.response_data(at(1000), x, b"pa");
    let y = waits.exchange();
    let out = gateway.poll(at(1000), y);
    assert!(text(&out).ends_with("\r\n\r\npa") && out.events().any(|it| it == Event::Collapsed(Reuse::Fresh)));
    assert_eq!(gateway.response_data(at(1000), x, b"ge").origin(), OriginAction::Reusable);
    let out = gateway.poll(at(1000), y);
    assert_eq!((text(&out).as_str(), out.client()), ("ge", ClientEnd::End));
}

#[test]
fn what_it_holds_is_told() {
    let mut gateway = made();
    assert_eq!(gateway.counts(), Counts::default());
    stored(&mut gateway, 1000);
    let one = gateway.counts();
    assert!(one.exchanges == 0 && one.weight >= 4 && one.tracked == 1, "{one:?}");
    starts(&mut gateway, 1000, &get("/b"));
    let two = gateway.counts();
    assert_eq!((two.exchanges, two.weight, two.tracked), (1, one.weight, 1));
    gateway.purge(b"http://a.example/a");
    let none = gateway.counts();
    assert_eq!((none.exchanges, none.weight, none.tracked), (1, 0, 0));
}

#[test]
fn a_304_renews() {
    let mut gateway = made();
    stored(&mut gateway, 1000);
    let out = starts(&mut gateway, 1020, &get("/a"));
    assert!(String::from_utf8_lossy(out.to_origin()).contains("\r\nIf-None-Match: \"1\"\r\n"));
    let x = out.exchange();
    let out = gateway.response_head(at(1020), x, b"HTTP/1.1 304 Not Modified\r\nETag: \"1\"\r\nCache-Control: max-age=10\r\n\r\n");
    assert!(out.events().any(|it| matches!(it, Event::Freshened(Some(_)))));
    assert!(text(&gateway.poll(at(1020), x)).ends_with("\r\n\r\npage"));
    assert_eq!(starts(&mut gateway, 1025, &get("/a")).events().next(), Some(Event::Hit(Reuse::Fresh)));
}

#[test]
fn what_is_purged_in_flight_is_not_stored() {
    let mut gateway = made();
    let x = starts(&mut gateway, 1000, &get("/a")).exchange();
    assert!(!gateway.purge_key(b"http://a.example/a").found());
    assert!(gateway.response_head(at(1000), x, FRESH).events().any(|it| it == Event::Relayed(200)));
    gateway.response_data(at(1000), x, b"page");
    assert!(text(&gateway.poll(at(1000), x)).contains("detail=purged"));
    assert_eq!(starts(&mut gateway, 1000, &get("/a")).origin(), OriginAction::SendRequest);
    assert_eq!(gateway.purge(b"http://a.example/ a").status(), Status::BadArgument);
}

#[test]
fn everything_is_purged() {
    let mut gateway = made();
    stored(&mut gateway, 1000);
    let x = starts(&mut gateway, 1000, &get("/b")).exchange();
    assert_eq!(gateway.purge_all(Moment { seconds: 1, nanoseconds: 1_000_000_000 }).status(), Status::BadArgument);
    assert_eq!(starts(&mut gateway, 1001, &get("/a")).events().next(), Some(Event::Hit(Reuse::Fresh)));
    let out = gateway.purge_all(at(1001));
    assert_eq!((out.status(), out.events().collect::<Vec<_>>()), (Status::Done, vec![Event::PurgedAll]));
    gateway.response_head(at(1001), x, FRESH);
    gateway.response_data(at(1001), x, b"page");
    assert!(text(&gateway.poll(at(1001), x)).contains("detail=purged"));
    stored(&mut gateway, 1002);
    assert_eq!(starts(&mut gateway, 1003, &get("/a")).client(), ClientEnd::End);
}

#[test]
fn who_asks_after_a_stop_is_told_to_go() {
    let mut gateway = made();
    stored(&mut gateway, 1000);
    gateway.stop();
    let out = starts(&mut gateway, 1001, &get("/a"));
    assert!(out.client() == ClientEnd::Close && text(&out).contains("\r\nConnection: close\r\n"), "{out:?}");
}

#[test]
fn an_index_of_vary_is_told() {
    let mut gateway = made();
    let head = b"HTTP/1.1 200 OK\r\nCache-Control: max-age=10\r\nVary: Accept\r\nContent-Length: 0\r\n\r\n";
    let x = starts(&mut gateway, 1000, &get("/v")).exchange();
    let told = gateway.response_head(at(1000), x, head);
    assert!(told.events().any(|it| it == Event::VaryIndex(Some(Digest::of(b"http://a.example/v")))));
    assert_eq!(starts(&mut gateway, 1001, &get("/v")).events().next(), Some(Event::Hit(Reuse::Fresh)));
}

#[test]
fn a_body_goes_to_the_origin() {
    let mut gateway = made();
    let out = starts(&mut gateway, 1000, b"POST /b HTTP/1.1\r\nHost: a.example\r\nContent-Length: 5\r\n\r\n");
    assert!(out.body_follows());
    let out = gateway.request_data(at(1000), out.exchange(), b"hello!");
    assert_eq!((out.used(), out.last(), out.origin(), out.to_origin()), (5, true, OriginAction::SendData, &b"hello"[..]));
}

#[test]
fn unlawful_calls_change_nothing() {
    let mut gateway = made();
    let x = starts(&mut gateway, 1000, &get("/a")).exchange();
    assert_eq!(gateway.poll(at(1000), x + 1).status(), Status::NoExchange);
    assert_eq!(gateway.response_data(at(1000), x, b"x").status(), Status::WrongPhase);
    assert_eq!(gateway.request_data(at(1000), x, b"x").status(), Status::WrongPhase);
    assert_eq!(gateway.poll(Moment { seconds: 1, nanoseconds: 1_000_000_000 }, x).status(), Status::BadArgument);
    assert_eq!(gateway.exchanges(), 1);
    gateway.client_closed(at(1000), x);
    gateway.origin_closed(at(1000), x, Closed::Failed);
    assert_eq!(gateway.exchanges(), 0);
    let refused = |secret, limits: &Limits, settings| Gateway::new(at(1000), secret, limits, &Options::default().with_settings(settings)).unwrap_err().kind;
    let mut late = Limits::default();
    late.lock_age = u64::MAX;
    assert_eq!(refused(b"short", &Limits::default(), ""), ErrorKind::BadArgument);
    assert_eq!(refused(SECRET, &late, ""), ErrorKind::BadArgument);
    assert_eq!(refused(SECRET, &Limits::default(), "nothing: like it"), ErrorKind::BadArgument);
    assert!(Gateways::new(0, at(1000), SECRET, &Limits::default(), &Options::default()).is_err());
}

fn opens(all: &Gateways, head: &[u8]) -> (Handle, Out) {
    all.start(at(1000), whole(all.parse_request(head, 0)), b"")
}
#[test]
fn what_another_partition_has_goes_before_the_answer() {
    let all = Gateways::new(3, at(1000), SECRET, &Limits::default(), &Options::default()).unwrap();
    let paths: Vec<String> = (0..8).map(|it| format!("/{it}")).collect();
    for path in &paths {
        let (x, _) = opens(&all, &get(path));
        all.response_head(at(1000), x, FRESH);
        all.response_data(at(1000), x, b"page");
        assert_eq!(all.poll(at(1000), x).client(), ClientEnd::End);
    }
    assert_eq!((0..3).filter_map(|it| all.counts(it)).map(|it| it.tracked).sum::<u64>(), 8);
    for path in &paths {
        assert_eq!(opens(&all, &get(path)).1.client(), ClientEnd::End);
        let (x, _) = opens(&all, b"POST /x HTTP/1.1\r\nHost: a.example\r\nContent-Length: 0\r\n\r\n");
        all.response_head(at(1000), x, format!("HTTP/1.1 201 Created\r\nLocation: {path}\r\nContent-Length: 0\r\n\r\n").as_bytes());
        assert_eq!(all.poll(at(1000), x).client(), ClientEnd::End);
        let (x, told) = opens(&all, &get(path));
        assert_eq!(told.origin(), OriginAction::SendRequest);
        all.origin_closed(at(1000), x, Closed::Failed);
        all.client_closed(at(1000), x);
    }
    assert!(!all.purge(b"http://a.example/1").found());
    assert_eq!(all.purge_all(at(1000)).status(), Status::Done);
    all.stop();
    for path in &paths {
        let (x, told) = opens(&all, &get(path));
        assert_eq!(told.origin(), OriginAction::SendRequest);
        all.origin_closed(at(1000), x, Closed::Failed);
        assert_eq!(all.poll(at(1000), x).client(), ClientEnd::Close);
    }
    assert_eq!(all.poll(at(1000), Handle { partition: 3, exchange: 1 }).status(), Status::NoExchange);
    assert_eq!(all.exchanges(), 0);
    assert_eq!(all.counts(3), None);
}
#[test]
fn by_threads() {
    let all = Gateways::new(4, at(1000), SECRET, &Limits::default(), &Options::default()).unwrap();
    let asks = |seed: usize| {
        let all = all.clone();
        std::thread::spawn(move || {
            for i in 0..2000 {
                let (x, mut told) = opens(&all, &get(&format!("/{}", i * seed % 40)));
                while told.client() == ClientEnd::Wait {
                    if told.origin() == OriginAction::SendRequest {
                        all.response_head(at(1000), x, FRESH);
                        all.response_data(at(1000), x, b"page");
                    }
                    told = all.poll(at(1000), x);
                    assert_eq!(told.status(), Status::Done);
                }
                assert_eq!(told.client(), ClientEnd::End);
            }
        })
    };
    let threads: Vec<_> = [1, 3, 7, 11].iter().map(|seed| asks(*seed)).collect();
    assert!(threads.into_iter().all(|it| it.join().is_ok()));
    assert_eq!(all.exchanges(), 0);
}
