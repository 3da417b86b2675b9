//! A cache by a lifetime, and one by HTTP's rules: a hit is served, a miss is fetched and stored. The origin is made up.
use cache_tier::rules::{Exchange, Parsed, Reuse, Rules, Store};
use cache_tier::{Error, Meta, Moment, Options, Tier};

fn load(tier: &mut Tier, url: &[u8], now: Moment, fetch: impl FnOnce() -> (Vec<u8>, Vec<u8>)) -> Result<Vec<u8>, Error> {
    if let Some(stored) = tier.get(now, url)? {
        return Ok(stored.body().to_vec()); // a hit
    }
    let (head, body) = fetch(); // a miss
    tier.put(now, url, &head, &body, &Meta::ttl(now, 60))?;
    Ok(body)
}
fn whole<T>(parsed: Parsed<T>) -> T {
    match parsed {
        Parsed::Complete { head, .. } => head,
        _ => panic!("a whole head that reads"),
    }
}
fn load_by_rules(tier: &mut Tier, http: &Rules, data: &[u8], now: Moment, fetch: impl FnOnce() -> (Vec<u8>, Vec<u8>)) -> Result<Vec<u8>, Error> {
    let request = whole(http.parse_request(data, Vec::new())?);
    if let Some(stored) = tier.get(now, request.key())? {
        if let Reuse::Fresh = http.decide_reuse(&request, (&stored).into(), now)? {
            return Ok(stored.body().to_vec());
        }
    }
    let (head, body) = fetch();
    let response = whole(http.parse_response(false, now, &head, Vec::new())?);
    let exchange = Exchange { request: &request, response: &response, head_request: false, request_time: now, response_time: now, vary_index: b"" };
    if let Store::Store(it) = http.decide_store(&exchange, None, Vec::new())? {
        tier.put(now, request.key(), it.head(), &body, &it.meta())?;
    }
    Ok(body)
}

fn main() -> Result<(), Error> {
    let (mut tier, http, mut fetches) = (Tier::new(&Options::new(1 << 30, 2))?, Rules::default(), 0);
    let answer = |control: &str| (format!("HTTP/1.1 200 OK\r\nCache-Control: {}\r\nContent-Length: 5\r\n\r\n", control).into_bytes(), b"hello".to_vec());
    let moments = [1000, 1059, 1060].map(Moment::at);
    for now in moments {
        load(&mut tier, b"/a", now, || {
            fetches += 1;
            answer("max-age=60")
        })?;
    }
    println!("/a: {} fetches", fetches);
    for (path, control) in [("/r", "max-age=60"), ("/p", "private, max-age=60")] {
        fetches = 0;
        let data = format!("GET {} HTTP/1.1\r\nHost: a.example\r\n\r\n", path).into_bytes();
        for now in moments {
            load_by_rules(&mut tier, &http, &data, now, || {
                fetches += 1;
                answer(control)
            })?;
        }
        println!("{}: {} fetches", path, fetches);
    }
    Ok(())
}
