//! The operator's address: counts for Prometheus, whether it serves, and purges by URL or of everything. It isn't for strangers.
use crate::counts::BUCKETS;
use crate::shared::{Local, Partition};
use crate::wire::Wire;
use std::fmt::Write;
use std::io;
use std::sync::atomic::Ordering;
use std::time::Duration;

const MOST_HEAD: usize = 8192;
const MOST_BODY: usize = 1 << 20;
const PATIENCE: Duration = Duration::from_secs(60);
const USAGE: &str = "GET /metrics, GET /healthz, POST /purge (URLs, a line each; * is everything)\n";

pub async fn serve(local: Local, wire: Wire) {
    let _ended = tokio::time::timeout(PATIENCE, answer(&local, wire)).await;
}

async fn answer(local: &Local, mut wire: Wire) -> io::Result<()> {
    let end = loop {
        match wire.bytes().windows(4).position(|it| it == b"\r\n\r\n") {
            Some(at) => break at + 4,
            None if wire.bytes().len() > MOST_HEAD || wire.receive().await? == 0 => return Ok(()),
            None => {}
        }
    };
    let head = String::from_utf8_lossy(&wire.bytes()[..end]).into_owned();
    wire.consume(end);
    let mut words = head.split(' ');
    // (who only looks whether it is well asks by HEAD)
    let (method, path) = (words.next(), words.next());
    let is_head = method == Some("HEAD");
    let (status, text) = match (if is_head { Some("GET") } else { method }, path) {
        (Some("GET"), Some("/metrics")) => ("200 OK", metrics(local)),
        (Some("GET"), Some("/healthz")) if !local.stops.load(Ordering::Relaxed) => ("200 OK", "ok\n".to_string()),
        (Some("GET"), Some("/healthz")) => ("503 Service Unavailable", "stopping\n".to_string()),
        (Some("POST"), Some("/purge")) => match body(&head, &mut wire).await? {
            Some(urls) => purge(local, &urls),
            None => ("411 Length Required", format!("a Content-Length of at most {} bytes\n", MOST_BODY)),
        },
        _ => ("404 Not Found", USAGE.to_string()),
    };
    let head = format!("HTTP/1.1 {}\r\nContent-Type: text/plain; version=0.0.4\r\nContent-Length: {}\r\nConnection: close\r\n\r\n", status, text.len());
    let body = if is_head { &[] } else { text.as_bytes() };
    wire.send(&[head.as_bytes(), body], |_| ()).await?;
    wire.shutdown().await
}

/// A body of a stated length. None: there is no such one.
async fn body(head: &str, wire: &mut Wire) -> io::Result<Option<String>> {
    let length = head.lines().find_map(|it| it.to_ascii_lowercase().strip_prefix("content-length:").map(|it| it.trim().parse::<usize>()));
    let length = match length {
        Some(Ok(it)) if it <= MOST_BODY => it,
        _ => return Ok(None),
    };
    while wire.bytes().len() < length {
        if wire.receive().await? == 0 {
            return Ok(None);
        }
    }
    Ok(Some(String::from_utf8_lossy(&wire.bytes()[..length]).into_owned()))
}

fn purge(local: &Local, urls: &str) -> (&'static str, String) {
    let (mut told, mut status) = (String::new(), "200 OK");
    let scheme = if local.plans.stores[0].options.https { "https://" } else { "http://" };
    for url in urls.lines().map(str::trim).filter(|it| !it.is_empty()) {
        let word = match if url == "*" { Some((true, local.purge_all())) } else { local.purge(url.as_bytes(), None) } {
            Some((true, true)) => "purged".to_string(),
            Some(_) if url.contains('*') => "no prefixes are purged: give a URL, or * alone".to_string(),
            Some(_) if url.contains("://") && !url.starts_with(scheme) => format!("keys begin with {}", scheme),
            Some((true, false)) => "not stored".to_string(),
            Some((false, _)) => "no URL".to_string(),
            None => "out of memory".to_string(),
        };
        if word != "purged" && word != "not stored" {
            status = "400 Bad Request";
        }
        let _fits = writeln!(told, "{}: {}", url, word);
    }
    (status, told)
}

/// Prometheus' text format: counters, gauges, and how long answers took.
fn metrics(local: &Local) -> String {
    let mut sums: Vec<(&str, &str, u64)> = Vec::new();
    for counts in &local.counts {
        let mut at = 0;
        counts.each(|name, help, count| {
            match sums.get_mut(at) {
                Some(it) => it.2 += count,
                None => sums.push((name, help, count)),
            }
            at += 1;
        });
    }
    let mut text = String::new();
    for (name, help, sum) in sums {
        let _fits = writeln!(text, "# HELP nijpdra_{0}_total {1}\n# TYPE nijpdra_{0}_total counter\nnijpdra_{0}_total {2}", name, help, sum);
    }
    let gauges = [
        ("memory_bytes", "Bytes that bodies and heads may have together.", local.live().config.memory.0),
        ("open_connections", "Connections of clients.", local.connections.load(Ordering::Relaxed) as u64),
        ("open_exchanges", "Exchanges of the gateways.", local.stores.iter().map(|it| it.gateways.exchanges()).sum()),
        ("waiting_exchanges", "Exchanges that wait, or whose origin's side goes on.", local.stores.iter().map(|it| it.waiters.len() as u64).sum()),
    ];
    for (name, help, value) in gauges {
        let _fits = writeln!(text, "# HELP nijpdra_{0} {1}\n# TYPE nijpdra_{0} gauge\nnijpdra_{0} {2}", name, help, value);
    }
    add_partitions(local, &mut text);
    add_latency(local, &mut text);
    text
}

/// What each partition holds, numbered through all stores: one that is full evicts, though others have room.
fn add_partitions(local: &Local, text: &mut String) {
    let all: Vec<_> = local.stores.iter().flat_map(|it| it.partitions()).collect();
    let families: [(&str, &str, fn(&Partition) -> u64); 3] = [
        ("nijpdra_cache_bytes", "Bytes of bodies and heads that a partition has.", |it| it.weight),
        ("nijpdra_cache_limit_bytes", "Bytes that it may have; past them entries go for room.", |it| it.limit),
        ("nijpdra_cache_bodies", "Bodies that it has.", |it| it.bodies),
    ];
    for (name, help, value) in families {
        let _fits = writeln!(text, "# HELP {0} {1}\n# TYPE {0} gauge", name, help);
        for (at, it) in all.iter().enumerate() {
            let _fits = writeln!(text, "{}{{partition=\"{}\"}} {}", name, at, value(it));
        }
    }
}

fn add_latency(local: &Local, text: &mut String) {
    let (mut below, mut micros) = ([0; BUCKETS.len() + 1], 0);
    for counts in &local.counts {
        counts.latency.add_to(&mut below, &mut micros);
    }
    text.push_str("# HELP nijpdra_answer_seconds From a request's head to its answer's last byte.\n# TYPE nijpdra_answer_seconds histogram\n");
    for (bound, count) in BUCKETS.iter().zip(&below) {
        let _fits = writeln!(text, "nijpdra_answer_seconds_bucket{{le=\"{}\"}} {}", *bound as f64 / 1000.0, count);
    }
    let all = below[BUCKETS.len()];
    let _fits = writeln!(
        text,
        "nijpdra_answer_seconds_bucket{{le=\"+Inf\"}} {0}\nnijpdra_answer_seconds_sum {1}\nnijpdra_answer_seconds_count {0}",
        all,
        micros as f64 / 1e6
    );
}
