//! Shows the counts of a running proxy to people.
use std::fmt::Write as _;
use std::io::{Read, Write};
use std::net::TcpStream;
use std::process::exit;
use std::time::Duration;

pub fn show(address: &str) {
    let mut last: Vec<(String, f64)> = Vec::new();
    loop {
        let text = metrics(address).unwrap_or_else(|why| {
            eprintln!("nijpdra-proxy: {}: {}", address, why);
            exit(1)
        });
        let now = values(&text);
        let mut shown = format!("\x1b[H\x1b[2J{:<32}{:>16}{:>14}\n", "nijpdra-proxy", "in all", "a second");
        for (at, (name, value)) in now.iter().enumerate() {
            let since = last.get(at).map_or(0.0, |it| value - it.1);
            let _fits = writeln!(shown, "{:<32}{:>16}{:>14}", name, value, since);
        }
        let mut out = std::io::stdout();
        // (who reads may have had enough)
        if out.write_all(shown.as_bytes()).and_then(|()| out.flush()).is_err() {
            return;
        }
        last = now;
        std::thread::sleep(Duration::from_secs(1));
    }
}

fn metrics(address: &str) -> std::io::Result<String> {
    let mut at = TcpStream::connect(address)?;
    at.set_read_timeout(Some(Duration::from_secs(5)))?;
    at.write_all(b"GET /metrics HTTP/1.1\r\nHost: admin\r\n\r\n")?;
    let mut text = String::new();
    at.read_to_string(&mut text)?;
    Ok(text)
}

/// The counts by their names, in the order of the text; what partitions have each is summed.
fn values(text: &str) -> Vec<(String, f64)> {
    let mut all: Vec<(String, f64)> = Vec::new();
    let lines = text.lines().filter_map(|it| it.strip_prefix("nijpdra_")).filter(|it| !it.contains("_bucket"));
    for (name, value) in lines.filter_map(|it| it.split_once(' ')) {
        let name = name.split('{').next().unwrap_or(name);
        match (value.parse::<f64>(), all.last_mut()) {
            (Ok(value), Some(last)) if last.0 == name => last.1 += value,
            (Ok(value), _) => all.push((name.to_string(), value)),
            _ => {}
        }
    }
    all
}

#[cfg(test)]
mod tests {
    use super::*;

    #[test]
    fn partitions_are_summed() {
        let text = "HTTP/1.1 200 OK\r\n\r\n# HELP nijpdra_hits_total Answers.\n# TYPE nijpdra_hits_total counter\nnijpdra_hits_total 3\n\
            nijpdra_cache_bytes{partition=\"0\"} 10\nnijpdra_cache_bytes{partition=\"1\"} 5\nnijpdra_cache_bodies{partition=\"0\"} 1\n\
            nijpdra_answer_seconds_bucket{le=\"1\"} 9\nnijpdra_answer_seconds_sum 0.5\n";
        let of = |name: &str, value| (name.to_string(), value);
        assert_eq!(values(text), [of("hits_total", 3.0), of("cache_bytes", 15.0), of("cache_bodies", 1.0), of("answer_seconds_sum", 0.5)]);
    }
}
