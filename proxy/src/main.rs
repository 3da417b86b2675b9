//! A caching reverse proxy. It moves bytes: what is parsed, found, stored, validated, sent on and purged is a call of the gateway.
#![forbid(unsafe_code)]

mod admin;
mod beat;
mod client;
mod config;
mod counts;
mod exchange;
mod log;
mod origin;
mod pool;
mod proxy_protocol;
mod rules;
mod run;
mod seldom;
mod shared;
mod sizes;
mod stat;
mod waiters;
mod wire;

use config::Config;
use std::path::{Path, PathBuf};
use std::process::exit;

const USAGE: &str = "usage: nijpdra-proxy [--check] FILE
       nijpdra-proxy --origin http://HOST:PORT [--listen ADDRESS:PORT]
       nijpdra-proxy stat [ADDRESS:PORT]

FILE is the configuration; --check reads it, says what is wrong in it by line and reason, and ends.
--origin serves one site without a file, on 127.0.0.1:8000 unless --listen says otherwise.
stat shows the counts of a running proxy, by its admin address (127.0.0.1:9180), anew each second.

SIGHUP reads the file again: sites, limits and log; connections stay. SIGTERM ends what is under way, and exits 0.";

fn main() {
    let given: Vec<String> = std::env::args().skip(1).collect();
    let words: Vec<&str> = given.iter().map(|it| it.as_str()).collect();
    let (config, file) = match words[..] {
        ["-h"] | ["--help"] => return println!("{}", USAGE),
        ["--version"] => return println!("nijpdra-proxy {}", env!("CARGO_PKG_VERSION")),
        ["stat"] => return stat::show("127.0.0.1:9180"),
        ["stat", address] => return stat::show(address),
        ["--check", file] => return drop(read(file)),
        ["--origin", origin] => (of_origin(origin, "127.0.0.1:8000"), None),
        ["--origin", origin, "--listen", listen] | ["--listen", listen, "--origin", origin] => (of_origin(origin, listen), None),
        [file] if !file.starts_with('-') => (read(file), Some(PathBuf::from(file))),
        _ => fail(USAGE),
    };
    run::run(config, file).unwrap_or_else(|why| fail(&why));
}

fn read(file: &str) -> Config {
    Config::read(Path::new(file)).unwrap_or_else(|why| fail(&why))
}

fn of_origin(origin: &str, listen: &str) -> Config {
    let address = origin.strip_prefix("http://").unwrap_or_else(|| fail("--origin: origins are asked without TLS: http://HOST:PORT"));
    let address = address.trim_end_matches('/');
    let has_port = address.rsplit(']').next().unwrap_or(address).contains(':');
    let address = if has_port { address.to_string() } else { format!("{}:80", address) };
    let listen = listen.parse().unwrap_or_else(|why: String| fail(&format!("--listen: {}", why)));
    let it = Config::of_origin(listen, address);
    it.is_sound().unwrap_or_else(|why| fail(&format!("--origin: {}", why)));
    it
}

fn fail(why: &str) -> ! {
    eprintln!("nijpdra-proxy: {}", why);
    exit(2)
}
