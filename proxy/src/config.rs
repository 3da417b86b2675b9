//! The configuration: a file of TOML. What is wrong in it is told with its line, or its name, before anything starts.
use crate::sizes::{Address, Network, Seconds, Size};
use serde::Deserialize;
use std::path::Path;

#[derive(Deserialize, Clone, Debug, PartialEq)]
#[serde(deny_unknown_fields)]
pub struct Config {
    pub listen: Vec<Listen>,
    pub site: Vec<Site>,
    /// Where counts are read and URLs purged. It isn't for strangers.
    #[serde(default = "loopback")]
    pub admin: Option<Address>,
    /// Bytes of what is stored: bodies and heads.
    #[serde(default = "default_memory")]
    pub memory: Size,
    /// What is longer is relayed, and not stored.
    #[serde(default = "default_max_body")]
    pub max_body: Size,
    /// Threads that serve, each with sockets of its own; 0: as many as there are cores.
    #[serde(default)]
    pub threads: usize,
    /// Peers that say whose request it is, by X-Forwarded-For, Forwarded or X-Real-IP; of all others these lines go.
    #[serde(default)]
    pub trust_forwarded: Vec<Network>,
    #[serde(default)]
    pub log: Option<Log>,
    #[serde(default)]
    pub limits: Limits,
    #[serde(default)]
    pub rules: Rules,
}

#[derive(Deserialize, Clone, Debug, PartialEq)]
#[serde(deny_unknown_fields)]
pub struct Listen {
    pub address: Address,
    /// Peers whose connections begin by a line of the PROXY protocol, version 1 or 2; from others that is refused.
    #[serde(default)]
    pub proxy_protocol_from: Vec<Network>,
}

/// The origins of these hosts; a site without hosts has all others.
#[derive(Deserialize, Clone, Debug, PartialEq)]
#[serde(deny_unknown_fields)]
pub struct Site {
    #[serde(default)]
    pub host: Vec<String>,
    pub origin: Vec<Origin>,
    #[serde(default)]
    pub path: Vec<PathRules>,
}

/// Rules of their own for paths that begin so; the longest prefix counts.
#[derive(Deserialize, Clone, Debug, PartialEq)]
#[serde(deny_unknown_fields)]
pub struct PathRules {
    pub prefix: String,
    /// Of `memory`; without it an equal part of what is left.
    pub memory: Option<Size>,
    #[serde(default)]
    pub settings: Vec<String>,
    #[serde(default)]
    pub options: std::collections::BTreeMap<String, toml::Value>,
}

#[derive(Deserialize, Clone, Debug, PartialEq)]
#[serde(deny_unknown_fields)]
pub struct Origin {
    /// HOST:PORT; the name is looked up anew every 30 s.
    pub address: String,
}

#[derive(Deserialize, Clone, Debug, PartialEq)]
#[serde(deny_unknown_fields)]
pub struct Log {
    pub file: String,
    #[serde(default)]
    pub format: Format,
}

#[derive(Deserialize, Clone, Copy, Debug, Default, PartialEq, Eq)]
#[serde(rename_all = "lowercase")]
pub enum Format {
    /// Apache's combined, and behind it how the cache answered.
    #[default]
    Combined,
    Json,
}

/// What strangers may take.
#[derive(Deserialize, Clone, Debug, PartialEq)]
#[serde(deny_unknown_fields, default)]
pub struct Limits {
    pub connections: usize,
    pub connections_by_client: usize,
    /// Up to the end of a request's head, from its first byte on; and between two requests.
    pub head_timeout: Seconds,
    pub idle_timeout: Seconds,
    /// Without a byte of a request's body, or without a byte of an answer that the client takes.
    pub body_timeout: Seconds,
    /// Bytes a second that a client takes or sends at least, over `body_timeout`.
    pub min_rate: Size,
    /// Requests a second of one client, 0: as many as it likes; more are answered 429.
    pub requests_by_client: u32,
    /// Connections to one origin; more wait for `fetch_wait`.
    pub fetches_by_origin: usize,
    pub idle_by_origin: usize,
    pub fetch_wait: Seconds,
    pub connect_timeout: Seconds,
    pub first_byte_timeout: Seconds,
    pub between_bytes_timeout: Seconds,
    /// At a stop, for what is under way.
    pub stop_timeout: Seconds,
}

impl Default for Limits {
    fn default() -> Limits {
        Limits {
            connections: 10_000,
            connections_by_client: 256,
            head_timeout: Seconds(10),
            idle_timeout: Seconds(60),
            body_timeout: Seconds(60),
            min_rate: Size(1000),
            requests_by_client: 0,
            fetches_by_origin: 256,
            idle_by_origin: 32,
            fetch_wait: Seconds(10),
            connect_timeout: Seconds(10),
            first_byte_timeout: Seconds(60),
            between_bytes_timeout: Seconds(60),
            stop_timeout: Seconds(30),
        }
    }
}

/// The rules' settings, a line each, as docs/rules.md has them, and the options by their names.
#[derive(Deserialize, Clone, Debug, Default, PartialEq)]
#[serde(deny_unknown_fields, default)]
pub struct Rules {
    pub settings: Vec<String>,
    pub options: std::collections::BTreeMap<String, toml::Value>,
}

fn loopback() -> Option<Address> {
    "127.0.0.1:9180".parse().ok()
}

fn default_memory() -> Size {
    Size(512 << 20)
}

fn default_max_body() -> Size {
    Size(16 << 20)
}

/// The fewest and the most partitions of a store; one of several may have a single one.
pub const PARTITIONS: (u64, u64) = (8, 64);

impl Config {
    /// Reads a file: what it says, or what is wrong in it.
    pub fn read(path: &Path) -> Result<Config, String> {
        let at = path.display();
        let text = std::fs::read_to_string(path).map_err(|why| format!("{}: {}", at, why))?;
        let it: Config = toml::from_str(&text).map_err(|why| {
            let said = why.to_string();
            match line_of(&text, &said).or_else(|| why.line_col().map(|it| it.0 + 1)) {
                Some(line) => format!("{}:{}: {}", at, line, said.split(" at line ").next().unwrap_or(&said)),
                None => format!("{}: {}", at, said),
            }
        })?;
        it.is_sound().map_err(|why| format!("{}: {}", at, why))?;
        Ok(it)
    }

    /// One site, in front of one origin.
    pub fn of_origin(listen: Address, origin: String) -> Config {
        Config {
            listen: vec![Listen { address: listen, proxy_protocol_from: Vec::new() }],
            site: vec![Site { host: Vec::new(), origin: vec![Origin { address: origin }], path: Vec::new() }],
            admin: loopback(),
            memory: default_memory(),
            max_body: default_max_body(),
            threads: 0,
            trust_forwarded: Vec::new(),
            log: None,
            limits: Limits::default(),
            rules: Rules::default(),
        }
    }

    /// How many partitions a store of so many bytes has: each is four times the longest body that is stored, where there are 8 to 64 of these.
    pub fn partitions(&self, memory: u64, is_one: bool) -> u64 {
        (memory / (4 * self.max_body.0.max(1))).clamp(if is_one { PARTITIONS.0 } else { 1 }, PARTITIONS.1)
    }

    pub fn threads(&self) -> usize {
        match self.threads {
            0 => std::thread::available_parallelism().map_or(1, |it| it.get()),
            it => it,
        }
    }

    /// Takes what only a start changes from the one that runs; whether that was the same. (Of paths `Live` sees to it.)
    pub fn keeps(&mut self, own: &Config) -> bool {
        let of = |it: &Config| (it.listen.clone(), it.admin.clone(), it.memory, it.max_body, it.threads, it.rules.clone());
        let is_same = of(self) == of(own);
        (self.listen, self.admin, self.memory, self.max_body, self.threads, self.rules) = of(own);
        is_same
    }

    pub fn is_sound(&self) -> Result<(), String> {
        let wrong = |why: &str| Err(why.to_string());
        if self.listen.is_empty() {
            return wrong("there is no [[listen]]");
        }
        if self.site.is_empty() {
            return wrong("there is no [[site]]");
        }
        if let Some(at) = self.site.iter().position(|it| it.origin.is_empty()) {
            return Err(format!("site {}: there is no [[site.origin]]", at + 1));
        }
        if self.site.iter().filter(|it| it.host.is_empty()).count() > 1 {
            return wrong("site: two are without hosts, and each would have all others");
        }
        if let Some(host) = self.site.iter().flat_map(|it| &it.host).find(|it| !is_name(it)) {
            return Err(format!("site.host: {:?}: each host stands by its name, or its address: there are no patterns", host));
        }
        for address in self.site.iter().flat_map(|it| &it.origin).map(|it| &it.address) {
            is_host_and_port(address).map_err(|why| format!("site.origin.address: {:?}: {}", address, why))?;
        }
        crate::rules::Plans::of(self)?;
        if self.limits.connections == 0 || self.limits.fetches_by_origin == 0 {
            return wrong("limits: connections and fetches_by_origin are at least 1");
        }
        Ok(())
    }
}

/// The line of a value that is wrong: the first one that has its key and its text; of a key that nothing has: the one that has it. (What is read of the file
/// tells of a value in a list of tables only where its table ends, and of a key only where the file does.)
fn line_of(text: &str, said: &str) -> Option<usize> {
    if let Some(name) = said.split("unknown field `").nth(1).and_then(|it| it.split('`').next()) {
        let mut lines = text.lines().enumerate().filter(|it| key_of(it.1) == name);
        let first = lines.next();
        return first.filter(|_| lines.next().is_none()).map(|it| it.0 + 1);
    }
    let key = said.split("for key `").nth(1)?.split('`').next()?;
    let key = key.rsplit('.').next()?;
    let value = said.split('"').nth(1)?;
    text.lines().position(|it| it.trim_start().starts_with(key) && it.contains(value)).map(|it| it + 1)
}

/// The last word of a line's key, or of a table's name.
fn key_of(line: &str) -> &str {
    let line = line.trim_start_matches(|it| it == ' ' || it == '\t' || it == '[');
    let key = line.split(|it| " \t=]".contains(it)).next().unwrap_or("");
    key.rsplit('.').next().unwrap_or(key)
}

fn is_name(host: &str) -> bool {
    let may = |it: char| it.is_ascii_alphanumeric() || "-._~:[]".contains(it);
    !host.is_empty() && host.chars().all(may)
}

fn is_host_and_port(address: &str) -> Result<(), &'static str> {
    if address.starts_with("https://") {
        return Err("origins are asked without TLS");
    }
    match address.rsplit_once(':') {
        None => Err("it has no port"),
        Some((host, _)) if host.is_empty() => Err("it has no host"),
        Some((host, _)) if host.contains(|it: char| "[]:".contains(it)) && !is_bracketed(host) => Err("an address of IPv6 stands in brackets"),
        Some((host, _)) if host.contains(|it: char| it == '/' || it == '@' || !it.is_ascii_graphic()) => Err("its host isn't a name or an address"),
        Some((_, port)) => match port.parse::<u16>() {
            Ok(it) if it > 0 => Ok(()),
            _ => Err("its port isn't a number from 1 to 65535"),
        },
    }
}

fn is_bracketed(host: &str) -> bool {
    let own = host.strip_prefix('[').and_then(|it| it.strip_suffix(']'));
    own.map_or(false, |it| it.parse::<std::net::Ipv6Addr>().is_ok())
}

#[cfg(test)]
mod tests {
    use super::*;

    const WELL: &str = "[[listen]]\naddress = \"127.0.0.1:8000\"\n[[site]]\n[[site.origin]]\naddress = \"origin:80\"\n";

    fn read(name: &str, text: &str) -> Result<Config, String> {
        let path = std::env::temp_dir().join(format!("nijpdra-proxy-{}-{}.toml", std::process::id(), name));
        std::fs::write(&path, text).unwrap();
        let it = Config::read(&path);
        std::fs::remove_file(&path).unwrap();
        it
    }

    #[test]
    fn what_is_wrong_is_told_by_its_line() {
        let wrong = [
            ("port", "[[listen]]\naddress = \"127.0.0.1\"\n".to_string() + WELL, ":2: "),
            ("size", "memory = \"much\"\n".to_string() + WELL, ":1: "),
            ("key", "\nmemroy = 1\n".to_string() + WELL, ":2: unknown field"),
            ("table", WELL.to_string() + "[limts]\nconnections = 1\n", ":6: unknown field"),
            ("limit", WELL.to_string() + "[limits]\n\n  conections = 1\n[log]\nfile = \"x\"\n", ":8: unknown field"),
            ("pattern", WELL.replace("[[site]]", "[[site]]\nhost = [\"*.example.com\"]"), "there are no patterns"),
            ("host", WELL.replace("[[site]]", "[[site]]\nhost = [\"http://example.com\"]"), "there are no patterns"),
            ("tls", WELL.replace("origin:80", "https://origin"), "origins are asked without TLS"),
            ("origin", WELL.replace("origin:80", "origin"), "it has no port"),
            ("path", WELL.replace("origin:80", "origin/app:80"), "its host isn't"),
            ("brackets", WELL.replace("origin:80", "::1:80"), "in brackets"),
            ("origins", "[[listen]]\naddress = \"127.0.0.1:1\"\n[[site]]\norigin = []\n".into(), "there is no [[site.origin]]"),
            ("body", "memory = \"64MiB\"\nmax_body = \"8MiB\"\n".to_string() + WELL, "set max_body to at most 4MiB, or memory to at least 128MiB"),
            ("seconds", WELL.to_string() + "[limits]\nhead_timeout = 0\n", ":7: "),
            ("syntax", WELL.to_string() + "[limits\n", ":6: "),
            ("network", WELL.replace("8000\"", "8000\"\nproxy_protocol_from = [\"10.0.0.0/40\"]"), ":3: "),
            ("prefix", WELL.to_string() + "[[site.path]]\nprefix = \"a/\"\n", "doesn't begin with /"),
            ("query", WELL.to_string() + "[[site.path]]\nprefix = \"/a?b\"\n", "without a query"),
            ("twice", WELL.to_string() + &"[[site.path]]\nprefix = \"/a/\"\n".repeat(2), "it is there twice"),
            ("of all", WELL.to_string() + "[[site.path]]\nprefix = \"/a/\"\n[site.path.options]\nhttps = true\n", "options.https: it is of all requests"),
            ("refuse", WELL.to_string() + "[[site.path]]\nprefix = \"/a/\"\nsettings = [\"refuse: PUT\"]\n", "refuse is of all requests"),
            ("lifetime", WELL.to_string() + "[[site.path]]\nprefix = \"/a/\"\nsettings = [\"lifetime: 200\"]\n", "line 1 is wrong"),
            ("parts", WELL.to_string() + "[[site.path]]\nprefix = \"/a/\"\nmemory = \"1GiB\"\n", "paths have 1073741824 of its 536870912 bytes"),
            ("part", WELL.to_string() + "[[site.path]]\nprefix = \"/a/\"\nmemory = \"16MiB\"\n", "1 partitions of */a/"),
            ("trusted", "trust_forwarded = [\"me\"]\n".to_string() + WELL, ":1: "),
            ("sites", WELL.to_string() + "[[site]]\n[[site.origin]]\naddress = \"other:80\"\n", "two are without hosts"),
        ];
        for (name, text, said) in wrong {
            let why = read(name, &text).unwrap_err();
            assert!(why.contains(said), "{}: {}", name, why);
        }
    }

    #[test]
    fn partitions_have_room_for_the_longest_body() {
        let it = read("well", WELL).unwrap();
        let plan = crate::rules::Plans::of(&it).unwrap().stores.remove(0);
        assert_eq!(plan.partitions, 8);
        assert!(plan.memory / plan.partitions >= 2 * it.max_body.0);
        let it = read("small", &("max_body = \"100kB\"\n".to_string() + WELL)).unwrap();
        assert_eq!(crate::rules::Plans::of(&it).unwrap().stores[0].partitions, 64);
    }
}
