//! The rules' options of all requests and of those whose path has rules of its own, and what is stored by each. A key has one path, so what is stored under it
//! is read, looked up and purged by one set of options.
use crate::config::{Config, PathRules, Rules};
use cache_tier::rules;

/// Options that say what a key is, or what every request may be: a path can't have its own, since only by them it is known.
const OF_ALL: [&str; 7] = ["https", "normalize_percent", "add_x_forwarded_for", "max_head_bytes", "max_request_line_bytes", "max_fields", "max_field_bytes"];
const SETTINGS_OF_ALL: [&str; 5] = ["name", "secret", "host", "refuse", "drop"];

/// What is stored by one set of options.
#[derive(Clone, Debug)]
pub struct Plan {
    pub options: rules::Options,
    pub memory: u64,
    pub partitions: u64,
    /// Whose it is: none has all that no path has.
    pub path: Option<String>,
    /// As the file says it; none: an equal part of what others leave.
    asked: Option<u64>,
}

/// The stores, the first of which has what no path has, and of each site its prefixes with the places of theirs, the longest first.
#[derive(Clone, Debug)]
pub struct Plans {
    pub stores: Vec<Plan>,
    pub paths: Vec<Vec<(String, usize)>>,
}

impl Plans {
    pub fn of(config: &Config) -> Result<Plans, String> {
        let own = |options, path, asked| Plan { options, memory: 0, partitions: 0, path, asked };
        let mut it = Plans { stores: vec![own(options(&config.rules)?, None, None)], paths: Vec::new() };
        for (at, site) in config.site.iter().enumerate() {
            let mut paths: Vec<(String, usize)> = Vec::new();
            for path in &site.path {
                let wrong = |why: String| format!("site {}: path {:?}: {}", at + 1, path.prefix, why);
                is_prefix(&path.prefix).map_err(|why| wrong(why.into()))?;
                let prefix = String::from_utf8_lossy(&unreserved(path.prefix.as_bytes())).into_owned();
                if paths.iter().any(|it| it.0 == prefix) {
                    return Err(wrong("it is there twice, and a key has one set of rules".into()));
                }
                let options = options(&merged(&config.rules, path).map_err(&wrong)?).map_err(&wrong)?;
                let asked = path.memory.map(|it| it.0);
                let name = format!("{}{}", site.host.first().map_or("*", |it| it), path.prefix);
                let place = it.place(&options, asked).unwrap_or_else(|| {
                    it.stores.push(own(options, Some(name), asked));
                    it.stores.len() - 1
                });
                paths.push((prefix, place));
            }
            paths.sort_by_key(|it| std::cmp::Reverse(it.0.len()));
            it.paths.push(paths);
        }
        it.share(config)?;
        Ok(it)
    }

    /// The store of these options, where there is one.
    fn place(&self, options: &rules::Options, asked: Option<u64>) -> Option<usize> {
        self.stores.iter().position(|it| it.asked == asked && format!("{:?}", it.options) == format!("{:?}", options))
    }

    /// Where those of another file are among these; None: one of them isn't.
    pub fn places(&self, of: &Plans) -> Option<Vec<Vec<(String, usize)>>> {
        let place = |it: &(String, usize)| {
            let plan = &of.stores[it.1];
            self.place(&plan.options, plan.asked).map(|place| (it.0.clone(), place))
        };
        of.paths.iter().map(|paths| paths.iter().map(place).collect()).collect()
    }

    /// Divides `memory`: who says nothing has an equal part of what is left.
    fn share(&mut self, config: &Config) -> Result<(), String> {
        let asked: u64 = self.stores.iter().filter_map(|it| it.asked).fold(0, u64::saturating_add);
        let others = self.stores.iter().filter(|it| it.asked.is_none()).count() as u64;
        let left = config.memory.0.checked_sub(asked).ok_or_else(|| format!("memory: paths have {} of its {} bytes", asked, config.memory.0))?;
        let is_one = self.stores.len() == 1;
        for it in &mut self.stores {
            it.memory = it.asked.unwrap_or(left / others);
            it.partitions = config.partitions(it.memory, is_one);
            let share = it.memory / it.partitions;
            if config.max_body.0 > share / 2 {
                let whose = it.path.as_ref().map_or(String::new(), |it| format!(" of {}", it));
                let (most, least) = (mib(it.memory / it.partitions / 2), mib(config.max_body.0.saturating_mul(2 * it.partitions)));
                return Err(format!(
                    "max_body: {} is more than half of a partition's share, {} of {} partitions{}: set max_body to at most {}, or {}memory to at least {}",
                    config.max_body.0,
                    share,
                    it.partitions,
                    whose,
                    most,
                    if it.path.is_some() { "its " } else { "" },
                    least
                ));
            }
        }
        Ok(())
    }
}

/// Bytes as a file may have them.
fn mib(bytes: u64) -> String {
    if bytes > 0 && bytes % (1 << 20) == 0 {
        format!("{}MiB", bytes >> 20)
    } else {
        bytes.to_string()
    }
}

/// The place in a list of prefixes of the longest one that a key's path begins with. A letter that stands as its number is that letter.
pub fn store_of(paths: &[(String, usize)], key: &[u8]) -> usize {
    let path = unreserved(path_of(key));
    paths.iter().find(|it| path.starts_with(it.0.as_bytes())).map_or(0, |it| it.1)
}

/// What stands behind a key's scheme and host.
fn path_of(key: &[u8]) -> &[u8] {
    let host = key.windows(3).position(|it| it == b"://").map_or(0, |it| it + 3);
    let rest = &key[host..];
    &rest[rest.iter().position(|it| *it == b'/').unwrap_or(rest.len())..]
}

/// Whether an origin may read another path than its bytes say, so that by prefixes another one's rules would hold: a dot segment (also one with parameters, as
/// Tomcat reads them), an empty segment, a backslash, or a slash or backslash as its number.
pub fn is_unclear(key: &[u8]) -> bool {
    let path = path_of(key);
    let path = unreserved(&path[..path.iter().position(|it| *it == b'?').unwrap_or(path.len())]);
    let coded = |it: &[u8]| [&b"%2f"[..], b"%5c", b"%3b"].iter().any(|own| it.eq_ignore_ascii_case(own));
    let is_dots = |it: &[u8]| matches!(it.split(|it| *it == b';').next(), Some(b"." | b".."));
    let segments = || path.split(|it| *it == b'/').skip(1);
    path.contains(&b'\\') || path.windows(3).any(coded) || path.windows(2).any(|it| it == b"//") || segments().any(is_dots)
}

/// The same, where letters, digits and `-._~` stand as they are (RFC 3986, 2.3).
fn unreserved(it: &[u8]) -> Vec<u8> {
    let digit = |it: Option<&u8>| it.and_then(|it| (*it as char).to_digit(16));
    let (mut text, mut at) = (Vec::with_capacity(it.len()), 0);
    while at < it.len() {
        let byte = match (it[at], digit(it.get(at + 1)), digit(it.get(at + 2))) {
            (b'%', Some(high), Some(low)) => Some((high * 16 + low) as u8),
            _ => None,
        };
        match byte.filter(|it| it.is_ascii_alphanumeric() || b"-._~".contains(it)) {
            Some(byte) => {
                text.push(byte);
                at += 3;
            }
            None => {
                text.push(it[at]);
                at += 1;
            }
        }
    }
    text
}

fn is_prefix(it: &str) -> Result<(), &'static str> {
    if !it.starts_with('/') {
        return Err("it doesn't begin with /");
    }
    if it.contains(|it: char| "?#*".contains(it) || !it.is_ascii_graphic()) {
        return Err("it is a path's beginning as requests write it, without a query and without *");
    }
    if is_unclear(it.as_bytes()) {
        return Err("requests with //, a dot segment, a backslash or %2f in their path are refused where there are paths");
    }
    Ok(())
}

/// The rules of a path: a setting of its own takes the place of all lines of that name.
fn merged(all: &Rules, path: &PathRules) -> Result<Rules, String> {
    let name = |it: &str| it.split(':').next().unwrap_or("").trim().to_string();
    if let Some(it) = path.settings.iter().map(|it| name(it)).find(|it| SETTINGS_OF_ALL.contains(&it.as_str())) {
        return Err(format!("settings: {} is of all requests: it stands in [rules]", it));
    }
    if let Some(it) = path.options.keys().find(|it| OF_ALL.contains(&it.as_str())) {
        return Err(format!("options.{}: it is of all requests: it stands in [rules.options]", it));
    }
    let is_own = |it: &&String| path.settings.iter().any(|own| name(own) == name(it));
    let settings = all.settings.iter().filter(|it| !is_own(it)).chain(&path.settings).cloned().collect();
    let mut options = all.options.clone();
    options.extend(path.options.clone());
    Ok(Rules { settings, options })
}

/// The rules' options: those of the file over the usual ones. A shared cache in front of a site doesn't let each client ask for a fetch, and says whose request
/// it sends on.
fn options(rules: &Rules) -> Result<rules::Options, String> {
    let mut options = rules::Options::default();
    options.honor_request_directives = false;
    options.add_x_forwarded_for = true;
    for (name, value) in &rules.options {
        set_option(&mut options, name, value).map_err(|why| format!("rules.options.{}: {}", name, why))?;
    }
    let options = options.with_settings(&rules.settings.join("\n"));
    match rules::Rules::new(&options) {
        Ok(_) => Ok(options),
        Err(rules::OptionsError::BadLine(line)) => {
            Err(format!("rules.settings: line {} is wrong: {:?}", line, rules.settings.get(line - 1).map_or("", |it| it.as_str())))
        }
        Err(why) => Err(format!("rules.options: {}", why)),
    }
}

/// The same, for who may not say whose request it is, and by which name and scheme it came: without the lines of a request that do.
pub fn of_strangers(options: &rules::Options) -> rules::Options {
    let mut it = options.clone();
    it.settings += "\ndrop: x-forwarded-for\ndrop: forwarded\ndrop: x-real-ip\ndrop: x-forwarded-host\ndrop: x-forwarded-proto";
    it
}

const TELL_WHOSE: [&[u8]; 5] = [b"x-forwarded-for", b"forwarded", b"x-real-ip", b"x-forwarded-host", b"x-forwarded-proto"];

/// Whether a line of a head may say whose request it is, or by which name and scheme it came. Without one all options above read the same.
pub fn tells_whose(head: &[u8]) -> bool {
    // (by one pass without a branch: most heads have no line that begins so)
    let may =
        head.iter().zip(&head[1.min(head.len())..]).fold(false, |may, (end, first)| may | (*end == b'\n') & ((first | 32 == b'x') | (first | 32 == b'f')));
    let begins = |line: &[u8]| TELL_WHOSE.iter().any(|it| line.len() > it.len() && line[..it.len()].eq_ignore_ascii_case(it));
    may && head.split(|it| *it == b'\n').skip(1).any(begins)
}

fn set_option(o: &mut rules::Options, name: &str, value: &toml::Value) -> Result<(), String> {
    macro_rules! option {
        (flags: $($flag:ident)*; numbers: $($number:ident)*) => {
            match (name, value) {
                $((stringify!($flag), toml::Value::Boolean(it)) => o.$flag = *it,)*
                $((stringify!($flag), _) => return Err("it is true or false".into()),)*
                $((stringify!($number), toml::Value::Integer(it)) if *it >= 0 => o.$number = *it as u64,)*
                $((stringify!($number), _) => return Err("it is a number".into()),)*
                _ => return Err("there is no such option".into()),
            }
        };
    }
    option! {
        flags: honor_request_directives serve_authorized store_set_cookie fill_on_range fill_on_head fill_on_conditional normalize_percent
            heuristic_freshness stale_despite_s_maxage add_x_forwarded_for https trust_date;
        numbers: max_head_bytes max_request_line_bytes max_fields max_ranges max_heuristic_ttl stale_while_revalidate stale_if_error stale_if_down
            max_field_bytes
    }
    Ok(())
}

#[cfg(test)]
mod tests {
    use super::*;

    #[test]
    fn the_longest_prefix_counts() {
        let paths = [("/a/b/".to_string(), 2), ("/a/".to_string(), 1)];
        let of = |key: &str| store_of(&paths, key.as_bytes());
        assert_eq!([of("http://h/a/b/c"), of("http://h/a/b"), of("https://h:1/a/"), of("http://h/"), of("http://h/b?/a/"), of("")], [2, 1, 1, 0, 0, 0]);
    }

    #[test]
    fn a_letter_as_its_number_is_that_letter() {
        let paths = [("/admin/".to_string(), 1)];
        assert_eq!(["http://h/%61dmin/", "http://h/%61%64min%2", "http://h/%41dmin/"].map(|it| store_of(&paths, it.as_bytes())), [1, 0, 0]);
    }

    #[test]
    fn paths_that_origins_may_read_otherwise() {
        let all = "/s/..%2fa /s/%2e%2e/a /s/%2E./a /s/.%2e /./a /a/. //a /a//b /a%2Fb /a%5cb /a\\b /s/..;x/a /s/..%3bx/a /s/%252e%2e%2f";
        assert_eq!(all.split(' ').find(|it| !is_unclear(format!("http://h{}", it).as_bytes())), None);
        let all = "/ /a/ /a..b /.well-known/x /.../a /a?b=//..%2f /a;b /%61 /a%20b%";
        assert_eq!(all.split(' ').find(|it| is_unclear(format!("http://h{}", it).as_bytes())), None);
        assert!(!is_unclear(b"http://h") && !is_unclear(b""));
    }

    #[test]
    fn lines_that_tell_whose_request_it_is() {
        for (head, tells) in [
            ("GET / HTTP/1.1\r\nHost: a\r\n\r\n", false),
            ("GET / HTTP/1.1\r\nX-FORWARDED-FOR: b\r\n\r\n", true),
            ("GET / HTTP/1.1\r\nforwarded: b\r\n\r\n", true),
            ("GET / HTTP/1.1\nx-real-ip:b\n\n", true),
            ("GET / HTTP/1.1\r\nX-Forwarded-Proto: https\r\n\r\n", true),
            ("GET /\r\nX-Forwarded: b\r\nA: Forwarded: b\r\nx-real", false),
        ] {
            assert_eq!(tells_whose(head.as_bytes()), tells, "{}", head);
        }
    }
}
