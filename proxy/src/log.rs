//! The access log: lines go by a bounded channel to a thread that writes them, so that no answer waits for a disk.
use crate::config::Format;
use std::fmt::Write as _;
use std::fs::{File, OpenOptions};
use std::io::{self, BufWriter, Write};
use std::sync::mpsc::{sync_channel, RecvTimeoutError, SyncSender};
use std::time::{Duration, SystemTime, UNIX_EPOCH};

const MOST_WAITING: usize = 1 << 14;
const FLUSH_EACH: Duration = Duration::from_millis(500);

pub struct Log {
    to: SyncSender<Option<String>>,
    format: Format,
}

/// What a line says of an answer.
pub struct Line<'a> {
    pub client: std::net::IpAddr,
    pub method: &'a [u8],
    pub target: &'a [u8],
    pub host: &'a [u8],
    pub referer: &'a [u8],
    pub agent: &'a [u8],
    pub status: u16,
    pub sent: u64,
    pub took: Duration,
    pub cache: &'static str,
    /// Why it was refused, failed or wasn't stored, as Cache-Status has it, or a word of the proxy's own.
    pub reason: &'a str,
}

impl Log {
    pub fn open(path: &str, format: Format) -> io::Result<Log> {
        let name = path.to_string();
        let open = move || OpenOptions::new().append(true).create(true).open(&name).map(BufWriter::new);
        let mut file: BufWriter<File> = open()?;
        let (to, from) = sync_channel::<Option<String>>(MOST_WAITING);
        let run = move || loop {
            match from.recv_timeout(FLUSH_EACH) {
                Ok(Some(line)) => file.write_all(line.as_bytes()).unwrap_or(()),
                Ok(None) => match open() {
                    Ok(new) => file = new, // (the drop of the old one writes what it has)
                    Err(why) => eprintln!("nijpdra-proxy: log: {}", why),
                },
                Err(RecvTimeoutError::Timeout) => file.flush().unwrap_or(()),
                Err(RecvTimeoutError::Disconnected) => break file.flush().unwrap_or(()),
            }
        };
        std::thread::Builder::new().name("log".into()).spawn(run)?;
        Ok(Log { to, format })
    }

    /// A line more. Where the disk is slower than the answers, it is lost.
    pub fn write(&self, line: &Line<'_>) {
        let text = match self.format {
            Format::Combined => combined(line),
            Format::Json => json(line),
        };
        let _lost = self.to.try_send(Some(text));
    }

    /// Another file has its name by now.
    pub fn open_again(&self) {
        let _lost = self.to.try_send(None);
    }
}

fn combined(it: &Line<'_>) -> String {
    let mut text = format!("{} - - [{}] \"", it.client, date(SystemTime::now()));
    // (of a request that couldn't be read nothing is known)
    escape(&mut text, if it.method.is_empty() { b"-" } else { it.method });
    text.push(' ');
    escape(&mut text, if it.target.is_empty() { b"-" } else { it.target });
    let _fits = write!(text, " HTTP/1.1\" {} {} \"", it.status, it.sent);
    escape(&mut text, if it.referer.is_empty() { b"-" } else { it.referer });
    text.push_str("\" \"");
    escape(&mut text, if it.agent.is_empty() { b"-" } else { it.agent });
    let _fits = write!(text, "\" {}", it.cache);
    if !it.reason.is_empty() {
        text.push(' ');
        escape(&mut text, it.reason.as_bytes());
    }
    text.push('\n');
    text
}

fn json(it: &Line<'_>) -> String {
    let mut text = format!("{{\"time\":\"{}\",\"client\":\"{}\"", date(SystemTime::now()), it.client);
    for (name, value) in [("method", it.method), ("host", it.host), ("target", it.target), ("referer", it.referer), ("agent", it.agent)] {
        let _fits = write!(text, ",\"{}\":\"", name);
        escape_json(&mut text, value);
        text.push('"');
    }
    let _fits = write!(text, ",\"status\":{},\"sent\":{},\"seconds\":{:.6},\"cache\":\"{}\"", it.status, it.sent, it.took.as_secs_f64(), it.cache);
    text.push_str(",\"reason\":\"");
    escape_json(&mut text, it.reason.as_bytes());
    text.push_str("\"}\n");
    text
}

/// Text between quotes: control bytes and what isn't ASCII as \xHH, as Apache writes them.
fn escape(to: &mut String, text: &[u8]) {
    for byte in text {
        match byte {
            b'"' | b'\\' => {
                to.push('\\');
                to.push(*byte as char);
            }
            0x20..=0x7e => to.push(*byte as char),
            other => {
                let _fits = write!(to, "\\x{:02x}", other);
            }
        }
    }
}

/// A byte that isn't ASCII stands as the letter of its number.
fn escape_json(to: &mut String, text: &[u8]) {
    for byte in text {
        match byte {
            b'"' | b'\\' => {
                to.push('\\');
                to.push(*byte as char);
            }
            0x20..=0x7e => to.push(*byte as char),
            other => {
                let _fits = write!(to, "\\u{:04x}", other);
            }
        }
    }
}

const MONTHS: [&str; 12] = ["Jan", "Feb", "Mar", "Apr", "May", "Jun", "Jul", "Aug", "Sep", "Oct", "Nov", "Dec"];

/// As the combined format has it: 10/Oct/2000:13:55:36 +0000.
fn date(at: SystemTime) -> String {
    let seconds = at.duration_since(UNIX_EPOCH).map_or(0, |it| it.as_secs());
    let (days, rest) = (seconds / 86_400, seconds % 86_400);
    let (year, month, day) = civil(days as i64);
    format!("{:02}/{}/{}:{:02}:{:02}:{:02} +0000", day, MONTHS[month as usize - 1], year, rest / 3600, rest / 60 % 60, rest % 60)
}

/// Year, month and day, so many days after 1970-01-01: years begin in March, so that the leap day is their last.
fn civil(days: i64) -> (i64, i64, i64) {
    let days = days + 719_468;
    let era = days.div_euclid(146_097);
    let of_era = days.rem_euclid(146_097);
    let year = (of_era - of_era / 1460 + of_era / 36_524 - of_era / 146_096) / 365;
    let of_year = of_era - (365 * year + year / 4 - year / 100);
    let month = (5 * of_year + 2) / 153;
    let day = of_year - (153 * month + 2) / 5 + 1;
    let month = if month < 10 { month + 3 } else { month - 9 };
    (year + era * 400 + i64::from(month <= 2), month, day)
}

#[cfg(test)]
mod tests {
    use super::*;

    #[test]
    fn dates_are_those_of_the_calendar() {
        assert_eq!(civil(0), (1970, 1, 1));
        assert_eq!(civil(11_016), (2000, 2, 29));
        assert_eq!(civil(20_788), (2026, 12, 1));
    }

    #[test]
    fn control_bytes_are_escaped() {
        let mut text = String::new();
        escape(&mut text, b"a\"b\n\xff");
        assert_eq!(text, "a\\\"b\\x0a\\xff");
        let mut text = String::new();
        escape_json(&mut text, b"a\"b\n\xff");
        assert_eq!(text, "a\\\"b\\u000a\\u00ff");
    }
}
