//! The PROXY protocol, versions 1 and 2: the line by which a balancer in front says whose connection it is. It is read from listed peers alone.
use crate::wire::Wire;
use std::io;
use std::net::{IpAddr, Ipv4Addr, Ipv6Addr};

const FIRST_OF_2: &[u8; 12] = b"\r\n\r\n\0\r\nQUIT\n";
/// A line of version 1 has at most so many bytes.
const MOST_OF_1: usize = 107;

/// What a beginning says.
#[derive(Debug, PartialEq)]
pub enum Said {
    More,
    /// So many bytes, and whose connection it is; none: the balancer's own.
    Client(usize, Option<IpAddr>),
    Wrong,
}

/// Reads the beginning of a connection.
pub async fn client(wire: &mut Wire) -> io::Result<Option<IpAddr>> {
    loop {
        match said(wire.bytes()) {
            Said::Client(count, address) => {
                wire.consume(count);
                return Ok(address);
            }
            Said::Wrong => return Err(io::ErrorKind::InvalidData.into()),
            Said::More => {
                if wire.receive().await? == 0 {
                    return Err(io::ErrorKind::UnexpectedEof.into());
                }
            }
        }
    }
}

pub fn said(bytes: &[u8]) -> Said {
    let common = bytes.iter().zip(FIRST_OF_2).take_while(|(own, it)| own == it).count();
    if common == FIRST_OF_2.len() {
        return version_2(bytes);
    }
    if common == bytes.len() {
        return Said::More;
    }
    version_1(bytes)
}

fn version_1(bytes: &[u8]) -> Said {
    let end = match bytes.windows(2).position(|it| it == b"\r\n") {
        Some(at) => at,
        None if bytes.len() > MOST_OF_1 || !b"PROXY ".starts_with(&bytes[..bytes.len().min(6)]) => return Said::Wrong,
        None => return Said::More,
    };
    let words: Vec<&str> = match std::str::from_utf8(&bytes[..end]) {
        Ok(it) if end + 2 <= MOST_OF_1 => it.split(' ').collect(),
        _ => return Said::Wrong,
    };
    match words[..] {
        ["PROXY", "UNKNOWN", ..] => Said::Client(end + 2, None),
        ["PROXY", "TCP4", from, _, _, _] => from.parse::<Ipv4Addr>().map_or(Said::Wrong, |it| Said::Client(end + 2, Some(it.into()))),
        ["PROXY", "TCP6", from, _, _, _] => from.parse::<Ipv6Addr>().map_or(Said::Wrong, |it| Said::Client(end + 2, Some(it.into()))),
        _ => Said::Wrong,
    }
}

fn version_2(bytes: &[u8]) -> Said {
    let (kind, family, length) = match bytes.get(12..16) {
        None => return Said::More,
        Some(it) => (it[0], it[1], usize::from(it[2]) << 8 | usize::from(it[3])),
    };
    let end = 16 + length;
    let body = match bytes.get(16..end) {
        None => return Said::More,
        Some(it) => it,
    };
    match (kind, family >> 4) {
        (0x20, _) => Said::Client(end, None),
        (0x21, 1) if length >= 12 => Said::Client(end, Some(Ipv4Addr::new(body[0], body[1], body[2], body[3]).into())),
        (0x21, 2) if length >= 36 => {
            let mut address = [0; 16];
            address.copy_from_slice(&body[..16]);
            Said::Client(end, Some(Ipv6Addr::from(address).into()))
        }
        (0x21, 0) | (0x21, 3) => Said::Client(end, None),
        _ => Said::Wrong,
    }
}

#[cfg(test)]
mod tests {
    use super::*;

    #[test]
    fn lines_of_version_1() {
        let line = b"PROXY TCP4 192.0.2.7 192.0.2.1 4000 80\r\nGET";
        assert_eq!(said(line), Said::Client(40, Some("192.0.2.7".parse().unwrap())));
        for to in 0..40 {
            assert_eq!(said(&line[..to]), Said::More, "{}", to);
        }
        assert_eq!(said(b"PROXY UNKNOWN\r\n"), Said::Client(15, None));
        for wrong in [&b"GET / HTTP/1.1\r\n"[..], b"PROXY TCP4 x 192.0.2.1 1 2\r\n", b"PROXY TCP4\r\n", &[b'P'; 200]] {
            assert_eq!(said(wrong), Said::Wrong);
        }
    }

    #[test]
    fn heads_of_version_2() {
        let mut head = FIRST_OF_2.to_vec();
        head.extend([0x21, 0x11, 0, 12, 192, 0, 2, 7, 192, 0, 2, 1, 0, 1, 0, 2]);
        for to in 0..head.len() {
            assert_eq!(said(&head[..to]), Said::More, "{}", to);
        }
        assert_eq!(said(&head), Said::Client(28, Some("192.0.2.7".parse().unwrap())));
        head[12] = 0x31;
        assert_eq!(said(&head), Said::Wrong);
        head[12] = 0x20;
        assert_eq!(said(&head), Said::Client(28, None));
    }
}
