//! Values of the configuration, each read from a word: sizes, seconds, addresses, networks.
use serde::de::{Deserialize, Deserializer, Error, Visitor};
use std::fmt;
use std::net::{IpAddr, SocketAddr};
use std::path::PathBuf;
use std::str::FromStr;

/// Bytes: a number, or a number with kB, MB, GB, TB (thousands) or KiB, MiB, GiB, TiB.
#[derive(Clone, Copy, Debug, PartialEq, Eq)]
pub struct Size(pub u64);

/// Seconds: from 1 to a day.
#[derive(Clone, Copy, Debug, PartialEq, Eq)]
pub struct Seconds(pub u64);

impl Seconds {
    pub fn duration(self) -> std::time::Duration {
        std::time::Duration::from_secs(self.0)
    }
}

/// Where a socket listens: ADDRESS:PORT, [ADDRESS]:PORT, unix:PATH.
#[derive(Clone, Debug, PartialEq, Eq, PartialOrd, Ord)]
pub enum Place {
    Tcp(SocketAddr),
    Unix(PathBuf),
}

#[derive(Clone, Debug, PartialEq, Eq)]
pub struct Address(pub Place);

impl FromStr for Place {
    type Err = String;

    fn from_str(text: &str) -> Result<Place, String> {
        if let Some(path) = text.strip_prefix("unix:") {
            return if path.is_empty() { Err("unix: has no path".into()) } else { Ok(Place::Unix(path.into())) };
        }
        text.parse().map(Place::Tcp).map_err(|_| format!("{:?} is no ADDRESS:PORT, and no unix:PATH", text))
    }
}

impl fmt::Display for Place {
    fn fmt(&self, to: &mut fmt::Formatter<'_>) -> fmt::Result {
        match self {
            Place::Tcp(it) => it.fmt(to),
            Place::Unix(it) => write!(to, "unix:{}", it.display()),
        }
    }
}

/// Addresses that begin alike: ADDRESS/BITS, or one address.
#[derive(Clone, Copy, Debug, PartialEq, Eq)]
pub struct Network {
    address: IpAddr,
    bits: u32,
}

impl Network {
    pub fn contains(&self, it: IpAddr) -> bool {
        match (self.address, it) {
            (IpAddr::V4(own), IpAddr::V4(it)) => is_alike(u128::from(u32::from(own)) << 96, u128::from(u32::from(it)) << 96, self.bits),
            (IpAddr::V6(own), IpAddr::V6(it)) => is_alike(own.into(), it.into(), self.bits),
            _ => false,
        }
    }
}

fn is_alike(one: u128, other: u128, bits: u32) -> bool {
    bits == 0 || (one ^ other) >> (128 - bits) == 0
}

impl FromStr for Network {
    type Err = String;

    fn from_str(text: &str) -> Result<Network, String> {
        let wrong = || format!("{:?} is no ADDRESS, and no ADDRESS/BITS", text);
        let (address, bits) = text.split_once('/').map_or((text, None), |(address, bits)| (address, Some(bits)));
        let address: IpAddr = address.parse().map_err(|_| wrong())?;
        let most = if address.is_ipv4() { 32 } else { 128 };
        let bits = bits.map_or(Ok(most), |it| it.parse().map_err(|_| wrong()))?;
        if bits > most {
            return Err(wrong());
        }
        Ok(Network { address, bits })
    }
}

const UNITS: [(&str, u64); 9] = [
    ("kB", 1000),
    ("MB", 1_000_000),
    ("GB", 1_000_000_000),
    ("TB", 1_000_000_000_000),
    ("KiB", 1 << 10),
    ("MiB", 1 << 20),
    ("GiB", 1 << 30),
    ("TiB", 1 << 40),
    ("B", 1),
];

impl FromStr for Size {
    type Err = String;

    fn from_str(text: &str) -> Result<Size, String> {
        let (digits, unit) = text.split_at(text.find(|it: char| !it.is_ascii_digit()).unwrap_or(text.len()));
        let wrong = || format!("{:?} is no size: a number, or one with kB, MB, GB, TB, KiB, MiB, GiB, TiB", text);
        let count: u64 = digits.parse().map_err(|_| wrong())?;
        let by = match unit.trim() {
            "" => 1,
            unit => UNITS.iter().find(|it| it.0 == unit).map(|it| it.1).ok_or_else(wrong)?,
        };
        count.checked_mul(by).map(Size).ok_or_else(wrong)
    }
}

struct Words;

impl<'de> Visitor<'de> for Words {
    type Value = String;

    fn expecting(&self, to: &mut fmt::Formatter<'_>) -> fmt::Result {
        to.write_str("a word or a number")
    }

    fn visit_str<E: Error>(self, text: &str) -> Result<String, E> {
        Ok(text.into())
    }

    fn visit_i64<E: Error>(self, number: i64) -> Result<String, E> {
        Ok(number.to_string())
    }

    fn visit_u64<E: Error>(self, number: u64) -> Result<String, E> {
        Ok(number.to_string())
    }
}

macro_rules! read_from_words {
    ($($name:ty)*) => {
        $(impl<'de> Deserialize<'de> for $name {
            fn deserialize<D: Deserializer<'de>>(from: D) -> Result<$name, D::Error> {
                from.deserialize_any(Words)?.parse().map_err(D::Error::custom)
            }
        })*
    };
}
read_from_words! { Size Seconds Address Network }

impl FromStr for Address {
    type Err = String;

    fn from_str(text: &str) -> Result<Address, String> {
        text.parse().map(Address)
    }
}

impl FromStr for Seconds {
    type Err = String;

    fn from_str(text: &str) -> Result<Seconds, String> {
        match text.parse() {
            Ok(it) if (1..=86_400).contains(&it) => Ok(Seconds(it)),
            _ => Err(format!("{:?} isn't a number of seconds from 1 to 86400", text)),
        }
    }
}

#[cfg(test)]
mod tests {
    use super::*;

    #[test]
    fn sizes_have_units() {
        assert_eq!("512MB".parse(), Ok(Size(512_000_000)));
        assert_eq!("4 KiB".parse(), Ok(Size(4096)));
        assert_eq!("17".parse(), Ok(Size(17)));
        for wrong in ["", "MB", "1.5MB", "-1", "3 parsecs", "99999999999999TB"] {
            assert!(wrong.parse::<Size>().is_err(), "{}", wrong);
        }
    }

    #[test]
    fn networks_have_what_begins_alike() {
        let it: Network = "10.1.0.0/16".parse().unwrap();
        assert!(it.contains("10.1.2.3".parse().unwrap()));
        assert!(!it.contains("10.2.2.3".parse().unwrap()));
        assert!(!it.contains("::1".parse().unwrap()));
        let all: Network = "::/0".parse().unwrap();
        assert!(all.contains("fe80::1".parse().unwrap()));
        assert!("10.0.0.0/33".parse::<Network>().is_err());
    }
}
