//! What calls answer. Written by tools/dev/interface.py: change the tables in embed, and run it with --write.
#![cfg_attr(rustfmt, rustfmt_skip)]

/// Why a call was refused.
#[derive(Clone, Copy, Debug, PartialEq, Eq, Hash)]
#[non_exhaustive]
pub enum ErrorKind {
    /// no request with this number is open
    NoRequest,
    /// a request with this number is already open
    IdInUse,
    /// the request's phase does not allow this call
    WrongPhase,
    /// the request is waiting for another request's permit
    IsWaiting,
    /// the last chunk was already written
    AfterEnd,
    /// the head cannot be parsed or stored
    BadHead,
    /// a purge or an eviction removed the write
    WriteRemoved,
    /// a moment lies before 1970
    BeforeEpoch,
    /// no internal number is left
    NumbersSpent,
    /// the total weight of a shard would overflow
    TooHeavy,
    /// a shard has the greatest number of entries
    TooLong,
    /// out of memory
    Memory,
    /// no shard was saved
    Folder,
    /// the response is still being written, or was removed or replaced
    NotStored,
    /// Also a user tag that is not UTF-8, or a reserved word that is not 0.
    BadArgument,
    /// the tier has already been used
    NotNew,
    /// there is no such entry, file or body
    NoItem,
    /// `buf_needed` says which length suffices.
    BufferTooSmall,
    /// Nothing has changed; a write goes on as it was.
    BodyTooLarge,
    /// a status that this crate does not know
    Unknown,
}
#[allow(dead_code)]
impl ErrorKind {
    pub(crate) fn from_word(word: u64) -> ErrorKind {
        match word {
            1 => ErrorKind::NoRequest,
            2 => ErrorKind::IdInUse,
            3 => ErrorKind::WrongPhase,
            4 => ErrorKind::IsWaiting,
            5 => ErrorKind::AfterEnd,
            6 => ErrorKind::BadHead,
            7 => ErrorKind::WriteRemoved,
            8 => ErrorKind::BeforeEpoch,
            10 => ErrorKind::NumbersSpent,
            11 => ErrorKind::TooHeavy,
            12 => ErrorKind::TooLong,
            13 => ErrorKind::Memory,
            14 => ErrorKind::Folder,
            17 => ErrorKind::NotStored,
            20 => ErrorKind::BadArgument,
            21 => ErrorKind::NotNew,
            22 => ErrorKind::NoItem,
            23 => ErrorKind::BufferTooSmall,
            24 => ErrorKind::BodyTooLarge,
            _ => ErrorKind::Unknown,
        }
    }
    /// The text of `cache_tier_strerror`.
    pub fn as_str(self) -> &'static str {
        match self {
            ErrorKind::NoRequest => "no request with this number is open",
            ErrorKind::IdInUse => "a request with this number is already open",
            ErrorKind::WrongPhase => "the request's phase does not allow this call",
            ErrorKind::IsWaiting => "the request is waiting for another request's permit",
            ErrorKind::AfterEnd => "the last chunk was already written",
            ErrorKind::BadHead => "the head cannot be parsed or stored",
            ErrorKind::WriteRemoved => "a purge or an eviction removed the write",
            ErrorKind::BeforeEpoch => "a moment lies before 1970",
            ErrorKind::NumbersSpent => "no internal number is left",
            ErrorKind::TooHeavy => "the total weight of a shard would overflow",
            ErrorKind::TooLong => "a shard has the greatest number of entries",
            ErrorKind::Memory => "out of memory",
            ErrorKind::Folder => "no shard was saved",
            ErrorKind::NotStored => "the response is still being written, or was removed or replaced",
            ErrorKind::BadArgument => "an argument is out of range",
            ErrorKind::NotNew => "the tier has already been used",
            ErrorKind::NoItem => "there is no such entry, file or body",
            ErrorKind::BufferTooSmall => "the buffer is too small",
            ErrorKind::BodyTooLarge => "the body is larger than max_body_bytes",
            ErrorKind::Unknown => "no status of this library",
        }
    }
}
/// What a lookup got of the permit to write, which one request a key has.
#[derive(Clone, Copy, Debug, PartialEq, Eq, Hash)]
pub enum Permit {
    /// Not asked for, or what was found is fresh.
    None,
    /// This request fetches; others wait.
    Write,
    /// Another request fetches: poll until the wait ends.
    Wait,
}
#[allow(dead_code)]
impl Permit {
    pub(crate) fn from_word(word: u64) -> Permit {
        match word {
            0 => Permit::None,
            1 => Permit::Write,
            _ => Permit::Wait,
        }
    }
}
/// How a wait for a permit ended. Look up again, or go on without the cache.
#[derive(Clone, Copy, Debug, PartialEq, Eq, Hash)]
pub enum LockStatus {
    /// The writer began its write, or revalidated: a lookup finds it.
    Done,
    /// The origin failed for now. No call of this interface gives it.
    TransientError,
    /// The response may not be stored.
    GiveUp,
    /// The writer closed its request.
    Dangling,
    /// This request waited as long as `lock_timeout` allows.
    WaitTimeout,
    /// The permit is older than `lock_age`: the next lookup gets one.
    AgeTimeout,
}
#[allow(dead_code)]
impl LockStatus {
    pub(crate) fn from_word(word: u64) -> LockStatus {
        match word {
            1 => LockStatus::Done,
            2 => LockStatus::TransientError,
            3 => LockStatus::GiveUp,
            4 => LockStatus::Dangling,
            5 => LockStatus::WaitTimeout,
            _ => LockStatus::AgeTimeout,
        }
    }
}
