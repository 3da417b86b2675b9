//! Numbers of the rules as enums. Written by tools/dev/interface.py: change the tables in embed, and run it with --write.
#![cfg_attr(rustfmt, rustfmt_skip)]

/// Why a head is rejected, a request passed, or a response not stored.
#[derive(Clone, Copy, Debug, PartialEq, Eq, Hash)]
#[non_exhaustive]
pub enum Reason {
    /// target-too-long
    TargetTooLong,
    /// The head is longer than the options let it be.
    HeadTooLong,
    /// bare-line-end
    BareLineEnd,
    /// bad-request-line
    BadRequestLine,
    /// version
    HttpVersion,
    /// method
    Method,
    /// too-many-fields
    TooManyFields,
    /// folded
    ObsFold,
    /// blank-before-colon
    SpaceBeforeColon,
    /// bad-field
    BadField,
    /// length-and-coding
    LengthAndTransferEncoding,
    /// bad-length
    BadContentLength,
    /// coding-in-1-0
    TransferEncodingIn10,
    /// unknown-coding
    UnknownTransferCoding,
    /// bad-coding
    BadTransferEncoding,
    /// several-hosts
    MultipleHosts,
    /// no-host
    MissingHost,
    /// bad-host
    BadHost,
    /// other-scheme
    WrongScheme,
    /// other-host
    Misdirected,
    /// bad-target
    BadTarget,
    /// bad-status-line
    BadStatusLine,
    /// switched
    SwitchingProtocols,
    /// TRACE or OPTIONS whose Max-Forwards is 0 goes no further (RFC 9110, 7.6.2).
    MaxForwards,
    /// A GET or HEAD with content is passed.
    RequestContent,
    /// If-Match or If-Unmodified-Since: passed (RFC 9111, 4.3.2).
    Precondition,
    /// The response, or the request that is passed, has no-store (RFC 9111, 5.2.2.5, 5.2.1.5).
    NoStore,
    /// status
    Status,
    /// A part of a response (206).
    Partial,
    /// not-modified
    NotModified,
    /// request-no-store
    RequestNoStore,
    /// not-understood
    MustUnderstand,
    /// private
    Private,
    /// vary-any
    VaryStar,
    /// authorization
    Authorization,
    /// set-cookie
    SetCookie,
    /// no-freshness
    NoFreshness,
    /// Lifetime and windows are 0, and there is no ETag or Last-Modified that can be read.
    NeverReusable,
    /// too-many-lines
    TooManyStoredFields,
    /// A chunk of a body cannot be read (RFC 9112, 7.1).
    BadChunk,
    /// A trailer of a body cannot be read (RFC 9112, 7.1.2).
    BadTrailer,
    /// stored-is-good
    StoredIsGood,
    /// never-store
    NeverStore,
    /// field-too-long
    FieldTooLong,
    /// The origin gave no answer.
    OriginDown,
    /// The request has only-if-cached, and nothing that is stored answers it (RFC 9111, 5.2.1.7).
    OnlyIfCached,
    /// Something stale answers while it is fetched anew (RFC 5861, 3).
    StaleWhileRevalidate,
    /// Something stale answers in the place of an error (RFC 5861, 4).
    StaleIfError,
    /// Something stale answers, since the origin gave no answer.
    StaleIfDown,
    /// A purge named its key since it was asked for.
    Purged,
    /// The tier refused to store it.
    StoreFailed,
    /// The body is longer than may be stored.
    BodyTooLong,
    /// The proxy has as many exchanges as it may have.
    TooBusy,
    /// a reason that this crate does not know
    Unknown,
}
#[allow(dead_code)]
impl Reason {
    /// The reason of a number, as an event of the gateway has it for logs; of 0, which is none, Unknown.
    pub fn from_word(word: u64) -> Reason {
        match word {
            1 => Reason::TargetTooLong,
            2 => Reason::HeadTooLong,
            3 => Reason::BareLineEnd,
            4 => Reason::BadRequestLine,
            5 => Reason::HttpVersion,
            6 => Reason::Method,
            7 => Reason::TooManyFields,
            8 => Reason::ObsFold,
            9 => Reason::SpaceBeforeColon,
            10 => Reason::BadField,
            11 => Reason::LengthAndTransferEncoding,
            12 => Reason::BadContentLength,
            13 => Reason::TransferEncodingIn10,
            14 => Reason::UnknownTransferCoding,
            15 => Reason::BadTransferEncoding,
            16 => Reason::MultipleHosts,
            17 => Reason::MissingHost,
            18 => Reason::BadHost,
            19 => Reason::WrongScheme,
            20 => Reason::Misdirected,
            21 => Reason::BadTarget,
            22 => Reason::BadStatusLine,
            23 => Reason::SwitchingProtocols,
            24 => Reason::MaxForwards,
            25 => Reason::RequestContent,
            26 => Reason::Precondition,
            27 => Reason::NoStore,
            28 => Reason::Status,
            29 => Reason::Partial,
            30 => Reason::NotModified,
            31 => Reason::RequestNoStore,
            32 => Reason::MustUnderstand,
            33 => Reason::Private,
            34 => Reason::VaryStar,
            35 => Reason::Authorization,
            36 => Reason::SetCookie,
            37 => Reason::NoFreshness,
            38 => Reason::NeverReusable,
            39 => Reason::TooManyStoredFields,
            40 => Reason::BadChunk,
            41 => Reason::BadTrailer,
            42 => Reason::StoredIsGood,
            43 => Reason::NeverStore,
            44 => Reason::FieldTooLong,
            50 => Reason::OriginDown,
            51 => Reason::OnlyIfCached,
            52 => Reason::StaleWhileRevalidate,
            53 => Reason::StaleIfError,
            54 => Reason::StaleIfDown,
            55 => Reason::Purged,
            56 => Reason::StoreFailed,
            57 => Reason::BodyTooLong,
            58 => Reason::TooBusy,
            _ => Reason::Unknown,
        }
    }
    /// Its name, as it stands in Cache-Status.
    pub fn as_str(self) -> &'static str {
        match self {
            Reason::TargetTooLong => "target-too-long",
            Reason::HeadTooLong => "head-too-long",
            Reason::BareLineEnd => "bare-line-end",
            Reason::BadRequestLine => "bad-request-line",
            Reason::HttpVersion => "version",
            Reason::Method => "method",
            Reason::TooManyFields => "too-many-fields",
            Reason::ObsFold => "folded",
            Reason::SpaceBeforeColon => "blank-before-colon",
            Reason::BadField => "bad-field",
            Reason::LengthAndTransferEncoding => "length-and-coding",
            Reason::BadContentLength => "bad-length",
            Reason::TransferEncodingIn10 => "coding-in-1-0",
            Reason::UnknownTransferCoding => "unknown-coding",
            Reason::BadTransferEncoding => "bad-coding",
            Reason::MultipleHosts => "several-hosts",
            Reason::MissingHost => "no-host",
            Reason::BadHost => "bad-host",
            Reason::WrongScheme => "other-scheme",
            Reason::Misdirected => "other-host",
            Reason::BadTarget => "bad-target",
            Reason::BadStatusLine => "bad-status-line",
            Reason::SwitchingProtocols => "switched",
            Reason::MaxForwards => "last-forward",
            Reason::RequestContent => "content",
            Reason::Precondition => "precondition",
            Reason::NoStore => "no-store",
            Reason::Status => "status",
            Reason::Partial => "partial",
            Reason::NotModified => "not-modified",
            Reason::RequestNoStore => "request-no-store",
            Reason::MustUnderstand => "not-understood",
            Reason::Private => "private",
            Reason::VaryStar => "vary-any",
            Reason::Authorization => "authorization",
            Reason::SetCookie => "set-cookie",
            Reason::NoFreshness => "no-freshness",
            Reason::NeverReusable => "never-usable",
            Reason::TooManyStoredFields => "too-many-lines",
            Reason::BadChunk => "bad-chunk",
            Reason::BadTrailer => "bad-trailer",
            Reason::StoredIsGood => "stored-is-good",
            Reason::NeverStore => "never-store",
            Reason::FieldTooLong => "field-too-long",
            Reason::OriginDown => "no-answer",
            Reason::OnlyIfCached => "only-if-cached",
            Reason::StaleWhileRevalidate => "stale-while-revalidate",
            Reason::StaleIfError => "stale-if-error",
            Reason::StaleIfDown => "stale-if-down",
            Reason::Purged => "purged",
            Reason::StoreFailed => "unstored",
            Reason::BodyTooLong => "body-too-long",
            Reason::TooBusy => "too-busy",
            Reason::Unknown => "",
        }
    }
    pub(crate) fn word(self) -> u64 {
        match self {
            Reason::TargetTooLong => 1,
            Reason::HeadTooLong => 2,
            Reason::BareLineEnd => 3,
            Reason::BadRequestLine => 4,
            Reason::HttpVersion => 5,
            Reason::Method => 6,
            Reason::TooManyFields => 7,
            Reason::ObsFold => 8,
            Reason::SpaceBeforeColon => 9,
            Reason::BadField => 10,
            Reason::LengthAndTransferEncoding => 11,
            Reason::BadContentLength => 12,
            Reason::TransferEncodingIn10 => 13,
            Reason::UnknownTransferCoding => 14,
            Reason::BadTransferEncoding => 15,
            Reason::MultipleHosts => 16,
            Reason::MissingHost => 17,
            Reason::BadHost => 18,
            Reason::WrongScheme => 19,
            Reason::Misdirected => 20,
            Reason::BadTarget => 21,
            Reason::BadStatusLine => 22,
            Reason::SwitchingProtocols => 23,
            Reason::MaxForwards => 24,
            Reason::RequestContent => 25,
            Reason::Precondition => 26,
            Reason::NoStore => 27,
            Reason::Status => 28,
            Reason::Partial => 29,
            Reason::NotModified => 30,
            Reason::RequestNoStore => 31,
            Reason::MustUnderstand => 32,
            Reason::Private => 33,
            Reason::VaryStar => 34,
            Reason::Authorization => 35,
            Reason::SetCookie => 36,
            Reason::NoFreshness => 37,
            Reason::NeverReusable => 38,
            Reason::TooManyStoredFields => 39,
            Reason::BadChunk => 40,
            Reason::BadTrailer => 41,
            Reason::StoredIsGood => 42,
            Reason::NeverStore => 43,
            Reason::FieldTooLong => 44,
            Reason::OriginDown => 50,
            Reason::OnlyIfCached => 51,
            Reason::StaleWhileRevalidate => 52,
            Reason::StaleIfError => 53,
            Reason::StaleIfDown => 54,
            Reason::Purged => 55,
            Reason::StoreFailed => 56,
            Reason::BodyTooLong => 57,
            Reason::TooBusy => 58,
            Reason::Unknown => 0,
        }
    }
}
/// Whether a stored response may answer (RFC 9111, 4).
#[derive(Clone, Copy, Debug, PartialEq, Eq, Hash)]
pub enum Reuse {
    /// fresh
    Fresh,
    /// as the client lets it
    Stale,
    /// while it is fetched anew
    WhileRevalidating,
    /// after-validation
    AfterValidation,
    /// pass, and leave it
    Bypass,
}
#[allow(dead_code)]
impl Reuse {
    pub(crate) fn from_word(word: u64) -> Reuse {
        match word {
            1 => Reuse::Fresh,
            2 => Reuse::Stale,
            3 => Reuse::WhileRevalidating,
            4 => Reuse::AfterValidation,
            _ => Reuse::Bypass,
        }
    }
}
/// Why a request went to the origin (RFC 9211, fwd).
#[derive(Clone, Copy, Debug, PartialEq, Eq, Hash)]
pub enum Fwd {
    /// uri-miss
    UriMiss,
    /// vary-miss
    VaryMiss,
    /// miss
    Miss,
    /// stale
    Stale,
    /// request
    Request,
    /// method
    Method,
    /// bypass
    Bypass,
}
#[allow(dead_code)]
impl Fwd {
    pub(crate) fn from_word(word: u64) -> Fwd {
        match word {
            1 => Fwd::UriMiss,
            2 => Fwd::VaryMiss,
            3 => Fwd::Miss,
            4 => Fwd::Stale,
            5 => Fwd::Request,
            6 => Fwd::Method,
            _ => Fwd::Bypass,
        }
    }
    pub(crate) fn word(self) -> u64 {
        match self {
            Fwd::UriMiss => 1,
            Fwd::VaryMiss => 2,
            Fwd::Miss => 3,
            Fwd::Stale => 4,
            Fwd::Request => 5,
            Fwd::Method => 6,
            Fwd::Bypass => 7,
        }
    }
}
/// What forward_request wrote.
#[derive(Clone, Copy, Debug, PartialEq, Eq, Hash)]
pub enum FetchKind {
    /// pass
    Pass,
    /// full
    Full,
    /// with the stored validators; where there is none it is written as FULL, and `fetch` says so
    Conditional,
    /// as FULL, without the client's conditions and range: after MISMATCH, and where there is no client
    Unconditional,
}
#[allow(dead_code)]
impl FetchKind {
    pub(crate) fn from_word(word: u64) -> FetchKind {
        match word {
            1 => FetchKind::Pass,
            2 => FetchKind::Full,
            3 => FetchKind::Conditional,
            _ => FetchKind::Unconditional,
        }
    }
    pub(crate) fn word(self) -> u64 {
        match self {
            FetchKind::Pass => 1,
            FetchKind::Full => 2,
            FetchKind::Conditional => 3,
            FetchKind::Unconditional => 4,
        }
    }
}
