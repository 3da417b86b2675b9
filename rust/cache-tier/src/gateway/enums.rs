//! Numbers of the gateway as enums. Written by tools/dev/interface.py: change the tables in embed, and run it with --write.
#![cfg_attr(rustfmt, rustfmt_skip)]

/// What comes behind the pieces for the client.
#[derive(Clone, Copy, Debug, PartialEq, Eq, Hash)]
pub enum ClientEnd {
    /// This call says nothing of it.
    Nothing,
    /// Poll once the exchange is woken, or at `at`.
    Wait,
    /// The answer is over: the next request may be parsed.
    End,
    /// The answer is over, and so is the connection.
    Close,
    /// The answer stays incomplete: the connection is closed.
    Truncated,
}
#[allow(dead_code)]
impl ClientEnd {
    pub(crate) fn from_word(word: u64) -> ClientEnd {
        match word {
            0 => ClientEnd::Nothing,
            1 => ClientEnd::Wait,
            2 => ClientEnd::End,
            3 => ClientEnd::Close,
            _ => ClientEnd::Truncated,
        }
    }
    pub(crate) fn word(self) -> u64 {
        match self {
            ClientEnd::Nothing => 0,
            ClientEnd::Wait => 1,
            ClientEnd::End => 2,
            ClientEnd::Close => 3,
            ClientEnd::Truncated => 4,
        }
    }
}
/// What to do on the origin's connection of the exchange.
#[derive(Clone, Copy, Debug, PartialEq, Eq, Hash)]
pub enum OriginAction {
    /// nothing
    Nothing,
    /// Take a connection, and write `to_origin` on it. One that the exchange had is closed.
    SendRequest,
    /// Write `to_origin` on it.
    SendData,
    /// What comes next goes to response_data.
    ReceiveBody,
    /// Read on, after BLOCKED.
    Continue,
    /// It is over, and the connection may serve another exchange.
    Reusable,
    /// Close it.
    CloseOrigin,
}
#[allow(dead_code)]
impl OriginAction {
    pub(crate) fn from_word(word: u64) -> OriginAction {
        match word {
            0 => OriginAction::Nothing,
            1 => OriginAction::SendRequest,
            2 => OriginAction::SendData,
            3 => OriginAction::ReceiveBody,
            4 => OriginAction::Continue,
            5 => OriginAction::Reusable,
            _ => OriginAction::CloseOrigin,
        }
    }
    pub(crate) fn word(self) -> u64 {
        match self {
            OriginAction::Nothing => 0,
            OriginAction::SendRequest => 1,
            OriginAction::SendData => 2,
            OriginAction::ReceiveBody => 3,
            OriginAction::Continue => 4,
            OriginAction::Reusable => 5,
            OriginAction::CloseOrigin => 6,
        }
    }
}
/// How the origin's connection ended.
#[derive(Clone, Copy, Debug, PartialEq, Eq, Hash)]
pub enum Closed {
    /// By the stream's own end.
    Clean,
    /// It failed, or could not be opened.
    Failed,
    /// The mover waited long enough.
    Timeout,
    /// A kept connection ended before a byte came.
    Unused,
}
#[allow(dead_code)]
impl Closed {
    pub(crate) fn from_word(word: u64) -> Closed {
        match word {
            1 => Closed::Clean,
            2 => Closed::Failed,
            3 => Closed::Timeout,
            _ => Closed::Unused,
        }
    }
    pub(crate) fn word(self) -> u64 {
        match self {
            Closed::Clean => 1,
            Closed::Failed => 2,
            Closed::Timeout => 3,
            Closed::Unused => 4,
        }
    }
}
/// How what is stored answers, of the events HIT and COLLAPSED.
#[derive(Clone, Copy, Debug, PartialEq, Eq, Hash)]
pub enum Reuse {
    /// fresh
    Fresh,
    /// stale
    Stale,
    /// while-revalidating
    WhileRevalidating,
    /// after-validation
    AfterValidation,
    /// bypass
    Bypass,
}
#[allow(dead_code)]
impl Reuse {
    pub(crate) fn from_word(word: u64) -> Reuse {
        match word {
            1 => Reuse::Fresh,
            2 => Reuse::Stale,
            3 => Reuse::WhileRevalidating,
            4 => Reuse::AfterValidation,
            _ => Reuse::Bypass,
        }
    }
    pub(crate) fn word(self) -> u64 {
        match self {
            Reuse::Fresh => 1,
            Reuse::Stale => 2,
            Reuse::WhileRevalidating => 3,
            Reuse::AfterValidation => 4,
            Reuse::Bypass => 5,
        }
    }
}
/// What the origin is asked, of the event REQUESTED.
#[derive(Clone, Copy, Debug, PartialEq, Eq, Hash)]
pub enum Fetch {
    /// pass
    Pass,
    /// full
    Full,
    /// conditional
    Conditional,
    /// unconditional
    Unconditional,
    /// As PASS, since the last response under the key was not stored.
    Unstored,
}
#[allow(dead_code)]
impl Fetch {
    pub(crate) fn from_word(word: u64) -> Fetch {
        match word {
            1 => Fetch::Pass,
            2 => Fetch::Full,
            3 => Fetch::Conditional,
            4 => Fetch::Unconditional,
            _ => Fetch::Unstored,
        }
    }
    pub(crate) fn word(self) -> u64 {
        match self {
            Fetch::Pass => 1,
            Fetch::Full => 2,
            Fetch::Conditional => 3,
            Fetch::Unconditional => 4,
            Fetch::Unstored => 5,
        }
    }
}
