//! The words of the header that stand for numbers.

use std::fmt;

/// How a message is secured (RFC 3411, section 5).
#[derive(Clone, Copy, Debug, PartialEq, Eq)]
pub enum Level {
    NoAuthNoPriv = 1,
    AuthNoPriv = 2,
    AuthPriv = 3,
}

impl Level {
    pub(crate) fn of(number: i32) -> Option<Level> {
        [Level::NoAuthNoPriv, Level::AuthNoPriv, Level::AuthPriv]
            .into_iter()
            .find(|level| *level as i32 == number)
    }
}

impl fmt::Display for Level {
    fn fmt(&self, f: &mut fmt::Formatter<'_>) -> fmt::Result {
        f.write_str(match self {
            Level::NoAuthNoPriv => "noAuthNoPriv",
            Level::AuthNoPriv => "authNoPriv",
            Level::AuthPriv => "authPriv",
        })
    }
}

/// Which of a row's views is asked for (RFC 3415, section 3).
#[derive(Clone, Copy, Debug, PartialEq, Eq)]
pub enum View {
    Read = 0,
    Write = 1,
    Notify = 2,
}

/// Whether a variable may be seen, or why not.
#[derive(Clone, Copy, Debug, PartialEq, Eq)]
pub enum Access {
    Allowed = 0,
    NotInView = 1,
    NoSuchView = 2,
    NoAccessEntry = 3,
    NoGroupName = 4,
    NoSuchContext = 5,
}

/// Why nothing answers a message (RFC 3412, section 4.2.2; RFC 3413, section 3.2).
#[derive(Clone, Copy, Debug, PartialEq, Eq)]
pub enum Unhandled {
    /// It is a Response or a Report, and no request waits for it.
    NoRequest = 1,
    /// Its contextEngineID isn't the agent's, or its PDU is no Get, GetNext, Set or GetBulk.
    UnknownPduHandlers = 7,
    /// Its context can't be reached now, which an agent says by itself.
    UnavailableContexts = 8,
    /// No context has its name.
    UnknownContexts = 9,
}

impl Unhandled {
    pub(crate) fn of(number: u32) -> Option<Unhandled> {
        let all = [
            Unhandled::NoRequest,
            Unhandled::UnknownPduHandlers,
            Unhandled::UnavailableContexts,
            Unhandled::UnknownContexts,
        ];
        all.into_iter().find(|why| *why as u32 == number)
    }
}

/// What becomes of a variable (RFC 3413, section 3.2): it is answered, an error-status, the value noSuchObject, a walk
/// goes on behind it, or the message is refused as of an unknown context.
#[derive(Clone, Copy, Debug, PartialEq, Eq)]
pub enum Status {
    NoError = 0,
    NoAccess = 6,
    AuthorizationError = 16,
    NoSuchObject = 128,
    NotSeen = 256,
    UnknownContext = 257,
}

impl Status {
    pub(crate) fn of(number: u32) -> Option<Status> {
        let all = [
            Status::NoError,
            Status::NoAccess,
            Status::AuthorizationError,
            Status::NoSuchObject,
            Status::NotSeen,
            Status::UnknownContext,
        ];
        all.into_iter().find(|status| *status as u32 == number)
    }
}

impl Access {
    pub(crate) fn of(number: u32) -> Option<Access> {
        let all = [
            Access::Allowed,
            Access::NotInView,
            Access::NoSuchView,
            Access::NoAccessEntry,
            Access::NoGroupName,
            Access::NoSuchContext,
        ];
        all.into_iter().find(|access| *access as u32 == number)
    }
}

/// A part of the message that is kept.
#[derive(Clone, Copy, Debug, PartialEq, Eq)]
pub enum Part {
    Bindings = 0,
    User = 1,
    ContextEngine = 2,
    ContextName = 3,
    Engine = 4,
}

/// A PDU by its tag (RFC 3416).
#[derive(Clone, Copy, Debug, PartialEq, Eq)]
pub enum Pdu {
    GetRequest = 0xA0,
    GetNextRequest = 0xA1,
    ResponsePdu = 0xA2,
    SetRequest = 0xA3,
    GetBulkRequest = 0xA5,
    InformRequest = 0xA6,
    Trap = 0xA7,
    ReportPdu = 0xA8,
}

/// The numbers of the message that is kept. Of a GetBulkRequest the fourth and fifth are non-repeaters and
/// max-repetitions.
#[derive(Clone, Copy, Debug, PartialEq, Eq)]
pub struct Info {
    pub level: Level,
    /// Its tag, as of [`Pdu`].
    pub pdu: i32,
    pub request_id: i32,
    pub error_status: i32,
    pub error_index: i32,
    pub message_id: i32,
}

impl Info {
    pub fn is(&self, pdu: Pdu) -> bool {
        self.pdu == pdu as i32
    }
}
