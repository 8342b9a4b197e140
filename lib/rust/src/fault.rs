//! Why a call isn't done.

use crate::calls::snmpsec_strerror;
use std::ffi::CStr;
use std::fmt;

/// Why a message is refused that was taken, or that was to be written.
#[derive(Clone, Copy, Debug, PartialEq, Eq)]
pub enum Refusal {
    NotMessage = 1,
    BadVersion = 2,
    NotSecurity = 3,
    NotScoped = 4,
    UnknownEngine = 6,
    UnknownUser = 7,
    UnsupportedLevel = 8,
    WrongDigest = 9,
    NotInWindow = 10,
    DecryptionError = 11,
    BadScoped = 12,
    BadPdu = 13,
    OutOfMemory = 14,
    ClockExhausted = 15,
    TooLarge = 16,
    UnknownModel = 17,
    InvalidFlags = 18,
}

const REFUSALS: [Refusal; 17] = [
    Refusal::NotMessage,
    Refusal::BadVersion,
    Refusal::NotSecurity,
    Refusal::NotScoped,
    Refusal::UnknownEngine,
    Refusal::UnknownUser,
    Refusal::UnsupportedLevel,
    Refusal::WrongDigest,
    Refusal::NotInWindow,
    Refusal::DecryptionError,
    Refusal::BadScoped,
    Refusal::BadPdu,
    Refusal::OutOfMemory,
    Refusal::ClockExhausted,
    Refusal::TooLarge,
    Refusal::UnknownModel,
    Refusal::InvalidFlags,
];

impl Refusal {
    fn of(number: i32) -> Option<Refusal> {
        REFUSALS
            .into_iter()
            .find(|refusal| *refusal as i32 == number)
    }
}

/// What the library says of an answer.
fn words(answer: i32) -> &'static str {
    let words = unsafe { CStr::from_ptr(snmpsec_strerror(answer)) };
    words.to_str().unwrap_or("unknown answer")
}

impl fmt::Display for Refusal {
    fn fmt(&self, f: &mut fmt::Formatter<'_>) -> fmt::Result {
        f.write_str(words(*self as i32))
    }
}

/// Why a call isn't done.
#[derive(Clone, Copy, Debug, PartialEq, Eq)]
#[non_exhaustive]
pub enum Error {
    Refused(Refusal),
    /// An argument is outside of its range.
    BadArgument,
    /// No accepted message is kept, or there is no message to be sent.
    NothingTaken,
    /// The message that is kept doesn't ask for a Response.
    NotAsked,
    /// The octets aren't variable bindings, one after another.
    BadBindings,
    ShortBuffer,
    /// The text is no configuration: [`config_fault`](crate::config_fault) says where and why.
    BadConfiguration,
    /// The text saves no clocks.
    BadClocks,
    /// 65,536 requests wait for their answers.
    TooManyRequests,
    /// A number that the header doesn't have.
    Other(i32),
}

impl Error {
    fn answer(&self) -> i32 {
        match self {
            Error::Refused(refusal) => *refusal as i32,
            Error::BadArgument => -1,
            Error::NothingTaken => -2,
            Error::NotAsked => -3,
            Error::BadBindings => -4,
            Error::ShortBuffer => -5,
            Error::BadConfiguration => -6,
            Error::BadClocks => -7,
            Error::TooManyRequests => -8,
            Error::Other(answer) => *answer,
        }
    }
}

impl fmt::Display for Error {
    fn fmt(&self, f: &mut fmt::Formatter<'_>) -> fmt::Result {
        match self {
            Error::Refused(refusal) => write!(f, "refused: {refusal}"),
            Error::Other(answer) => write!(f, "the library answered {answer}"),
            known => f.write_str(words(known.answer())),
        }
    }
}

impl std::error::Error for Refusal {}

impl std::error::Error for Error {}

/// The refusal of a number; None: it is of none.
pub(crate) fn refusal_of(number: i32) -> Option<Refusal> {
    Refusal::of(number)
}

/// What a call answers: 0 where it is done.
pub(crate) fn done(answer: i32) -> Result<(), Error> {
    Err(match answer {
        0 => return Ok(()),
        -1 => Error::BadArgument,
        -2 => Error::NothingTaken,
        -3 => Error::NotAsked,
        -4 => Error::BadBindings,
        -5 => Error::ShortBuffer,
        -6 => Error::BadConfiguration,
        -7 => Error::BadClocks,
        -8 => Error::TooManyRequests,
        _ => Refusal::of(answer).map_or(Error::Other(answer), Error::Refused),
    })
}
