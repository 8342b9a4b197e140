//! A manager.

use crate::calls::{
    self, snmpsec_manager_absorb, snmpsec_manager_answered, snmpsec_manager_ask,
    snmpsec_manager_ask_discovery, snmpsec_manager_clock, snmpsec_manager_discover,
    snmpsec_manager_free, snmpsec_manager_give_up, snmpsec_manager_info, snmpsec_manager_max_size,
    snmpsec_manager_message, snmpsec_manager_new, snmpsec_manager_part, snmpsec_manager_reply,
    snmpsec_manager_report, snmpsec_manager_request, snmpsec_manager_save, snmpsec_manager_seal,
    snmpsec_manager_take, snmpsec_manager_take_reply,
};
use crate::fault::{done, Error};
use crate::held::{copied, Calls, Held};
use crate::words::{Info, Level, Part, Pdu};

static CALLS: Calls = Calls {
    free: snmpsec_manager_free,
    take: snmpsec_manager_take,
    info: snmpsec_manager_info,
    part: snmpsec_manager_part,
    message: snmpsec_manager_message,
};

/// A manager, which one thread uses at a time.
pub struct Manager {
    held: Held,
}

/// What a message is to the request that was written last.
#[derive(Clone, Copy, Debug, PartialEq, Eq)]
pub enum Reply {
    Response,
    Other,
    /// A Report of this counter, 1 to 6 by the order of [`Counters`](crate::Counters), or of none.
    Report(Option<u32>),
}

impl Reply {
    fn of(reply: &calls::Reply) -> Option<Reply> {
        match (reply.kind, reply.counter) {
            (0, _) => Some(Reply::Response),
            (1, _) => Some(Reply::Other),
            (2, 0) => Some(Reply::Report(None)),
            (2, n @ 1..=6) => Some(Reply::Report(Some(n as u32))),
            _ => None,
        }
    }
}

/// What a message is to a request that was asked.
#[derive(Clone, Copy, Debug, PartialEq, Eq)]
pub enum Answer {
    /// Its Response, which ends it.
    Response,
    /// A Report.
    Report {
        /// 1 to 6 by the order of [`Counters`](crate::Counters), a number of [`Unhandled`](crate::Unhandled), or none
        /// of them.
        counter: Option<u32>,
        /// It came with authentication, from the engine that was asked and for the user that asks; any other can be
        /// anybody's.
        is_authentic: bool,
    },
}

/// What a Report tells.
#[derive(Clone, Copy, Debug, PartialEq, Eq)]
pub struct Report {
    /// 1 to 6 by the order of [`Counters`](crate::Counters), a number of [`Unhandled`](crate::Unhandled), or none of
    /// them.
    pub counter: Option<u32>,
    /// The counter's value.
    pub value: Option<u32>,
    /// It came with authentication; without, it can be anybody's.
    pub is_authenticated: bool,
}

/// The boots and time of an engine, in seconds.
#[derive(Clone, Copy, Debug, PartialEq, Eq)]
pub struct Clock {
    pub boots: u32,
    pub time: u32,
}

/// A request that is to be written.
#[derive(Clone, Copy, Debug)]
pub struct Request<'a> {
    pub pdu: Pdu,
    pub message_id: u32,
    pub request_id: u32,
    /// Or non-repeaters.
    pub error_status: u32,
    /// Or max-repetitions.
    pub error_index: u32,
    pub level: Level,
    pub engine: &'a [u8],
    pub user: &'a [u8],
    pub context_engine: &'a [u8],
    pub context_name: &'a [u8],
    pub bindings: &'a [u8],
}

impl<'a> Request<'a> {
    fn to_call(self, salt: u64) -> calls::Request<'a> {
        calls::Request {
            pdu: self.pdu as u32,
            message_id: self.message_id,
            request_id: self.request_id,
            error_status: self.error_status,
            error_index: self.error_index,
            level: self.level as u32,
            engine: self.engine.into(),
            user: self.user.into(),
            context_engine: self.context_engine.into(),
            context_name: self.context_name.into(),
            list: self.bindings.into(),
            salt,
        }
    }
}

/// How a scopedPDU is sealed, and for whom: for programs that test agents, which send what no well-behaved manager
/// sends.
#[derive(Clone, Copy, Debug)]
pub struct Sealing<'a> {
    pub message_id: u32,
    /// How many octets the answer may have, 484 to 2147483647 (msgMaxSize).
    pub max_size: u32,
    /// A message that is refused is reported.
    pub is_reportable: bool,
    pub level: Level,
    pub engine: &'a [u8],
    pub user: &'a [u8],
    /// What the message says of the engine's clock.
    pub clock: Clock,
}

impl Manager {
    /// A manager with the users of a configuration, that begins with the clocks of a saved text, where the marks of
    /// version 1 were seen at this moment in seconds.
    pub fn new(config: &[u8], clocks: &[u8], now: u64) -> Result<Manager, Error> {
        let held = Held::of(&CALLS, |at| unsafe {
            snmpsec_manager_new(
                config.as_ptr(),
                config.len(),
                clocks.as_ptr(),
                clocks.len(),
                now,
                at,
            )
        })?;
        Ok(Manager { held })
    }

    /// Takes a datagram, learns its engine's boots and time where it is authentic, and keeps it where it is accepted.
    pub fn take(&mut self, now: u64, datagram: &[u8]) -> Result<(), Error> {
        self.held.take(now, datagram)
    }

    /// The numbers of what is kept.
    pub fn info(&self) -> Result<Info, Error> {
        self.held.info()
    }

    /// A part of what is kept.
    pub fn part(&self, part: Part) -> Result<Vec<u8>, Error> {
        self.held.part(part)
    }

    /// The request that was written last, where nothing was taken since.
    pub fn message(&self) -> Result<Vec<u8>, Error> {
        self.held.message()
    }

    /// What is kept is to the request that was written last.
    pub fn reply(&self) -> Result<Reply, Error> {
        let mut reply = calls::Reply::default();
        done(unsafe { snmpsec_manager_reply(self.held.at(), &mut reply) })?;
        Reply::of(&reply).ok_or(Error::Other(reply.counter))
    }

    /// The same, and where it is the Response the request isn't waited for any more.
    pub fn take_reply(&mut self) -> Result<Reply, Error> {
        let mut reply = calls::Reply::default();
        done(unsafe { snmpsec_manager_take_reply(self.held.at(), &mut reply) })?;
        Reply::of(&reply).ok_or(Error::Other(reply.counter))
    }

    /// What is kept tells. The error is NothingTaken, where it is no Report on the request that was written last.
    pub fn report(&self) -> Result<Report, Error> {
        let mut report = calls::Report::default();
        done(unsafe { snmpsec_manager_report(self.held.at(), &mut report) })?;
        Ok(Report {
            counter: u32::try_from(report.counter).ok().filter(|n| *n > 0),
            value: report.has_value.then_some(report.value),
            is_authenticated: report.is_authenticated,
        })
    }

    /// How many octets the sender of what is kept takes, 484 to 2147483647 (msgMaxSize).
    pub fn max_size(&self) -> Result<u32, Error> {
        let mut size = 0;
        done(unsafe { snmpsec_manager_max_size(self.held.at(), &mut size) })?;
        Ok(size)
    }

    /// Writes the request by which an engine is discovered.
    pub fn discover(&mut self, message_id: u32) -> Result<(), Error> {
        done(unsafe { snmpsec_manager_discover(self.held.at(), message_id) })
    }

    /// Writes a request. One is waited for at a time; [`ask`](Manager::ask) has many.
    pub fn request(&mut self, now: u64, of: &Request<'_>, salt: u64) -> Result<(), Error> {
        let request = of.to_call(salt);
        done(unsafe { snmpsec_manager_request(self.held.at(), now, &request) })
    }

    /// Seals a scopedPDU, which [`scoped_pdu`](crate::scoped_pdu) writes, as the message. No answer to it is waited
    /// for, and the clocks stay.
    pub fn seal(&mut self, of: &Sealing<'_>, scoped: &[u8], salt: u64) -> Result<(), Error> {
        let sealing = calls::Sealing {
            message_id: of.message_id,
            max_size: of.max_size,
            is_reportable: of.is_reportable,
            level: of.level as u32,
            engine: of.engine.into(),
            user: of.user.into(),
            boots: of.clock.boots,
            time: of.clock.time,
            scoped: scoped.into(),
            salt,
        };
        done(unsafe { snmpsec_manager_seal(self.held.at(), &sealing) })
    }

    /// Writes a request that waits for its answer beside all others that were asked, and returns its token. The first
    /// of all has the `message_id` of the request, which is to be random; each later one has the next that none has
    /// that waits. At most 65,536 wait.
    pub fn ask(&mut self, now: u64, of: &Request<'_>, salt: u64) -> Result<u64, Error> {
        let request = of.to_call(salt);
        let mut token = 0;
        done(unsafe { snmpsec_manager_ask(self.held.at(), now, &request, &mut token) })?;
        Ok(token)
    }

    /// Writes the request by which an engine is discovered, as [`ask`](Manager::ask) does. It waits until it is given
    /// up.
    pub fn ask_discovery(&mut self, message_id: u32) -> Result<u64, Error> {
        let mut token = 0;
        done(unsafe { snmpsec_manager_ask_discovery(self.held.at(), message_id, &mut token) })?;
        Ok(token)
    }

    /// The token of the request that is answered by what is kept, and how. None: it answers none that waits. A Response
    /// is reported once.
    pub fn answered(&mut self) -> Result<Option<(u64, Answer)>, Error> {
        let mut found = calls::Answered::default();
        done(unsafe { snmpsec_manager_answered(self.held.at(), &mut found) })?;
        Ok(match found.kind {
            0 => Some((found.token, Answer::Response)),
            2 => Some((
                found.token,
                Answer::Report {
                    counter: u32::try_from(found.counter).ok().filter(|n| *n > 0),
                    is_authentic: found.is_authentic,
                },
            )),
            _ => None,
        })
    }

    /// The request with this token isn't waited for any more. The error is NothingTaken, where it doesn't wait.
    pub fn give_up(&mut self, token: u64) -> Result<(), Error> {
        done(unsafe { snmpsec_manager_give_up(self.held.at(), token) })
    }

    /// Joins in the clocks of a saved text, where the marks of version 1 were seen at this moment.
    pub fn absorb(&mut self, text: &[u8], now: u64) -> Result<(), Error> {
        done(unsafe { snmpsec_manager_absorb(self.held.at(), text.as_ptr(), text.len(), now) })
    }

    /// The saved text of the clocks. The message stays.
    pub fn saved(&mut self) -> Result<Vec<u8>, Error> {
        let at = self.held.at();
        copied(|out, len, written| unsafe { snmpsec_manager_save(at, out, len, written) })
    }

    /// The boots and time that are held of an engine. The errors are BadArgument for no engine ID, and NothingTaken.
    pub fn clock(&self, engine: &[u8]) -> Result<Clock, Error> {
        let mut clock = calls::Clock::default();
        done(unsafe {
            snmpsec_manager_clock(self.held.at(), engine.as_ptr(), engine.len(), &mut clock)
        })?;
        Ok(Clock {
            boots: clock.boots,
            time: clock.time,
        })
    }
}
