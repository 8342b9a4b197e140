//! An agent.

use crate::calls::{
    self, snmpsec_agent_access, snmpsec_agent_counters, snmpsec_agent_counts, snmpsec_agent_fits,
    snmpsec_agent_free, snmpsec_agent_info, snmpsec_agent_max_size, snmpsec_agent_message,
    snmpsec_agent_new, snmpsec_agent_next, snmpsec_agent_notify, snmpsec_agent_part,
    snmpsec_agent_reconfigure, snmpsec_agent_refuse, snmpsec_agent_respond,
    snmpsec_agent_respond_front, snmpsec_agent_respond_within, snmpsec_agent_silent_drop,
    snmpsec_agent_take, snmpsec_agent_unhandled, snmpsec_agent_user_access, snmpsec_status_of,
};
use crate::fault::{done, Error};
use crate::held::{Calls, Held};
use crate::words::{Access, Info, Level, Part, Pdu, Status, Unhandled, View};

/// The most arcs of a name.
const MOST_ARCS: usize = 128;

static CALLS: Calls = Calls {
    free: snmpsec_agent_free,
    take: snmpsec_agent_take,
    info: snmpsec_agent_info,
    part: snmpsec_agent_part,
    message: snmpsec_agent_message,
};

/// An agent, which one thread uses at a time.
pub struct Agent {
    pub(crate) held: Held,
}

/// An SNMPv2-Trap that is to be written.
#[derive(Clone, Copy, Debug)]
pub struct Notification<'a> {
    pub message_id: u32,
    pub user: &'a [u8],
    pub level: Level,
    pub request_id: u32,
    pub context_engine: &'a [u8],
    pub context_name: &'a [u8],
    pub bindings: &'a [u8],
}

/// How often a message was refused: usmStats (RFC 3414, section 5).
#[derive(Clone, Copy, Debug, PartialEq, Eq)]
pub struct Counters {
    pub unsupported_levels: u32,
    pub not_in_windows: u32,
    pub unknown_users: u32,
    pub unknown_engines: u32,
    pub wrong_digests: u32,
    pub decryption_errors: u32,
}

/// How often a message wasn't answered, or was refused without a report (RFC 3412, section 5; RFC 3413, section 4.1.2;
/// RFC 3418).
#[derive(Clone, Copy, Debug, PartialEq, Eq)]
pub struct Counts {
    pub unknown_pdu_handlers: u32,
    pub unavailable_contexts: u32,
    pub unknown_contexts: u32,
    pub bad_versions: u32,
    pub asn_parse_errors: u32,
    pub unknown_security_models: u32,
    pub invalid_messages: u32,
    pub silent_drops: u32,
}

impl From<calls::Counters> for Counters {
    fn from(n: calls::Counters) -> Counters {
        Counters {
            unsupported_levels: n.unsupported_levels,
            not_in_windows: n.not_in_windows,
            unknown_users: n.unknown_users,
            unknown_engines: n.unknown_engines,
            wrong_digests: n.wrong_digests,
            decryption_errors: n.decryption_errors,
        }
    }
}

impl From<calls::Counts> for Counts {
    fn from(n: calls::Counts) -> Counts {
        Counts {
            unknown_pdu_handlers: n.unknown_pdu_handlers,
            unavailable_contexts: n.unavailable_contexts,
            unknown_contexts: n.unknown_contexts,
            bad_versions: n.bad_versions,
            asn_parse_errors: n.asn_parse_errors,
            unknown_security_models: n.unknown_security_models,
            invalid_messages: n.invalid_messages,
            silent_drops: n.silent_drops,
        }
    }
}

/// What becomes of a variable, by the answer on access and the PDU that asks (RFC 3413, section 3.2).
pub fn status_of(access: Access, pdu: Pdu) -> Result<Status, Error> {
    let mut status = 0;
    done(unsafe { snmpsec_status_of(access as u32, pdu as u32, &mut status) })?;
    Status::of(status).ok_or(Error::Other(status as i32))
}

/// Whether a call answers that access is allowed, or why not.
pub(crate) fn told(call: impl FnOnce(*mut u32) -> i32) -> Result<Access, Error> {
    let mut access = 0;
    done(call(&mut access))?;
    Access::of(access).ok_or(Error::Other(access as i32))
}

impl Agent {
    /// An agent of a configuration, with its engine ID and boots, that started at this moment in seconds.
    ///
    /// The errors are BadArgument, where the engine ID hasn't 5 to 32 octets or is all 00 or all ff, or boots are above
    /// 2147483647; BadConfiguration; and OutOfMemory.
    pub fn new(config: &[u8], engine: &[u8], boots: u32, started: u64) -> Result<Agent, Error> {
        let held = Held::of(&CALLS, |at| unsafe {
            snmpsec_agent_new(
                config.as_ptr(),
                config.len(),
                engine.as_ptr(),
                engine.len(),
                boots,
                started,
                at,
            )
        })?;
        Ok(Agent { held })
    }

    /// Users and tables become those of a changed configuration. The engine ID, the boots, the moment of the start, all
    /// counters, what is kept and the message stay. The errors are BadConfiguration and OutOfMemory, and nothing
    /// changes then.
    pub fn reconfigure(&mut self, config: &[u8]) -> Result<(), Error> {
        done(unsafe { snmpsec_agent_reconfigure(self.held.at(), config.as_ptr(), config.len()) })
    }

    /// Takes a datagram: what is accepted is kept, and of what is refused the report is the message.
    pub fn take(&mut self, now: u64, datagram: &[u8]) -> Result<(), Error> {
        self.held.take(now, datagram)
    }

    /// The numbers of what is kept.
    pub fn info(&self) -> Result<Info, Error> {
        self.held.info()
    }

    /// A part of what is kept.
    pub fn part(&self, part: Part) -> Result<Vec<u8>, Error> {
        self.held.part(part)
    }

    /// The message to be sent.
    pub fn message(&self) -> Result<Vec<u8>, Error> {
        self.held.message()
    }

    /// Whether the sender of what is kept may see the variable, or why not.
    pub fn access(&self, view: View, arcs: &[u32]) -> Result<Access, Error> {
        let at = self.held.at();
        told(|out| unsafe { snmpsec_agent_access(at, view as u32, arcs.as_ptr(), arcs.len(), out) })
    }

    /// Whether the sender of what is kept may see the variable; false on each error too.
    pub fn allows(&self, view: View, arcs: &[u32]) -> bool {
        self.access(view, arcs) == Ok(Access::Allowed)
    }

    /// The least name, at or after these arcs, that the sender of what is kept may see (RFC 3416, section 4.2.2). None
    /// if there is no such name. An agent that walks goes on there.
    pub fn next(&self, view: View, arcs: &[u32]) -> Result<Option<Vec<u32>>, Error> {
        let mut name = vec![0; MOST_ARCS];
        let mut len = 0;
        done(unsafe {
            snmpsec_agent_next(
                self.held.at(),
                view as u32,
                arcs.as_ptr(),
                arcs.len(),
                name.as_mut_ptr(),
                name.len(),
                &mut len,
            )
        })?;
        name.truncate(len);
        Ok((len > 0).then_some(name))
    }

    /// As `access`, for a user at a level in a context.
    pub fn user_access(
        &self,
        user: &[u8],
        level: Level,
        context: &[u8],
        view: View,
        arcs: &[u32],
    ) -> Result<Access, Error> {
        let at = self.held.at();
        told(|out| unsafe {
            snmpsec_agent_user_access(
                at,
                user.into(),
                level as u32,
                context.into(),
                view as u32,
                arcs.as_ptr(),
                arcs.len(),
                out,
            )
        })
    }

    /// Writes the Response to what is kept.
    pub fn respond(
        &mut self,
        now: u64,
        error_status: u32,
        error_index: u32,
        bindings: &[u8],
        salt: u64,
    ) -> Result<(), Error> {
        done(unsafe {
            snmpsec_agent_respond(
                self.held.at(),
                now,
                error_status,
                error_index,
                bindings.as_ptr(),
                bindings.len(),
                salt,
            )
        })
    }

    /// The same where it has at most `limit` octets; else it is refused as TooLarge. A Response without bindings fits
    /// into 484 if contextEngineID and contextName have at most 32 octets each.
    pub fn respond_within(
        &mut self,
        now: u64,
        error_status: u32,
        error_index: u32,
        bindings: &[u8],
        salt: u64,
        limit: u32,
    ) -> Result<(), Error> {
        done(unsafe {
            snmpsec_agent_respond_within(
                self.held.at(),
                now,
                error_status,
                error_index,
                bindings.as_ptr(),
                bindings.len(),
                salt,
                limit,
            )
        })
    }

    /// The Response with as many of the bindings, from the first on, as have room in `limit` octets, and how many they
    /// are. It is refused as TooLarge where there is no room even for a Response without bindings.
    pub fn respond_front(
        &mut self,
        now: u64,
        error_status: u32,
        error_index: u32,
        bindings: &[u8],
        salt: u64,
        limit: u32,
    ) -> Result<usize, Error> {
        let mut count = 0;
        done(unsafe {
            snmpsec_agent_respond_front(
                self.held.at(),
                now,
                error_status,
                error_index,
                bindings.as_ptr(),
                bindings.len(),
                salt,
                limit,
                &mut count,
            )
        })?;
        Ok(count)
    }

    /// How many of the bindings, from the first on, have room in that Response, as `respond_front` would say. Nothing
    /// is sealed or written.
    pub fn fits(
        &self,
        now: u64,
        error_status: u32,
        error_index: u32,
        bindings: &[u8],
        limit: u32,
    ) -> Result<usize, Error> {
        let mut count = 0;
        done(unsafe {
            snmpsec_agent_fits(
                self.held.at(),
                now,
                error_status,
                error_index,
                bindings.as_ptr(),
                bindings.len(),
                limit,
                &mut count,
            )
        })?;
        Ok(count)
    }

    /// How many octets the sender of what is kept takes, 484 to 2147483647 (msgMaxSize).
    pub fn max_size(&self) -> Result<u32, Error> {
        let mut size = 0;
        done(unsafe { snmpsec_agent_max_size(self.held.at(), &mut size) })?;
        Ok(size)
    }

    /// Why nothing answers what is kept, or None where it is to be answered.
    pub fn unhandled(&self) -> Result<Option<Unhandled>, Error> {
        let mut why = 0;
        done(unsafe { snmpsec_agent_unhandled(self.held.at(), &mut why) })?;
        if why == 0 {
            return Ok(None);
        }
        let why = Unhandled::of(why).ok_or(Error::Other(why as i32))?;
        Ok(Some(why))
    }

    /// Counts what is kept as one that isn't answered, and writes the report on it, where its PDU asks for an answer.
    pub fn refuse(&mut self, now: u64, why: Unhandled, salt: u64) -> Result<(), Error> {
        done(unsafe { snmpsec_agent_refuse(self.held.at(), now, why as u32, salt) })
    }

    /// Counts what is kept in snmpSilentDrops: even its answer without bindings is too long (RFC 3416, section 4.2.1).
    pub fn silent_drop(&mut self) -> Result<(), Error> {
        done(unsafe { snmpsec_agent_silent_drop(self.held.at()) })
    }

    /// The counters of messages that weren't answered, or were refused without a report.
    pub fn counts(&self) -> Result<Counts, Error> {
        let mut n = calls::Counts::default();
        done(unsafe { snmpsec_agent_counts(self.held.at(), &mut n) })?;
        Ok(n.into())
    }

    /// Writes an SNMPv2-Trap.
    pub fn notify(&mut self, now: u64, of: &Notification<'_>, salt: u64) -> Result<(), Error> {
        let notice = calls::Notice {
            message_id: of.message_id,
            request_id: of.request_id,
            level: of.level as u32,
            user: of.user.into(),
            context_engine: of.context_engine.into(),
            context_name: of.context_name.into(),
            list: of.bindings.into(),
            salt,
        };
        done(unsafe { snmpsec_agent_notify(self.held.at(), now, &notice) })
    }

    /// The counters of refused messages.
    pub fn counters(&self) -> Result<Counters, Error> {
        let mut n = calls::Counters::default();
        done(unsafe { snmpsec_agent_counters(self.held.at(), &mut n) })?;
        Ok(n.into())
    }
}
