//! A receiver of notifications, without sockets.

use crate::calls::{
    self, snmpsec_listener_clock, snmpsec_listener_count, snmpsec_listener_free,
    snmpsec_listener_info, snmpsec_listener_message, snmpsec_listener_new, snmpsec_listener_part,
    snmpsec_listener_save, snmpsec_listener_take, ListenerSettings, Opaque,
};
use crate::fault::{done, refusal_of, Error, Refusal};
use crate::held::{copied, numbers};
use crate::manager::Clock;
use crate::octets::Octets;
use crate::words::{Info, Level, Part};
use crate::NO_CLOCKS;
use std::ptr::{null_mut, NonNull};

/// The numbers of events.
#[derive(Clone, Copy)]
enum Event {
    ListenerTrap = 1,
    ListenerInform = 2,
    ListenerRefused = 3,
    ListenerOtherPdu = 19,
    ListenerLowLevel = 20,
    ListenerOtherAddress = 21,
    ListenerOutsideView = 22,
    ListenerCopy = 23,
    ListenerNoRoom = 24,
}

/// What a receiver of notifications is made of, besides a configuration. Moments are seconds from the beginning that
/// saved clocks have.
#[derive(Clone, Copy, Debug)]
pub struct Listening<'a> {
    /// The ID of its own engine.
    pub engine: &'a [u8],
    pub boots: u32,
    /// When its engine started; the marks of saved clocks of version 1 were seen then.
    pub started: u64,
    /// The saved clocks of senders.
    pub clocks: &'a [u8],
    /// None: for each user the highest level for which the user has passwords.
    pub least_level: Option<Level>,
    /// The addresses from which notifications at noAuthNoPriv are taken, each by any octets that the caller gives it.
    pub sources: &'a [&'a [u8]],
    /// How many notifications are remembered at once. When so many are, no other one is reported.
    pub most: usize,
}

impl Default for Listening<'_> {
    /// Without an engine ID, which has to be given.
    fn default() -> Self {
        Listening {
            engine: b"",
            boots: 1,
            started: 0,
            clocks: NO_CLOCKS,
            least_level: None,
            sources: &[],
            most: 65_536,
        }
    }
}

/// Why a datagram isn't reported.
#[derive(Clone, Copy, Debug, PartialEq, Eq)]
pub enum Dropped {
    /// It is refused, or it is an Inform whose acknowledgement is.
    Refused(Refusal),
    /// It is accepted, but is no notification.
    OtherPdu,
    /// Its level is below the least level.
    LowLevel,
    /// It has no authentication, and its address isn't one from which that is taken.
    OtherAddress,
    /// It isn't in the notify view of its user.
    OutsideView,
    /// It was reported before.
    Copy,
    /// As many others are remembered as may be.
    NoRoom,
}

/// What becomes of a datagram. What is to be sent to its sender, if there is something, is the message.
#[derive(Clone, Copy, Debug, PartialEq, Eq)]
pub enum Notified {
    Trap,
    Inform,
    Dropped(Dropped),
}

impl Dropped {
    const OF_EVENTS: [(Event, Dropped); 6] = [
        (Event::ListenerOtherPdu, Dropped::OtherPdu),
        (Event::ListenerLowLevel, Dropped::LowLevel),
        (Event::ListenerOtherAddress, Dropped::OtherAddress),
        (Event::ListenerOutsideView, Dropped::OutsideView),
        (Event::ListenerCopy, Dropped::Copy),
        (Event::ListenerNoRoom, Dropped::NoRoom),
    ];

    fn number(self) -> u32 {
        let mut found = Dropped::OF_EVENTS.iter().filter(|it| it.1 == self);
        match self {
            Dropped::Refused(why) => why as u32,
            _ => found.next().map_or(0, |it| it.0 as u32),
        }
    }

    fn of(event: u32, why: i32) -> Result<Dropped, Error> {
        let mut found = Dropped::OF_EVENTS.iter().filter(|it| it.0 as u32 == event);
        let dropped = if event == Event::ListenerRefused as u32 {
            refusal_of(why).map(Dropped::Refused)
        } else {
            found.next().map(|it| it.1)
        };
        dropped.ok_or(Error::Other(event as i32))
    }
}

/// A receiver of notifications, which one thread uses at a time: of Traps as a manager, and of Informs as the engine to
/// which they are sent.
pub struct Listener {
    at: NonNull<Opaque>,
}

// SAFETY: as of the handles of agents and managers: the library keeps nothing of the thread that made it.
unsafe impl Send for Listener {}

impl Drop for Listener {
    fn drop(&mut self) {
        unsafe { snmpsec_listener_free(self.at()) }
    }
}

impl Listener {
    /// A receiver with the users and the access of a configuration in TOML. The errors are BadArgument, BadClocks,
    /// BadConfiguration, of which [`crate::config_fault`] says more, and OutOfMemory.
    pub fn new(config: &[u8], of: &Listening<'_>) -> Result<Listener, Error> {
        let sources: Vec<Octets<'_>> = of.sources.iter().map(|&it| Octets::from(it)).collect();
        let settings = ListenerSettings {
            least_level: of.least_level.map_or(0, |it| it as u32),
            boots: of.boots,
            started: of.started,
            clocks_moment: of.started,
            most: of.most,
            engine: of.engine.into(),
            clocks: of.clocks.into(),
        };
        let mut at = null_mut();
        done(unsafe {
            snmpsec_listener_new(
                config.as_ptr(),
                config.len(),
                &settings,
                sources.as_ptr(),
                sources.len(),
                &mut at,
            )
        })?;
        let at = NonNull::new(at).ok_or(Error::Other(0))?;
        Ok(Listener { at })
    }

    fn at(&self) -> *mut Opaque {
        self.at.as_ptr()
    }

    /// Takes a datagram from this address, each time with another salt, also after a restart. The error is OutOfMemory,
    /// and then it may be taken again.
    pub fn take(
        &mut self,
        now: u64,
        source: &[u8],
        datagram: &[u8],
        salt: u64,
    ) -> Result<Notified, Error> {
        let (mut event, mut why) = (0, 0);
        done(unsafe {
            snmpsec_listener_take(
                self.at(),
                now,
                source.as_ptr(),
                source.len(),
                datagram.as_ptr(),
                datagram.len(),
                salt,
                &mut event,
                &mut why,
            )
        })?;
        match event {
            it if it == Event::ListenerTrap as u32 => Ok(Notified::Trap),
            it if it == Event::ListenerInform as u32 => Ok(Notified::Inform),
            _ => Dropped::of(event, why).map(Notified::Dropped),
        }
    }

    /// The numbers of the notification that was reported last. NothingTaken: the last datagram wasn't reported.
    pub fn info(&self) -> Result<Info, Error> {
        numbers(|info| unsafe { snmpsec_listener_info(self.at(), info) })
    }

    /// A part of it.
    pub fn part(&self, part: Part) -> Result<Vec<u8>, Error> {
        copied(|out, len, written| unsafe {
            snmpsec_listener_part(self.at(), part as u32, out, len, written)
        })
    }

    /// What is to be sent to the sender of the datagram that was taken last, or NothingTaken.
    pub fn message(&self) -> Result<Vec<u8>, Error> {
        copied(|out, len, written| unsafe {
            snmpsec_listener_message(self.at(), out, len, written)
        })
    }

    /// How many datagrams weren't reported for this reason.
    pub fn count(&self, why: Dropped) -> Result<u64, Error> {
        let mut count = 0;
        done(unsafe { snmpsec_listener_count(self.at(), why.number(), &mut count) })?;
        Ok(count)
    }

    /// The saved text of the clocks of senders, which is the message then.
    pub fn saved(&mut self) -> Result<Vec<u8>, Error> {
        copied(|out, len, written| unsafe { snmpsec_listener_save(self.at(), out, len, written) })
    }

    /// The boots and the time that are held of a sender's engine, or NothingTaken.
    pub fn clock(&self, engine: &[u8]) -> Result<Clock, Error> {
        let mut out = calls::Clock::default();
        done(unsafe {
            snmpsec_listener_clock(self.at(), engine.as_ptr(), engine.len(), &mut out)
        })?;
        Ok(Clock {
            boots: out.boots,
            time: out.time,
        })
    }
}
