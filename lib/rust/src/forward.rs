//! Traps of devices that speak SNMPv2c, sent on to receivers that speak SNMPv3, as Traps or as Informs, without
//! sockets.

use crate::calls::{
    self, snmpsec_forward_due, snmpsec_forward_free, snmpsec_forward_message, snmpsec_forward_new,
    snmpsec_forward_next, snmpsec_forward_numbers, snmpsec_forward_take_receiver,
    snmpsec_forward_take_trap, Opaque,
};
use crate::fault::{done, refusal_of, Error, Refusal};
use crate::held::copied;
use std::ptr::{null_mut, NonNull};

/// The numbers of events.
enum Event {
    ForwardUnreadable = 20,
    ForwardNotTrap = 21,
    ForwardNoTrapOid = 22,
    ForwardOtherCommunity = 23,
    ForwardForNobody = 24,
    ForwardNoRoom = 25,
    ForwardWaits = 26,
    ForwardToReceiver = 27,
    ForwardUnsent = 30,
    ForwardNoAnswer = 50,
    ForwardHeard = 51,
    ForwardAcknowledged = 52,
    ForwardDenied = 53,
    ForwardInformBegins = 54,
    ForwardInformToReceiver = 55,
    ForwardInformNoRoom = 56,
    ForwardInformGivenUp = 57,
    ForwardInformUnsent = 60,
}

/// What a receiver is sent for an Inform (RFC 3414, section 4): its engine is discovered, is asked for its time, and
/// gets the Inform.
#[derive(Clone, Copy, Debug, PartialEq, Eq)]
pub enum InformMessage {
    InformDiscovery = 1,
    InformTime = 2,
    InformItself = 3,
}

/// What becomes of a device's datagram.
#[derive(Clone, Copy, Debug, PartialEq, Eq)]
pub enum TrapTaken {
    /// It is no message of SNMPv2c.
    Unreadable,
    /// It has no SNMPv2-Trap.
    NotTrap,
    /// Its second binding isn't snmpTrapOID.0.
    NoTrapOid,
    /// It hasn't the device's community, or there is no such device.
    OtherCommunity,
    /// No receiver may be notified of it.
    ForNobody,
    /// As many notifications wait as may.
    NoRoom,
    /// It waits to be sent, as the notification of this number.
    Waits(u64),
}

/// What becomes of a receiver's datagram that isn't refused.
#[derive(Clone, Copy, Debug, PartialEq, Eq)]
pub enum ReceiverTaken {
    /// It is no answer to what is waited for.
    NoAnswer,
    /// It is one to what was sent last for this Inform, which goes on.
    Heard(u64),
    /// It acknowledges this Inform.
    Acknowledged(u64),
    /// Its engine refuses this Inform; the counter, 1 to 9, is the one that it reports, if it is known.
    Denied { inform: u64, counter: Option<u64> },
}

/// What `next` did for the receiver at a position, counted from 0.
#[derive(Clone, Debug, PartialEq, Eq)]
pub enum Forwarded {
    /// A notification goes out as a Trap.
    Trap {
        notification: u64,
        receiver: usize,
        datagram: Vec<u8>,
    },
    /// A notification isn't sent.
    Unsent {
        notification: u64,
        receiver: usize,
        why: Option<Refusal>,
    },
    /// A notification begins to wait for its acknowledgement, as this Inform.
    InformBegins {
        notification: u64,
        receiver: usize,
        inform: u64,
    },
    /// A notification isn't sent: as many Informs wait as may.
    InformNoRoom { notification: u64, receiver: usize },
    /// A datagram goes out for an Inform.
    Inform {
        inform: u64,
        receiver: usize,
        message: InformMessage,
        datagram: Vec<u8>,
    },
    /// Nothing can be sealed for the receiver's user: the Inform has ended.
    InformUnsent {
        inform: u64,
        receiver: usize,
        why: Option<Refusal>,
    },
    /// The Inform was sent as often as it may be. The counter, 1 to 9, is that of the last Report that came without
    /// authentication, which anybody can have sent.
    InformGivenUp {
        inform: u64,
        receiver: usize,
        counter: Option<u64>,
    },
}

/// A forwarder of notifications, which one thread uses at a time. Moments are milliseconds from one beginning. What has
/// come is taken before `next` is called.
pub struct Forwarder {
    at: NonNull<Opaque>,
}

// SAFETY: as of the handles of agents and managers: the library keeps nothing of the thread that made it.
unsafe impl Send for Forwarder {}

impl Drop for Forwarder {
    fn drop(&mut self) {
        unsafe { snmpsec_forward_free(self.at()) }
    }
}

fn counter_of(number: u64) -> Option<u64> {
    Some(number).filter(|&it| it > 0)
}

fn message_of(number: u64) -> Result<InformMessage, Error> {
    let all = [
        InformMessage::InformDiscovery,
        InformMessage::InformTime,
        InformMessage::InformItself,
    ];
    let found = all.into_iter().find(|&it| it as u64 == number);
    found.ok_or(Error::Other(number as i32))
}

impl Forwarder {
    /// A forwarder of a gateway's configuration, with the gateway's boots, whose agent started at this moment in
    /// seconds.
    ///
    /// The errors are BadArgument, where boots are above 2147483647; BadConfiguration, of which [`crate::gate_fault`]
    /// says more; and OutOfMemory.
    pub fn new(config: &[u8], boots: u32, started: u64) -> Result<Forwarder, Error> {
        let (mut at, len) = (null_mut(), config.len());
        done(unsafe { snmpsec_forward_new(config.as_ptr(), len, boots, started, &mut at) })?;
        let at = NonNull::new(at).ok_or(Error::Other(0))?;
        Ok(Forwarder { at })
    }

    fn at(&self) -> *mut Opaque {
        self.at.as_ptr()
    }

    fn numbers(&self) -> Result<calls::ForwardInfo, Error> {
        let mut info = calls::ForwardInfo::default();
        done(unsafe { snmpsec_forward_numbers(self.at(), &mut info) })?;
        Ok(info)
    }

    /// Takes a datagram of the device at this position, from 0. That it came from this device rests on the caller. The
    /// error is OutOfMemory.
    pub fn take_trap(&mut self, device: usize, datagram: &[u8]) -> Result<TrapTaken, Error> {
        let (mut event, len) = (0, datagram.len());
        done(unsafe {
            snmpsec_forward_take_trap(self.at(), device, datagram.as_ptr(), len, &mut event)
        })?;
        Ok(match event {
            it if it == Event::ForwardUnreadable as u32 => TrapTaken::Unreadable,
            it if it == Event::ForwardNotTrap as u32 => TrapTaken::NotTrap,
            it if it == Event::ForwardNoTrapOid as u32 => TrapTaken::NoTrapOid,
            it if it == Event::ForwardOtherCommunity as u32 => TrapTaken::OtherCommunity,
            it if it == Event::ForwardForNobody as u32 => TrapTaken::ForNobody,
            it if it == Event::ForwardNoRoom as u32 => TrapTaken::NoRoom,
            it if it == Event::ForwardWaits as u32 => {
                TrapTaken::Waits(self.numbers()?.notification)
            }
            other => return Err(Error::Other(other as i32)),
        })
    }

    /// Takes a datagram of the receiver at this position, from 0. What is refused is an error.
    pub fn take_receiver(
        &mut self,
        now: u64,
        receiver: usize,
        datagram: &[u8],
    ) -> Result<ReceiverTaken, Error> {
        let mut event = 0;
        done(unsafe {
            snmpsec_forward_take_receiver(
                self.at(),
                now,
                receiver,
                datagram.as_ptr(),
                datagram.len(),
                &mut event,
            )
        })?;
        let info = self.numbers()?;
        Ok(match event {
            it if it == Event::ForwardNoAnswer as u32 => ReceiverTaken::NoAnswer,
            it if it == Event::ForwardHeard as u32 => ReceiverTaken::Heard(info.inform),
            it if it == Event::ForwardAcknowledged as u32 => {
                ReceiverTaken::Acknowledged(info.inform)
            }
            it if it == Event::ForwardDenied as u32 => ReceiverTaken::Denied {
                inform: info.inform,
                counter: counter_of(info.counter),
            },
            other => return Err(Error::Other(other as i32)),
        })
    }

    /// Does the first thing that is due, or None. It is called until then, each time with another salt and ask_id, also
    /// after a restart.
    pub fn next(&mut self, now: u64, salt: u64, ask_id: u32) -> Result<Option<Forwarded>, Error> {
        let (mut event, mut why) = (0, 0);
        done(unsafe { snmpsec_forward_next(self.at(), now, salt, ask_id, &mut event, &mut why) })?;
        if event == 0 {
            return Ok(None);
        }
        self.forwarded(event, refusal_of(why)).map(Some)
    }

    fn forwarded(&self, event: u32, why: Option<Refusal>) -> Result<Forwarded, Error> {
        let info = self.numbers()?;
        let (notification, inform, receiver) =
            (info.notification, info.inform, info.receiver as usize);
        Ok(match event {
            it if it == Event::ForwardToReceiver as u32 => Forwarded::Trap {
                notification,
                receiver,
                datagram: self.message()?,
            },
            it if it == Event::ForwardUnsent as u32 => Forwarded::Unsent {
                notification,
                receiver,
                why,
            },
            it if it == Event::ForwardInformBegins as u32 => Forwarded::InformBegins {
                notification,
                receiver,
                inform,
            },
            it if it == Event::ForwardInformNoRoom as u32 => Forwarded::InformNoRoom {
                notification,
                receiver,
            },
            it if it == Event::ForwardInformToReceiver as u32 => Forwarded::Inform {
                inform,
                receiver,
                message: message_of(info.message)?,
                datagram: self.message()?,
            },
            it if it == Event::ForwardInformUnsent as u32 => Forwarded::InformUnsent {
                inform,
                receiver,
                why,
            },
            it if it == Event::ForwardInformGivenUp as u32 => Forwarded::InformGivenUp {
                inform,
                receiver,
                counter: counter_of(info.counter),
            },
            other => return Err(Error::Other(other as i32)),
        })
    }

    /// The moment from which on `next` has something to do by time alone.
    pub fn due(&self) -> Option<u64> {
        let mut at = 0;
        done(unsafe { snmpsec_forward_due(self.at(), &mut at) }).ok()?;
        Some(at)
    }

    fn message(&self) -> Result<Vec<u8>, Error> {
        copied(|out, len, written| unsafe { snmpsec_forward_message(self.at(), out, len, written) })
    }

    /// How many notifications wait to be sent.
    pub fn waiting(&self) -> Result<u64, Error> {
        Ok(self.numbers()?.waiting)
    }

    /// How many Informs wait to be acknowledged.
    pub fn informs(&self) -> Result<u64, Error> {
        Ok(self.numbers()?.informs)
    }
}
