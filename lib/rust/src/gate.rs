//! A gateway from managers that speak SNMPv3 to devices that speak SNMPv2c, without its sockets.

use crate::agent::{told, Counters, Counts};
use crate::calls::{
    self, snmpsec_datagram_user, snmpsec_gate_asker, snmpsec_gate_client, snmpsec_gate_counters,
    snmpsec_gate_counts, snmpsec_gate_due, snmpsec_gate_fault, snmpsec_gate_free,
    snmpsec_gate_line, snmpsec_gate_lines, snmpsec_gate_may_notify, snmpsec_gate_message,
    snmpsec_gate_new, snmpsec_gate_next, snmpsec_gate_numbers, snmpsec_gate_read,
    snmpsec_gate_setting, snmpsec_gate_take_client, snmpsec_gate_take_device, Opaque,
};
use crate::fault::{done, refusal_of, Error, Refusal};
use crate::held::copied;
use crate::words::{Access, Unhandled};
use std::ptr::{null_mut, NonNull};

/// The numbers of events.
enum Event {
    GateBegins = 20,
    GateJoins = 21,
    GateNoRoom = 22,
    GateSetOfBefore = 23,
    GateAnswers = 24,
    GateNotWaitedFor = 25,
    GateUnreadable = 26,
    GateToClient = 27,
    GateToDevice = 28,
    GateGivenUp = 29,
    GateUnanswered = 30,
}

/// What a configuration says.
enum Text {
    GateBoots = 0,
    GateListen = 1,
    GateContext = 2,
    GateAddress = 3,
    GateNote = 4,
    GateTraps = 5,
    GateReceiver = 6,
    GateReceiverUser = 7,
    GateReceiverLevel = 8,
    GateReceiverKind = 9,
    GateViewWithoutFamily = 10,
}

/// What becomes of a client's datagram that isn't refused.
#[derive(Clone, Copy, Debug, PartialEq, Eq)]
pub enum ClientTaken {
    /// It begins this request. Its PDU has this tag, one of `Pdu`.
    Begins { request: u64, pdu: u8 },
    /// It asks again what waits: its request is this one.
    Joins { request: u64, pdu: u8 },
    /// As many requests wait as may.
    NoRoom,
    /// It is a repeated Set whose outcome isn't known.
    SetOfBefore,
}

/// The numbers of what doesn't fit.
enum MisfitNumber {
    MisfitTooFew = 1,
    MisfitTooMany = 2,
    MisfitOtherName = 3,
    MisfitNotAfter = 4,
    MisfitNoValue = 5,
    MisfitAfterEnd = 6,
}

/// Why the bindings of a device's answer don't answer what it was asked: the first of these from the left. The number
/// is that of the answer's binding, from 1.
#[derive(Clone, Copy, Debug, PartialEq, Eq)]
pub enum Misfit {
    /// It has fewer bindings than were asked.
    TooFew,
    /// It has more bindings than were asked.
    TooMany,
    /// The binding has another name than the one asked.
    OtherName(u64),
    /// In a walk its name isn't after the one asked, or after the one before it.
    NotAfter(u64),
    /// It has no value, or one that isn't spelled as its tag has it.
    NoValue(u64),
    /// It has a value behind endOfMibView.
    AfterEnd(u64),
}

/// The misfit of these numbers, or None.
fn misfit_of(info: &calls::GateInfo) -> Option<Misfit> {
    match info.misfit {
        it if it == MisfitNumber::MisfitTooFew as u64 => Some(Misfit::TooFew),
        it if it == MisfitNumber::MisfitTooMany as u64 => Some(Misfit::TooMany),
        it if it == MisfitNumber::MisfitOtherName as u64 => Some(Misfit::OtherName(info.binding)),
        it if it == MisfitNumber::MisfitNotAfter as u64 => Some(Misfit::NotAfter(info.binding)),
        it if it == MisfitNumber::MisfitNoValue as u64 => Some(Misfit::NoValue(info.binding)),
        it if it == MisfitNumber::MisfitAfterEnd as u64 => Some(Misfit::AfterEnd(info.binding)),
        _ => None,
    }
}

/// What becomes of a device's datagram.
#[derive(Clone, Copy, Debug, PartialEq, Eq)]
pub enum DeviceTaken {
    /// It is the answer to what the device was asked for this request; why it doesn't fit, if it has no error and
    /// doesn't; and how many of its bindings are hidden from the request's user: their names aren't in the read view.
    /// Of an answer to a Set that is 0.
    Answers {
        request: u64,
        misfit: Option<Misfit>,
        hidden: u64,
    },
    /// Nothing waits for it.
    NotWaitedFor,
    /// It is no Response of SNMPv2c.
    Unreadable,
}

/// error-status and error-index of a Response (RFC 3416, section 3).
#[derive(Clone, Copy, Debug, PartialEq, Eq)]
pub struct ResponseStatus {
    pub status: u64,
    pub index: u64,
}

/// The numbers of how a request ended.
enum EndedNumber {
    EndedByAnswer = 1,
    EndedRepeated = 2,
    EndedRoundsUsedUp = 3,
    EndedUnhandled = 4,
    EndedInSilence = 5,
}

/// How a request ended of which a message is answered, or isn't.
#[derive(Clone, Copy, Debug, PartialEq, Eq)]
pub enum Ended {
    /// By what its device answered, or by an error of the gateway's own.
    ByAnswer,
    /// By what its datagram was told before: it is a Set that came again.
    Repeated,
    /// By genErr, since its device was asked as often as it may be for one request.
    RoundsUsedUp,
    /// No application answers it.
    Unhandled(Unhandled),
    /// It was given up, and nothing is said of it.
    InSilence,
}

/// How it ended by these numbers.
fn ended_of(info: &calls::GateInfo) -> Result<Ended, Error> {
    Ok(match info.ended {
        it if it == EndedNumber::EndedByAnswer as u64 => Ended::ByAnswer,
        it if it == EndedNumber::EndedRepeated as u64 => Ended::Repeated,
        it if it == EndedNumber::EndedRoundsUsedUp as u64 => Ended::RoundsUsedUp,
        it if it == EndedNumber::EndedUnhandled as u64 => {
            let why = info.unhandled as u32;
            Ended::Unhandled(Unhandled::of(why).ok_or(Error::Other(why as i32))?)
        }
        it if it == EndedNumber::EndedInSilence as u64 => Ended::InSilence,
        other => return Err(Error::Other(other as i32)),
    })
}

/// What goes out for a request.
#[derive(Clone, Debug, PartialEq, Eq)]
pub enum Sent {
    /// A datagram to a client, whose address is as it was given: the Response with this status, or a Report.
    ToClient {
        request: u64,
        client: Vec<u8>,
        says: Option<ResponseStatus>,
        ended: Ended,
        datagram: Vec<u8>,
    },
    /// A datagram to the device at this position; whether it is asked the same again.
    ToDevice {
        request: u64,
        device: usize,
        again: bool,
        datagram: Vec<u8>,
    },
    /// The device at this position doesn't answer.
    GivenUp { request: u64, device: usize },
    /// A message isn't answered; the reason is a refusal, if there is one.
    Unanswered {
        request: u64,
        why: Option<Refusal>,
        ended: Ended,
    },
}

/// A device as the configuration says.
#[derive(Clone, Debug, PartialEq, Eq)]
pub struct GateDevice {
    /// Its contextName.
    pub context: Vec<u8>,
    pub address: String,
    /// What about it is probably a mistake.
    pub note: Option<String>,
}

/// Who is sent notifications, as the configuration says.
#[derive(Clone, Debug, PartialEq, Eq)]
pub struct GateReceiver {
    pub address: String,
    pub user: Vec<u8>,
    /// The level at which notifications are sealed, as "authPriv".
    pub level: String,
    /// "trap" or "inform".
    pub kind: String,
}

/// A gateway, which one thread uses at a time. Moments are milliseconds from one beginning. What has come is taken
/// before `next` is called, devices' datagrams first.
pub struct Gate {
    at: NonNull<Opaque>,
}

// SAFETY: as of the handles of agents and managers: the library keeps nothing of the thread that made it.
unsafe impl Send for Gate {}

impl Drop for Gate {
    fn drop(&mut self) {
        unsafe { snmpsec_gate_free(self.at()) }
    }
}

/// Why a text is refused as a gateway's configuration, in two lines: the refusal, and what is wrong; None where it
/// isn't. The error is OutOfMemory.
pub fn gate_fault(config: &[u8]) -> Result<Option<String>, Error> {
    let mut text = vec![0; 4096];
    let mut written = 0;
    let mut tell = |text: &mut Vec<u8>| {
        let (at, len) = (text.as_mut_ptr(), text.len());
        let told =
            unsafe { snmpsec_gate_fault(config.as_ptr(), config.len(), at, len, &mut written) };
        (done(told), written)
    };
    let (mut told, mut len) = tell(&mut text);
    if told == Err(Error::ShortBuffer) {
        text.resize(len, 0);
        (told, len) = tell(&mut text);
    }
    match told {
        Ok(()) => Ok(None),
        Err(Error::BadConfiguration) => {
            text.truncate(len);
            Ok(Some(String::from_utf8_lossy(&text).trim_end().to_owned()))
        }
        Err(error) => Err(error),
    }
}

/// The msgUserName of a datagram, for a log; None: it has none. Nobody has shown that it is the sender's.
pub fn datagram_user(datagram: &[u8]) -> Option<Vec<u8>> {
    copied(|out, len, written| unsafe {
        snmpsec_datagram_user(datagram.as_ptr(), datagram.len(), out, len, written)
    })
    .ok()
}

impl Gate {
    /// A gateway of a configuration, with its boots, whose agent started at this moment in seconds.
    ///
    /// The errors are BadArgument, where boots are above 2147483647; BadConfiguration, of which [`gate_fault`] says
    /// more; and OutOfMemory.
    pub fn new(config: &[u8], boots: u32, started: u64) -> Result<Gate, Error> {
        let mut at = null_mut();
        done(unsafe { snmpsec_gate_new(config.as_ptr(), config.len(), boots, started, &mut at) })?;
        let at = NonNull::new(at).ok_or(Error::Other(0))?;
        Ok(Gate { at })
    }

    /// What a configuration says, for [`boots_path`](Gate::boots_path), [`listen`](Gate::listen) and
    /// [`devices`](Gate::devices). No password is hashed, so it takes little time. This gateway has no users and no
    /// devices, and answers nobody.
    ///
    /// The errors are BadConfiguration and OutOfMemory.
    pub fn read(config: &[u8]) -> Result<Gate, Error> {
        let mut at = null_mut();
        done(unsafe { snmpsec_gate_read(config.as_ptr(), config.len(), &mut at) })?;
        let at = NonNull::new(at).ok_or(Error::Other(0))?;
        Ok(Gate { at })
    }

    fn at(&self) -> *mut Opaque {
        self.at.as_ptr()
    }

    fn numbers(&self) -> Result<calls::GateInfo, Error> {
        let mut info = calls::GateInfo::default();
        done(unsafe { snmpsec_gate_numbers(self.at(), &mut info) })?;
        Ok(info)
    }

    /// Takes a client's datagram; its address is any octets that tell it from others. What is refused is an error, and
    /// its report is the message, if there is one.
    pub fn take_client(
        &mut self,
        now: u64,
        client: &[u8],
        datagram: &[u8],
    ) -> Result<ClientTaken, Error> {
        let mut event = 0;
        done(unsafe {
            snmpsec_gate_take_client(
                self.at(),
                now,
                client.as_ptr(),
                client.len(),
                datagram.as_ptr(),
                datagram.len(),
                &mut event,
            )
        })?;
        Ok(match event {
            it if it == Event::GateBegins as u32 => {
                let (request, pdu) = self.asked()?;
                ClientTaken::Begins { request, pdu }
            }
            it if it == Event::GateJoins as u32 => {
                let (request, pdu) = self.asked()?;
                ClientTaken::Joins { request, pdu }
            }
            it if it == Event::GateNoRoom as u32 => ClientTaken::NoRoom,
            it if it == Event::GateSetOfBefore as u32 => ClientTaken::SetOfBefore,
            other => return Err(Error::Other(other as i32)),
        })
    }

    /// The request for which the message waits that was taken last, and the tag of its PDU.
    fn asked(&mut self) -> Result<(u64, u8), Error> {
        let info = self.numbers()?;
        Ok((info.request, info.pdu as u8))
    }

    /// Takes a datagram of the device at this position, from 0. The error is OutOfMemory.
    pub fn take_device(
        &mut self,
        now: u64,
        device: usize,
        datagram: &[u8],
    ) -> Result<DeviceTaken, Error> {
        let mut event = 0;
        done(unsafe {
            snmpsec_gate_take_device(
                self.at(),
                now,
                device,
                datagram.as_ptr(),
                datagram.len(),
                &mut event,
            )
        })?;
        Ok(match event {
            it if it == Event::GateAnswers as u32 => {
                let info = self.numbers()?;
                DeviceTaken::Answers {
                    request: info.request,
                    misfit: misfit_of(&info),
                    hidden: info.hidden,
                }
            }
            it if it == Event::GateNotWaitedFor as u32 => DeviceTaken::NotWaitedFor,
            it if it == Event::GateUnreadable as u32 => DeviceTaken::Unreadable,
            other => return Err(Error::Other(other as i32)),
        })
    }

    /// Does the first thing that is due, or None. It is called until then, each time with another salt and ask_id, also
    /// after a restart.
    pub fn next(&mut self, now: u64, salt: u64, ask_id: u32) -> Result<Option<Sent>, Error> {
        let (mut event, mut why) = (0, 0);
        done(unsafe { snmpsec_gate_next(self.at(), now, salt, ask_id, &mut event, &mut why) })?;
        if event == 0 {
            return Ok(None);
        }
        self.sent(event, why).map(Some)
    }

    fn sent(&self, event: u32, why: i32) -> Result<Sent, Error> {
        let info = self.numbers()?;
        let (request, device) = (info.request, info.device as usize);
        Ok(match event {
            it if it == Event::GateToClient as u32 => Sent::ToClient {
                request,
                client: self.client()?,
                says: (info.is_report == 0).then_some(ResponseStatus {
                    status: info.status,
                    index: info.index,
                }),
                ended: ended_of(&info)?,
                datagram: self.message()?,
            },
            it if it == Event::GateToDevice as u32 => Sent::ToDevice {
                request,
                device,
                again: info.again != 0,
                datagram: self.message()?,
            },
            it if it == Event::GateGivenUp as u32 => Sent::GivenUp { request, device },
            it if it == Event::GateUnanswered as u32 => Sent::Unanswered {
                request,
                why: refusal_of(why),
                ended: ended_of(&info)?,
            },
            other => return Err(Error::Other(other as i32)),
        })
    }

    /// The moment from which on `next` has something to do by time alone.
    pub fn due(&self) -> Option<u64> {
        let mut at = 0;
        done(unsafe { snmpsec_gate_due(self.at(), &mut at) }).ok()?;
        Some(at)
    }

    /// The report on what was refused last, or the datagram of `next`.
    pub fn message(&self) -> Result<Vec<u8>, Error> {
        copied(|out, len, written| unsafe { snmpsec_gate_message(self.at(), out, len, written) })
    }

    fn client(&self) -> Result<Vec<u8>, Error> {
        copied(|out, len, written| unsafe { snmpsec_gate_client(self.at(), out, len, written) })
    }

    /// The client that asks this request, if it waits.
    pub fn asker(&self, request: u64) -> Result<Option<Vec<u8>>, Error> {
        let said = copied(|out, len, written| unsafe {
            snmpsec_gate_asker(self.at(), request, out, len, written)
        });
        match said {
            Err(Error::NothingTaken) => Ok(None),
            other => other.map(Some),
        }
    }

    /// What a log may have of the last call, mostly nothing. `client` is the client's address as a text, and `datagram`
    /// what the call took. The words are for people, and may change.
    pub fn lines(&self, client: &str, datagram: &[u8]) -> Result<Vec<String>, Error> {
        let mut kinds = 0;
        done(unsafe { snmpsec_gate_lines(self.at(), &mut kinds) })?;
        let of_last = (0..32).filter(|bit| kinds >> bit & 1 == 1);
        of_last
            .map(|bit| self.line(1 << bit, client, datagram))
            .collect()
    }

    fn line(&self, kind: u32, client: &str, datagram: &[u8]) -> Result<String, Error> {
        let octets = copied(|out, len, written| unsafe {
            snmpsec_gate_line(
                self.at(),
                kind,
                client.as_ptr(),
                client.len(),
                datagram.as_ptr(),
                datagram.len(),
                out,
                len,
                written,
            )
        })?;
        Ok(String::from_utf8_lossy(&octets).into_owned())
    }

    /// How many requests wait.
    pub fn waiting(&self) -> Result<u64, Error> {
        Ok(self.numbers()?.waiting)
    }

    /// The agent's counters of refused messages.
    pub fn counters(&self) -> Result<Counters, Error> {
        let mut n = calls::Counters::default();
        done(unsafe { snmpsec_gate_counters(self.at(), &mut n) })?;
        Ok(n.into())
    }

    /// The agent's counters of messages that weren't answered, or were refused without a report.
    pub fn counts(&self) -> Result<Counts, Error> {
        let mut n = calls::Counts::default();
        done(unsafe { snmpsec_gate_counts(self.at(), &mut n) })?;
        Ok(n.into())
    }

    fn setting(&self, text: Text, position: usize) -> Result<Option<Vec<u8>>, Error> {
        let number = text as u32;
        let said = copied(|out, len, written| unsafe {
            snmpsec_gate_setting(self.at(), number, position, out, len, written)
        });
        match said {
            Err(Error::NothingTaken) => Ok(None),
            other => other.map(Some),
        }
    }

    fn words(&self, text: Text, position: usize) -> Result<Option<String>, Error> {
        let octets = self.setting(text, position)?;
        Ok(octets.map(|octets| String::from_utf8_lossy(&octets).into_owned()))
    }

    /// The path of the boots file.
    pub fn boots_path(&self) -> Result<String, Error> {
        let path = self.words(Text::GateBoots, 0)?;
        path.ok_or(Error::NothingTaken)
    }

    /// The addresses at which it takes requests, each with its port.
    pub fn listen(&self) -> Result<Vec<String>, Error> {
        let mut found = Vec::new();
        while let Some(address) = self.words(Text::GateListen, found.len())? {
            found.push(address);
        }
        Ok(found)
    }

    /// The addresses at which Traps of devices are taken, each with its port.
    pub fn traps(&self) -> Result<Vec<String>, Error> {
        let mut found = Vec::new();
        while let Some(address) = self.words(Text::GateTraps, found.len())? {
            found.push(address);
        }
        Ok(found)
    }

    /// Who is sent notifications, at the positions by which a [`crate::Forwarder`] names them.
    pub fn receivers(&self) -> Result<Vec<GateReceiver>, Error> {
        let mut found = Vec::new();
        while let Some(address) = self.words(Text::GateReceiver, found.len())? {
            let user = self.setting(Text::GateReceiverUser, found.len())?;
            let level = self.words(Text::GateReceiverLevel, found.len())?;
            let kind = self.words(Text::GateReceiverKind, found.len())?;
            found.push(GateReceiver {
                address,
                user: user.unwrap_or_default(),
                level: level.unwrap_or_default(),
                kind: kind.unwrap_or_default(),
            });
        }
        Ok(found)
    }

    /// The read views that access rows name and no family row has, each once. Nobody sees anything by them.
    pub fn views_without_family(&self) -> Result<Vec<Vec<u8>>, Error> {
        let mut found = Vec::new();
        while let Some(view) = self.setting(Text::GateViewWithoutFamily, found.len())? {
            found.push(view);
        }
        Ok(found)
    }

    /// Whether the receiver may be notified of the variable of this name in the device's context (RFC 3415, section 3).
    pub fn may_notify(
        &self,
        receiver: usize,
        device: usize,
        arcs: &[u32],
    ) -> Result<Access, Error> {
        let (at, len) = (arcs.as_ptr(), arcs.len());
        told(|out| unsafe { snmpsec_gate_may_notify(self.at(), receiver, device, at, len, out) })
    }

    /// The devices, at the positions by which the calls name them.
    pub fn devices(&self) -> Result<Vec<GateDevice>, Error> {
        let mut found = Vec::new();
        while let Some(address) = self.words(Text::GateAddress, found.len())? {
            found.push(GateDevice {
                context: self
                    .setting(Text::GateContext, found.len())?
                    .unwrap_or_default(),
                address,
                note: self.words(Text::GateNote, found.len())?,
            });
        }
        Ok(found)
    }
}
