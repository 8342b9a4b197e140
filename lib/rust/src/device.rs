//! One request of a device whose engine ID, or whose boots and time, may be unknown (RFC 3414, section 4).

use crate::calls::{self, snmpsec_device_begin, snmpsec_device_hear};
use crate::fault::{done, Error};
use crate::manager::Answer;
use crate::words::Level;

/// What is known of a device.
#[derive(Clone, Copy, Debug, PartialEq, Eq)]
pub enum Known {
    Nothing,
    /// Its engine ID.
    Engine,
    /// Its engine ID, and the manager holds boots and time of that engine.
    Clock,
}

/// What is to be done for a request of a device.
#[derive(Clone, Copy, Debug, PartialEq, Eq)]
pub enum Step {
    SendDiscovery,
    /// A request without bindings at authNoPriv, by whose Report the manager learns boots and time.
    SendTimeRequest,
    SendRequest,
    Wait,
    Answered,
    /// The engine refused the request, and reported why with authentication.
    Denied,
}

impl Step {
    fn of(number: u32) -> Step {
        match number {
            0 => Step::SendDiscovery,
            1 => Step::SendTimeRequest,
            2 => Step::SendRequest,
            4 => Step::Answered,
            5 => Step::Denied,
            _ => Step::Wait,
        }
    }
}

/// One request of a device.
#[derive(Clone, Copy, Debug)]
pub struct Device {
    device: calls::Device,
    step: Step,
}

impl Device {
    /// Begins a request of a device of which this is known, at this level.
    pub fn new(level: Level, known: Known) -> Result<Device, Error> {
        let (mut device, mut step) = (calls::Device::default(), 0);
        done(unsafe { snmpsec_device_begin(&mut device, level as u32, known as u32, &mut step) })?;
        Ok(Device {
            device,
            step: Step::of(step),
        })
    }

    /// What is to be done.
    pub fn step(&self) -> Step {
        self.step
    }

    /// What is to be done once a message answered what was sent last. The request is sent again once, after an
    /// authentic Report that it was outside of the time window, and never at another level. A Report that isn't
    /// authentic ends nothing.
    pub fn hear(&mut self, answer: Answer, holds_clock: bool) -> Result<Step, Error> {
        let answered = match answer {
            Answer::Response => calls::Answered::default(),
            Answer::Report {
                counter,
                is_authentic,
            } => calls::Answered {
                kind: 2,
                counter: counter.map_or(0, |n| n as i32),
                is_authentic,
                token: 0,
            },
        };
        let mut step = 0;
        done(unsafe { snmpsec_device_hear(&mut self.device, &answered, holds_clock, &mut step) })?;
        self.step = Step::of(step);
        Ok(self.step)
    }

    /// The counter of the last Report that says why the request is refused or, where the second is false, is likely to
    /// have no answer: such a Report can be anybody's.
    pub fn report(&self) -> Option<(u32, bool)> {
        let counter = u32::try_from(self.device.counter).ok()?;
        Some((counter, self.device.is_authentic))
    }
}
