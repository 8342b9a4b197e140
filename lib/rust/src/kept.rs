//! Messages that are kept outside of their agent.

use crate::agent::Agent;
use crate::calls::{
    snmpsec_agent_keep, snmpsec_agent_restore, snmpsec_kept_free, snmpsec_kept_info,
    snmpsec_kept_max_size, snmpsec_kept_part, snmpsec_kept_respond, snmpsec_kept_respond_front,
    snmpsec_kept_respond_within, Opaque,
};
use crate::fault::{done, Error};
use crate::held::{copied, numbers};
use crate::words::{Info, Part};
use std::mem::forget;
use std::ptr::{null_mut, NonNull};

/// A message that an agent accepted, kept outside of it: any number may wait for their Responses, which are written in
/// any order. One thread uses it at a time. Its text lies in memory as it was decrypted until it is dropped, and is
/// wiped then.
pub struct Kept {
    at: NonNull<Opaque>,
}

/// What a Response says besides what it copies of its request.
#[derive(Clone, Copy, Debug, Default)]
pub struct Response<'a> {
    pub error_status: u32,
    pub error_index: u32,
    pub bindings: &'a [u8],
}

// SAFETY: as of `Held`: the library has no data but the object's and the heap's, and keeps nothing of the thread that
// made it.
unsafe impl Send for Kept {}

impl Kept {
    /// Its numbers.
    pub fn info(&self) -> Result<Info, Error> {
        numbers(|info| unsafe { snmpsec_kept_info(self.at.as_ptr(), info) })
    }

    /// A part of it.
    pub fn part(&self, part: Part) -> Result<Vec<u8>, Error> {
        copied(|out, len, written| unsafe {
            snmpsec_kept_part(self.at.as_ptr(), part as u32, out, len, written)
        })
    }

    /// How many octets its sender takes, 484 to 2147483647 (msgMaxSize).
    pub fn max_size(&self) -> Result<u32, Error> {
        let mut size = 0;
        done(unsafe { snmpsec_kept_max_size(self.at.as_ptr(), &mut size) })?;
        Ok(size)
    }

    /// Writes the Response to it, as the agent's message. What the agent keeps stays. The agent may be another one than
    /// that which accepted it, as one that was made of a new configuration.
    pub fn respond(
        &mut self,
        agent: &mut Agent,
        now: u64,
        of: &Response<'_>,
        salt: u64,
    ) -> Result<(), Error> {
        done(unsafe {
            snmpsec_kept_respond(
                self.at.as_ptr(),
                agent.held.at(),
                now,
                of.error_status,
                of.error_index,
                of.bindings.as_ptr(),
                of.bindings.len(),
                salt,
            )
        })
    }

    /// The same where it has at most `limit` octets; else it is refused as TooLarge.
    pub fn respond_within(
        &mut self,
        agent: &mut Agent,
        now: u64,
        of: &Response<'_>,
        salt: u64,
        limit: u32,
    ) -> Result<(), Error> {
        done(unsafe {
            snmpsec_kept_respond_within(
                self.at.as_ptr(),
                agent.held.at(),
                now,
                of.error_status,
                of.error_index,
                of.bindings.as_ptr(),
                of.bindings.len(),
                salt,
                limit,
            )
        })
    }

    /// The Response with as many of the bindings, from the first on, as have room in `limit` octets, and how many they
    /// are.
    pub fn respond_front(
        &mut self,
        agent: &mut Agent,
        now: u64,
        of: &Response<'_>,
        salt: u64,
        limit: u32,
    ) -> Result<usize, Error> {
        let mut count = 0;
        done(unsafe {
            snmpsec_kept_respond_front(
                self.at.as_ptr(),
                agent.held.at(),
                now,
                of.error_status,
                of.error_index,
                of.bindings.as_ptr(),
                of.bindings.len(),
                salt,
                limit,
                &mut count,
            )
        })?;
        Ok(count)
    }
}

impl Drop for Kept {
    fn drop(&mut self) {
        unsafe { snmpsec_kept_free(self.at.as_ptr()) }
    }
}

impl Agent {
    /// Takes what is kept out of the agent, which keeps no message then, until the next `take`. The message that is to
    /// be sent stays. The errors are NothingTaken and OutOfMemory, and the agent keeps what it kept then.
    pub fn keep(&mut self) -> Result<Kept, Error> {
        let mut at = null_mut();
        done(unsafe { snmpsec_agent_keep(self.held.at(), &mut at) })?;
        let at = NonNull::new(at).ok_or(Error::Other(0))?;
        Ok(Kept { at })
    }

    /// Puts it back: the agent keeps it, instead of what it kept, as if it had been accepted last. So `access`, `next`,
    /// `unhandled` and `refuse` are asked of a message that waited.
    pub fn restore(&mut self, kept: Kept) -> Result<(), Error> {
        done(unsafe { snmpsec_agent_restore(self.held.at(), kept.at.as_ptr()) })?;
        forget(kept); // the call freed it
        Ok(())
    }
}
