//! What an agent and a manager have in common: a handle, what was taken and the message to be sent.

use crate::calls::{self, Opaque};
use crate::fault::{done, Error};
use crate::words::{Info, Level, Part};
use crate::LARGEST;
use std::ptr::{null_mut, NonNull};

/// The calls on handles of one kind.
pub struct Calls {
    pub free: unsafe extern "C" fn(*mut Opaque),
    pub take: unsafe extern "C" fn(*mut Opaque, u64, *const u8, usize) -> i32,
    pub info: unsafe extern "C" fn(*mut Opaque, *mut calls::Info) -> i32,
    pub part: unsafe extern "C" fn(*mut Opaque, u32, *mut u8, usize, *mut usize) -> i32,
    pub message: unsafe extern "C" fn(*mut Opaque, *mut u8, usize, *mut usize) -> i32,
}

/// A handle, which is freed with it. It goes from thread to thread, and one uses it at a time: so it is `Send` and not
/// `Sync`.
pub struct Held {
    at: NonNull<Opaque>,
    calls: &'static Calls,
}

// SAFETY: the library has no data but the handle's and the heap's (malloc, which threads share): it keeps nothing of
// the thread that made the handle. `lib/test.sh` looks for races between handles.
unsafe impl Send for Held {}

/// The octets that a call writes. There is room for a datagram, and where more is wanted, as for a saved text, the call
/// is made again.
pub fn copied(call: impl Fn(*mut u8, usize, *mut usize) -> i32) -> Result<Vec<u8>, Error> {
    let mut out = vec![0; LARGEST];
    let mut written = 0;
    let mut told = done(call(out.as_mut_ptr(), out.len(), &mut written));
    if told == Err(Error::ShortBuffer) {
        out.resize(written, 0);
        told = done(call(out.as_mut_ptr(), out.len(), &mut written));
    }
    out.truncate(written);
    told.map(|()| out)
}

/// The numbers that a call writes.
pub fn numbers(call: impl FnOnce(*mut calls::Info) -> i32) -> Result<Info, Error> {
    let mut info = calls::Info::default();
    done(call(&mut info))?;
    Ok(Info {
        level: Level::of(info.level).ok_or(Error::Other(info.level))?,
        pdu: info.pdu,
        request_id: info.request_id,
        error_status: info.error_status,
        error_index: info.error_index,
        message_id: info.message_id,
    })
}

impl Held {
    /// The handle that a call writes, which these calls are for.
    pub fn of(
        calls: &'static Calls,
        new: impl FnOnce(*mut *mut Opaque) -> i32,
    ) -> Result<Held, Error> {
        let mut at = null_mut();
        done(new(&mut at))?;
        let at = NonNull::new(at).ok_or(Error::Other(0))?;
        Ok(Held { at, calls })
    }

    pub fn at(&self) -> *mut Opaque {
        self.at.as_ptr()
    }

    pub fn take(&mut self, now: u64, datagram: &[u8]) -> Result<(), Error> {
        done(unsafe { (self.calls.take)(self.at(), now, datagram.as_ptr(), datagram.len()) })
    }

    pub fn info(&self) -> Result<Info, Error> {
        numbers(|info| unsafe { (self.calls.info)(self.at(), info) })
    }

    pub fn part(&self, part: Part) -> Result<Vec<u8>, Error> {
        copied(|out, len, written| unsafe {
            (self.calls.part)(self.at(), part as u32, out, len, written)
        })
    }

    pub fn message(&self) -> Result<Vec<u8>, Error> {
        copied(|out, len, written| unsafe { (self.calls.message)(self.at(), out, len, written) })
    }
}

impl Drop for Held {
    fn drop(&mut self) {
        unsafe { (self.calls.free)(self.at()) }
    }
}
