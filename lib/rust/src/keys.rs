//! Keys, codes and sealed texts, for programs that spell messages themselves. Nothing is kept, and whoever is given a
//! key wipes it.

use crate::calls::{
    snmpsec_localise, snmpsec_mac, snmpsec_open, snmpsec_password_key, snmpsec_seal, snmpsec_wipe,
};
use crate::fault::{done, Error};
use crate::LARGEST_KEY;

/// A protocol for authentication, by its number below snmpAuthProtocols (RFC 3414, section 5; RFC 7860, section 8).
#[derive(Clone, Copy, Debug, PartialEq, Eq)]
pub enum Protocol {
    /// HMAC-MD5-96: keys of 16 octets, and codes of 12.
    Md5 = 2,
    /// HMAC-SHA-96: keys of 20 octets, and codes of 12.
    Sha1 = 3,
    /// HMAC-SHA-256-192: keys of 32 octets, and codes of 24.
    Sha256 = 5,
}

/// The octets that a call writes, of which no call here has more than a key.
fn written(call: impl FnOnce(*mut u8, usize, *mut usize) -> i32) -> Result<Vec<u8>, Error> {
    let mut out = [0; LARGEST_KEY];
    let mut len = 0;
    let told = done(call(out.as_mut_ptr(), out.len(), &mut len));
    let written = out[..len].to_vec();
    wipe(&mut out);
    told.map(|()| written)
}

/// Wipes octets, as a configuration, a password or a key, also where the compiler sees that nobody reads them again.
pub fn wipe(octets: &mut [u8]) {
    unsafe { snmpsec_wipe(octets.as_mut_ptr().cast(), octets.len()) }
}

/// The key of a password, the same for all engines (RFC 3414, section A.2; RFC 7860, section 5). It hashes 1,048,576
/// octets.
///
/// The error is BadArgument: the password has fewer than 8 octets.
pub fn password_key(protocol: Protocol, password: &[u8]) -> Result<Vec<u8>, Error> {
    written(|out, len, written| unsafe {
        snmpsec_password_key(
            protocol as u32,
            password.as_ptr(),
            password.len(),
            out,
            len,
            written,
        )
    })
}

/// The key localised to an engine (RFC 3414, section 2.6; RFC 7860, section 5).
///
/// The error is BadArgument: the key has more than 32 octets, or the engine ID not 5 to 32.
pub fn localise(protocol: Protocol, key: &[u8], engine: &[u8]) -> Result<Vec<u8>, Error> {
    written(|out, len, written| unsafe {
        snmpsec_localise(
            protocol as u32,
            key.as_ptr(),
            key.len(),
            engine.as_ptr(),
            engine.len(),
            out,
            len,
            written,
        )
    })
}

/// The message authentication code, under a localised key, of `front`, this many zero octets and `back`, joined (RFC
/// 3414, sections 6.3.1 and 7.3.1; RFC 7860, section 4.2.1). The zeros stand in the code's own place, so in a message
/// they are as many as the code has octets.
///
/// The error is BadArgument: the key has more than 32 octets, or there are more than 24 zeros.
pub fn mac(
    protocol: Protocol,
    key: &[u8],
    front: &[u8],
    zeros: usize,
    back: &[u8],
) -> Result<Vec<u8>, Error> {
    written(|out, len, written| unsafe {
        snmpsec_mac(
            protocol as u32,
            key.as_ptr(),
            key.len(),
            front.as_ptr(),
            front.len(),
            zeros,
            back.as_ptr(),
            back.len(),
            out,
            len,
            written,
        )
    })
}

/// Seals a text of any length in its place, by AES-128 in cipher feedback mode (RFC 3826, section 3.1.3).
///
/// The key is the first 16 octets of a localised key. Boots and time, in seconds, are the authoritative engine's that
/// the message says; any are taken. The salt is the content of its msgPrivacyParameters, 8 octets (section 3.1.2.1),
/// and never comes twice for a key, which is the caller's duty.
///
/// The error is BadArgument: the key hasn't 16 octets or the salt hasn't 8, and the text stays as it was.
pub fn seal(key: &[u8], boots: u32, time: u32, salt: &[u8], text: &mut [u8]) -> Result<(), Error> {
    done(unsafe {
        snmpsec_seal(
            key.as_ptr(),
            key.len(),
            boots,
            time,
            salt.as_ptr(),
            salt.len(),
            text.as_mut_ptr(),
            text.len(),
        )
    })
}

/// Opens a text in its place that was sealed with these (RFC 3826, section 3.1.4). It can't tell a wrong key: whatever
/// the octets are, they open to some text.
///
/// The error is BadArgument, as with [`seal`].
pub fn open(key: &[u8], boots: u32, time: u32, salt: &[u8], text: &mut [u8]) -> Result<(), Error> {
    done(unsafe {
        snmpsec_open(
            key.as_ptr(),
            key.len(),
            boots,
            time,
            salt.as_ptr(),
            salt.len(),
            text.as_mut_ptr(),
            text.len(),
        )
    })
}
