//! Octets of a caller, as a call takes them in a struct.

use std::marker::PhantomData;

/// Octets of a slice.
#[repr(C)]
#[derive(Clone, Copy)]
pub struct Octets<'a> {
    at: *const u8,
    len: usize,
    _of: PhantomData<&'a [u8]>,
}

impl<'a> From<&'a [u8]> for Octets<'a> {
    fn from(octets: &'a [u8]) -> Self {
        Octets {
            at: octets.as_ptr(),
            len: octets.len(),
            _of: PhantomData,
        }
    }
}
