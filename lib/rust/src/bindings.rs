//! Variable bindings and scopedPDUs, as octets.

use crate::calls::{
    self, snmpsec_binding_read, snmpsec_binding_write, snmpsec_scoped_write, snmpsec_value_is,
    BindingRead,
};
use crate::fault::{done, Error};
use crate::held::copied;
use crate::words::Pdu;

/// A variable binding of a list.
#[derive(Clone, Debug, PartialEq, Eq)]
pub struct Binding<'a> {
    pub name: Vec<u32>,
    pub tag: u8,
    pub content: &'a [u8],
}

/// A binding, as octets.
pub fn binding(arcs: &[u32], tag: u8, content: &[u8]) -> Result<Vec<u8>, Error> {
    copied(|out, len, written| unsafe {
        snmpsec_binding_write(
            arcs.as_ptr(),
            arcs.len(),
            tag,
            content.as_ptr(),
            content.len(),
            out,
            len,
            written,
        )
    })
}

/// What a scopedPDU says. Its numbers may be negative.
#[derive(Clone, Copy, Debug)]
pub struct ScopedPdu<'a> {
    pub pdu: Pdu,
    pub request_id: i32,
    /// Or non-repeaters.
    pub error_status: i32,
    /// Or max-repetitions.
    pub error_index: i32,
    pub context_engine: &'a [u8],
    pub context_name: &'a [u8],
    pub bindings: &'a [u8],
}

/// A scopedPDU, as octets, which [`Manager::seal`](crate::Manager::seal) seals.
pub fn scoped_pdu(of: &ScopedPdu<'_>) -> Result<Vec<u8>, Error> {
    let scoped = calls::Scoped {
        pdu: of.pdu as u32,
        request_id: of.request_id,
        error_status: of.error_status,
        error_index: of.error_index,
        context_engine: of.context_engine.into(),
        context_name: of.context_name.into(),
        list: of.bindings.into(),
    };
    copied(|out, len, written| unsafe { snmpsec_scoped_write(&scoped, out, len, written) })
}

/// The binding at a place of a list, which then is the place behind it.
fn read<'a>(list: &'a [u8], at: &mut usize) -> Result<Binding<'a>, Error> {
    let mut one = BindingRead {
        arcs: [0; 128],
        arcs_len: 0,
        tag: 0,
        content: list.as_ptr(),
        content_len: 0,
    };
    done(unsafe { snmpsec_binding_read(list.as_ptr(), list.len(), at, &mut one) })?;
    // SAFETY: the content lies in the list.
    let place = unsafe { one.content.offset_from(list.as_ptr()) } as usize;
    Ok(Binding {
        name: one.arcs[..one.arcs_len].to_vec(),
        tag: one.tag,
        content: &list[place..place + one.content_len],
    })
}

/// The bindings that the octets are.
pub fn bindings(list: &[u8]) -> Result<Vec<Binding<'_>>, Error> {
    let mut found = Vec::new();
    let mut at = 0;
    while at < list.len() {
        found.push(read(list, &mut at)?);
    }
    Ok(found)
}

/// Whether this is the content of a value with this tag (RFC 2578, section 7.1; RFC 3416, section 3).
pub fn value_is(tag: u8, content: &[u8]) -> bool {
    unsafe { snmpsec_value_is(tag, content.as_ptr(), content.len()) }
}
