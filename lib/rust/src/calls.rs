//! The header's structs and signatures. Written of lib/calls.toml by tools/write-calls.
//!
//! An enumeration is a `u32`.
//!
//! Why the calls of this crate are sound: a handle is a `Held`'s, which one thread uses at a time and which is freed
//! once; and each pointer is that of a slice beside its length, or of a number or a struct.

use crate::octets::Octets;
use std::ffi::{c_char, c_void};

#[repr(C)]
pub struct Opaque {
    _private: [u8; 0],
}

/// What lies behind a handle of another kind than that of a call's name: a message that is kept, in a call on an agent,
/// or an agent, in a call on a message that is kept.
pub type Other = Opaque;

#[repr(C)]
#[derive(Clone, Copy, Debug, Default)]
pub struct Info {
    pub level: i32,
    pub pdu: i32,
    pub request_id: i32,
    pub error_status: i32,
    pub error_index: i32,
    pub message_id: i32,
}

#[repr(C)]
#[derive(Clone, Copy, Debug, Default)]
pub struct ConfigPlace {
    pub table: usize,
    pub position: usize,
    pub reason: usize,
    pub key: usize,
}

#[repr(C)]
#[derive(Clone, Copy)]
pub struct Notice<'a> {
    pub message_id: u32,
    pub request_id: u32,
    pub level: u32,
    pub user: Octets<'a>,
    pub context_engine: Octets<'a>,
    pub context_name: Octets<'a>,
    pub list: Octets<'a>,
    pub salt: u64,
}

#[repr(C)]
#[derive(Clone, Copy, Debug, Default)]
pub struct Counters {
    pub unsupported_levels: u32,
    pub not_in_windows: u32,
    pub unknown_users: u32,
    pub unknown_engines: u32,
    pub wrong_digests: u32,
    pub decryption_errors: u32,
}

#[repr(C)]
#[derive(Clone, Copy, Debug, Default)]
pub struct Counts {
    pub unknown_pdu_handlers: u32,
    pub unavailable_contexts: u32,
    pub unknown_contexts: u32,
    pub bad_versions: u32,
    pub asn_parse_errors: u32,
    pub unknown_security_models: u32,
    pub invalid_messages: u32,
    pub silent_drops: u32,
}

#[repr(C)]
#[derive(Clone, Copy, Debug, Default)]
pub struct Reply {
    pub kind: u32,
    pub counter: i32,
}

#[repr(C)]
#[derive(Clone, Copy, Debug, Default)]
pub struct Report {
    pub counter: i32,
    pub value: u32,
    pub has_value: bool,
    pub is_authenticated: bool,
}

#[repr(C)]
#[derive(Clone, Copy)]
pub struct Request<'a> {
    pub pdu: u32,
    pub message_id: u32,
    pub request_id: u32,
    pub error_status: u32,
    pub error_index: u32,
    pub level: u32,
    pub engine: Octets<'a>,
    pub user: Octets<'a>,
    pub context_engine: Octets<'a>,
    pub context_name: Octets<'a>,
    pub list: Octets<'a>,
    pub salt: u64,
}

#[repr(C)]
#[derive(Clone, Copy, Debug, Default)]
pub struct Answered {
    pub kind: u32,
    pub counter: i32,
    pub is_authentic: bool,
    pub token: u64,
}

#[repr(C)]
#[derive(Clone, Copy, Debug, Default)]
pub struct Device {
    pub level: u32,
    pub sent: u32,
    pub again: u32,
    pub counter: i32,
    pub is_authentic: bool,
}

#[repr(C)]
#[derive(Clone, Copy, Debug, Default)]
pub struct Clock {
    pub boots: u32,
    pub time: u32,
}

#[repr(C)]
#[derive(Clone, Copy)]
pub struct Sealing<'a> {
    pub message_id: u32,
    pub max_size: u32,
    pub is_reportable: bool,
    pub level: u32,
    pub engine: Octets<'a>,
    pub user: Octets<'a>,
    pub boots: u32,
    pub time: u32,
    pub scoped: Octets<'a>,
    pub salt: u64,
}

#[repr(C)]
#[derive(Clone, Copy)]
pub struct ListenerSettings<'a> {
    pub least_level: u32,
    pub boots: u32,
    pub started: u64,
    pub clocks_moment: u64,
    pub most: usize,
    pub engine: Octets<'a>,
    pub clocks: Octets<'a>,
}

#[repr(C)]
#[derive(Clone, Copy, Debug, Default)]
pub struct GateInfo {
    pub request: u64,
    pub device: u64,
    pub waiting: u64,
    pub status: u64,
    pub index: u64,
    pub is_report: u64,
    pub misfit: u64,
    pub binding: u64,
    pub hidden: u64,
    pub pdu: u64,
    pub ended: u64,
    pub unhandled: u64,
    pub again: u64,
    pub times: u64,
}

#[repr(C)]
#[derive(Clone, Copy, Debug, Default)]
pub struct ForwardInfo {
    pub notification: u64,
    pub receiver: u64,
    pub waiting: u64,
    pub inform: u64,
    pub informs: u64,
    pub message: u64,
    pub counter: u64,
}

#[repr(C)]
#[derive(Clone, Copy)]
pub struct BindingRead {
    pub arcs: [u32; 128],
    pub arcs_len: usize,
    pub tag: u8,
    pub content: *const u8,
    pub content_len: usize,
}

#[repr(C)]
#[derive(Clone, Copy)]
pub struct Scoped<'a> {
    pub pdu: u32,
    pub request_id: i32,
    pub error_status: i32,
    pub error_index: i32,
    pub context_engine: Octets<'a>,
    pub context_name: Octets<'a>,
    pub list: Octets<'a>,
}

extern "C" {
    pub fn snmpsec_version() -> *const c_char;
    pub fn snmpsec_strerror(answer: i32) -> *const c_char;
    pub fn snmpsec_config_fault(
        config: *const u8,
        config_len: usize,
        place: *mut ConfigPlace,
        out: *mut u8,
        out_len: usize,
        written: *mut usize,
    ) -> i32;
    pub fn snmpsec_agent_free(agent: *mut Opaque);
    pub fn snmpsec_agent_new(
        config: *const u8,
        config_len: usize,
        engine: *const u8,
        engine_len: usize,
        boots: u32,
        started: u64,
        out: *mut *mut Opaque,
    ) -> i32;
    pub fn snmpsec_agent_reconfigure(
        agent: *mut Opaque,
        config: *const u8,
        config_len: usize,
    ) -> i32;
    pub fn snmpsec_agent_take(
        agent: *mut Opaque,
        now: u64,
        datagram: *const u8,
        datagram_len: usize,
    ) -> i32;
    pub fn snmpsec_agent_info(agent: *mut Opaque, out: *mut Info) -> i32;
    pub fn snmpsec_agent_part(
        agent: *mut Opaque,
        part: u32,
        out: *mut u8,
        out_len: usize,
        written: *mut usize,
    ) -> i32;
    pub fn snmpsec_agent_message(
        agent: *mut Opaque,
        out: *mut u8,
        out_len: usize,
        written: *mut usize,
    ) -> i32;
    pub fn snmpsec_agent_access(
        agent: *mut Opaque,
        view: u32,
        arcs: *const u32,
        arcs_len: usize,
        out: *mut u32,
    ) -> i32;
    pub fn snmpsec_agent_next(
        agent: *mut Opaque,
        view: u32,
        arcs: *const u32,
        arcs_len: usize,
        out: *mut u32,
        out_len: usize,
        written: *mut usize,
    ) -> i32;
    pub fn snmpsec_agent_user_access(
        agent: *mut Opaque,
        user: Octets<'_>,
        level: u32,
        context: Octets<'_>,
        view: u32,
        arcs: *const u32,
        arcs_len: usize,
        out: *mut u32,
    ) -> i32;
    pub fn snmpsec_agent_respond(
        agent: *mut Opaque,
        now: u64,
        error_status: u32,
        error_index: u32,
        list: *const u8,
        list_len: usize,
        salt: u64,
    ) -> i32;
    pub fn snmpsec_agent_max_size(agent: *mut Opaque, out: *mut u32) -> i32;
    pub fn snmpsec_agent_respond_within(
        agent: *mut Opaque,
        now: u64,
        error_status: u32,
        error_index: u32,
        list: *const u8,
        list_len: usize,
        salt: u64,
        limit: u32,
    ) -> i32;
    pub fn snmpsec_agent_respond_front(
        agent: *mut Opaque,
        now: u64,
        error_status: u32,
        error_index: u32,
        list: *const u8,
        list_len: usize,
        salt: u64,
        limit: u32,
        count: *mut usize,
    ) -> i32;
    pub fn snmpsec_agent_fits(
        agent: *mut Opaque,
        now: u64,
        error_status: u32,
        error_index: u32,
        list: *const u8,
        list_len: usize,
        limit: u32,
        count: *mut usize,
    ) -> i32;
    pub fn snmpsec_agent_unhandled(agent: *mut Opaque, out: *mut u32) -> i32;
    pub fn snmpsec_agent_refuse(agent: *mut Opaque, now: u64, why: u32, salt: u64) -> i32;
    pub fn snmpsec_agent_silent_drop(agent: *mut Opaque) -> i32;
    pub fn snmpsec_kept_free(kept: *mut Opaque);
    pub fn snmpsec_agent_keep(agent: *mut Opaque, out: *mut *mut Other) -> i32;
    pub fn snmpsec_agent_restore(agent: *mut Opaque, kept: *mut Other) -> i32;
    pub fn snmpsec_kept_info(kept: *mut Opaque, out: *mut Info) -> i32;
    pub fn snmpsec_kept_part(
        kept: *mut Opaque,
        part: u32,
        out: *mut u8,
        out_len: usize,
        written: *mut usize,
    ) -> i32;
    pub fn snmpsec_kept_max_size(kept: *mut Opaque, out: *mut u32) -> i32;
    pub fn snmpsec_kept_respond(
        kept: *mut Opaque,
        agent: *mut Other,
        now: u64,
        error_status: u32,
        error_index: u32,
        list: *const u8,
        list_len: usize,
        salt: u64,
    ) -> i32;
    pub fn snmpsec_kept_respond_within(
        kept: *mut Opaque,
        agent: *mut Other,
        now: u64,
        error_status: u32,
        error_index: u32,
        list: *const u8,
        list_len: usize,
        salt: u64,
        limit: u32,
    ) -> i32;
    pub fn snmpsec_kept_respond_front(
        kept: *mut Opaque,
        agent: *mut Other,
        now: u64,
        error_status: u32,
        error_index: u32,
        list: *const u8,
        list_len: usize,
        salt: u64,
        limit: u32,
        count: *mut usize,
    ) -> i32;
    pub fn snmpsec_status_of(access: u32, pdu: u32, out: *mut u32) -> i32;
    pub fn snmpsec_agent_notify(agent: *mut Opaque, now: u64, notice: *const Notice<'_>) -> i32;
    pub fn snmpsec_agent_counters(agent: *mut Opaque, out: *mut Counters) -> i32;
    pub fn snmpsec_agent_counts(agent: *mut Opaque, out: *mut Counts) -> i32;
    pub fn snmpsec_manager_free(manager: *mut Opaque);
    pub fn snmpsec_manager_new(
        config: *const u8,
        config_len: usize,
        clocks: *const u8,
        clocks_len: usize,
        now: u64,
        out: *mut *mut Opaque,
    ) -> i32;
    pub fn snmpsec_manager_take(
        manager: *mut Opaque,
        now: u64,
        datagram: *const u8,
        datagram_len: usize,
    ) -> i32;
    pub fn snmpsec_manager_info(manager: *mut Opaque, out: *mut Info) -> i32;
    pub fn snmpsec_manager_part(
        manager: *mut Opaque,
        part: u32,
        out: *mut u8,
        out_len: usize,
        written: *mut usize,
    ) -> i32;
    pub fn snmpsec_manager_message(
        manager: *mut Opaque,
        out: *mut u8,
        out_len: usize,
        written: *mut usize,
    ) -> i32;
    pub fn snmpsec_manager_reply(manager: *mut Opaque, out: *mut Reply) -> i32;
    pub fn snmpsec_manager_take_reply(manager: *mut Opaque, out: *mut Reply) -> i32;
    pub fn snmpsec_manager_report(manager: *mut Opaque, out: *mut Report) -> i32;
    pub fn snmpsec_manager_max_size(manager: *mut Opaque, out: *mut u32) -> i32;
    pub fn snmpsec_manager_discover(manager: *mut Opaque, message_id: u32) -> i32;
    pub fn snmpsec_manager_request(
        manager: *mut Opaque,
        now: u64,
        request: *const Request<'_>,
    ) -> i32;
    pub fn snmpsec_manager_ask(
        manager: *mut Opaque,
        now: u64,
        request: *const Request<'_>,
        token: *mut u64,
    ) -> i32;
    pub fn snmpsec_manager_ask_discovery(
        manager: *mut Opaque,
        message_id: u32,
        token: *mut u64,
    ) -> i32;
    pub fn snmpsec_manager_answered(manager: *mut Opaque, out: *mut Answered) -> i32;
    pub fn snmpsec_manager_give_up(manager: *mut Opaque, token: u64) -> i32;
    pub fn snmpsec_device_begin(device: *mut Device, level: u32, known: u32, step: *mut u32)
        -> i32;
    pub fn snmpsec_device_hear(
        device: *mut Device,
        answered: *const Answered,
        holds_clock: bool,
        step: *mut u32,
    ) -> i32;
    pub fn snmpsec_manager_absorb(
        manager: *mut Opaque,
        text: *const u8,
        text_len: usize,
        now: u64,
    ) -> i32;
    pub fn snmpsec_manager_save(
        manager: *mut Opaque,
        out: *mut u8,
        out_len: usize,
        written: *mut usize,
    ) -> i32;
    pub fn snmpsec_manager_clock(
        manager: *mut Opaque,
        engine: *const u8,
        engine_len: usize,
        out: *mut Clock,
    ) -> i32;
    pub fn snmpsec_manager_seal(manager: *mut Opaque, sealing: *const Sealing<'_>) -> i32;
    pub fn snmpsec_listener_free(listener: *mut Opaque);
    pub fn snmpsec_listener_new(
        config: *const u8,
        config_len: usize,
        settings: *const ListenerSettings<'_>,
        sources: *const Octets<'_>,
        sources_len: usize,
        out: *mut *mut Opaque,
    ) -> i32;
    pub fn snmpsec_listener_take(
        listener: *mut Opaque,
        now: u64,
        source: *const u8,
        source_len: usize,
        datagram: *const u8,
        datagram_len: usize,
        salt: u64,
        event: *mut u32,
        why: *mut i32,
    ) -> i32;
    pub fn snmpsec_listener_info(listener: *mut Opaque, out: *mut Info) -> i32;
    pub fn snmpsec_listener_part(
        listener: *mut Opaque,
        part: u32,
        out: *mut u8,
        out_len: usize,
        written: *mut usize,
    ) -> i32;
    pub fn snmpsec_listener_message(
        listener: *mut Opaque,
        out: *mut u8,
        out_len: usize,
        written: *mut usize,
    ) -> i32;
    pub fn snmpsec_listener_count(listener: *mut Opaque, reason: u32, out: *mut u64) -> i32;
    pub fn snmpsec_listener_save(
        listener: *mut Opaque,
        out: *mut u8,
        out_len: usize,
        written: *mut usize,
    ) -> i32;
    pub fn snmpsec_listener_clock(
        listener: *mut Opaque,
        engine: *const u8,
        engine_len: usize,
        out: *mut Clock,
    ) -> i32;
    pub fn snmpsec_gate_free(gate: *mut Opaque);
    pub fn snmpsec_gate_fault(
        config: *const u8,
        config_len: usize,
        out: *mut u8,
        out_len: usize,
        written: *mut usize,
    ) -> i32;
    pub fn snmpsec_gate_new(
        config: *const u8,
        config_len: usize,
        boots: u32,
        started: u64,
        out: *mut *mut Opaque,
    ) -> i32;
    pub fn snmpsec_gate_read(config: *const u8, config_len: usize, out: *mut *mut Opaque) -> i32;
    pub fn snmpsec_gate_setting(
        gate: *mut Opaque,
        text: u32,
        position: usize,
        out: *mut u8,
        out_len: usize,
        written: *mut usize,
    ) -> i32;
    pub fn snmpsec_gate_take_client(
        gate: *mut Opaque,
        now: u64,
        client: *const u8,
        client_len: usize,
        datagram: *const u8,
        datagram_len: usize,
        event: *mut u32,
    ) -> i32;
    pub fn snmpsec_gate_take_device(
        gate: *mut Opaque,
        now: u64,
        device: usize,
        datagram: *const u8,
        datagram_len: usize,
        event: *mut u32,
    ) -> i32;
    pub fn snmpsec_gate_next(
        gate: *mut Opaque,
        now: u64,
        salt: u64,
        ask_id: u32,
        event: *mut u32,
        why: *mut i32,
    ) -> i32;
    pub fn snmpsec_gate_due(gate: *mut Opaque, at: *mut u64) -> i32;
    pub fn snmpsec_gate_message(
        gate: *mut Opaque,
        out: *mut u8,
        out_len: usize,
        written: *mut usize,
    ) -> i32;
    pub fn snmpsec_gate_client(
        gate: *mut Opaque,
        out: *mut u8,
        out_len: usize,
        written: *mut usize,
    ) -> i32;
    pub fn snmpsec_gate_asker(
        gate: *mut Opaque,
        request: u64,
        out: *mut u8,
        out_len: usize,
        written: *mut usize,
    ) -> i32;
    pub fn snmpsec_gate_lines(gate: *mut Opaque, kinds: *mut u32) -> i32;
    pub fn snmpsec_gate_line(
        gate: *mut Opaque,
        kind: u32,
        client: *const u8,
        client_len: usize,
        datagram: *const u8,
        datagram_len: usize,
        out: *mut u8,
        out_len: usize,
        written: *mut usize,
    ) -> i32;
    pub fn snmpsec_gate_numbers(gate: *mut Opaque, out: *mut GateInfo) -> i32;
    pub fn snmpsec_gate_counters(gate: *mut Opaque, out: *mut Counters) -> i32;
    pub fn snmpsec_gate_counts(gate: *mut Opaque, out: *mut Counts) -> i32;
    pub fn snmpsec_gate_may_notify(
        gate: *mut Opaque,
        receiver: usize,
        device: usize,
        arcs: *const u32,
        arcs_len: usize,
        out: *mut u32,
    ) -> i32;
    pub fn snmpsec_datagram_user(
        datagram: *const u8,
        datagram_len: usize,
        out: *mut u8,
        out_len: usize,
        written: *mut usize,
    ) -> i32;
    pub fn snmpsec_forward_free(forward: *mut Opaque);
    pub fn snmpsec_forward_new(
        config: *const u8,
        config_len: usize,
        boots: u32,
        started: u64,
        out: *mut *mut Opaque,
    ) -> i32;
    pub fn snmpsec_forward_take_trap(
        forward: *mut Opaque,
        device: usize,
        datagram: *const u8,
        datagram_len: usize,
        event: *mut u32,
    ) -> i32;
    pub fn snmpsec_forward_take_receiver(
        forward: *mut Opaque,
        now: u64,
        receiver: usize,
        datagram: *const u8,
        datagram_len: usize,
        event: *mut u32,
    ) -> i32;
    pub fn snmpsec_forward_next(
        forward: *mut Opaque,
        now: u64,
        salt: u64,
        ask_id: u32,
        event: *mut u32,
        why: *mut i32,
    ) -> i32;
    pub fn snmpsec_forward_due(forward: *mut Opaque, at: *mut u64) -> i32;
    pub fn snmpsec_forward_message(
        forward: *mut Opaque,
        out: *mut u8,
        out_len: usize,
        written: *mut usize,
    ) -> i32;
    pub fn snmpsec_forward_numbers(forward: *mut Opaque, out: *mut ForwardInfo) -> i32;
    pub fn snmpsec_binding_read(
        list: *const u8,
        list_len: usize,
        at: *mut usize,
        out: *mut BindingRead,
    ) -> i32;
    pub fn snmpsec_binding_write(
        arcs: *const u32,
        arcs_len: usize,
        tag: u8,
        content: *const u8,
        content_len: usize,
        out: *mut u8,
        out_len: usize,
        written: *mut usize,
    ) -> i32;
    pub fn snmpsec_scoped_write(
        scoped: *const Scoped<'_>,
        out: *mut u8,
        out_len: usize,
        written: *mut usize,
    ) -> i32;
    pub fn snmpsec_value_is(tag: u8, content: *const u8, content_len: usize) -> bool;
    pub fn snmpsec_password_key(
        protocol: u32,
        password: *const u8,
        password_len: usize,
        out: *mut u8,
        out_len: usize,
        written: *mut usize,
    ) -> i32;
    pub fn snmpsec_localise(
        protocol: u32,
        key: *const u8,
        key_len: usize,
        engine: *const u8,
        engine_len: usize,
        out: *mut u8,
        out_len: usize,
        written: *mut usize,
    ) -> i32;
    pub fn snmpsec_mac(
        protocol: u32,
        key: *const u8,
        key_len: usize,
        front: *const u8,
        front_len: usize,
        zeros: usize,
        back: *const u8,
        back_len: usize,
        out: *mut u8,
        out_len: usize,
        written: *mut usize,
    ) -> i32;
    pub fn snmpsec_seal(
        key: *const u8,
        key_len: usize,
        boots: u32,
        time: u32,
        salt: *const u8,
        salt_len: usize,
        text: *mut u8,
        text_len: usize,
    ) -> i32;
    pub fn snmpsec_open(
        key: *const u8,
        key_len: usize,
        boots: u32,
        time: u32,
        salt: *const u8,
        salt_len: usize,
        text: *mut u8,
        text_len: usize,
    ) -> i32;
    pub fn snmpsec_wipe(octets: *mut c_void, octets_len: usize);
}
