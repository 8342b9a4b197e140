"""The header's structs and signatures. Written of lib/calls.toml by tools/write-calls.

Here c_char_p is octets that are read, POINTER(c_char) room that is written, and c_uint a number or one of an
enumeration. Not proved."""
import ctypes
from ctypes import POINTER, c_bool, c_char, c_char_p, c_int, c_int32, c_size_t
from ctypes import c_uint, c_uint8, c_uint32, c_uint64, c_void_p


class Enumeration(c_uint):
    """One of an enumeration, which is written."""


class Written(c_uint32):
    """A number, which is written."""


class Other(c_void_p):
    """A handle of another kind than that of a call's name: a message that is kept, in a call on an agent, or an agent,
    in one on a message."""


class Octets(ctypes.Structure):
    _fields_ = [("at", c_char_p), ("len", c_size_t)]


class Info(ctypes.Structure):
    _fields_ = [
        ("level", c_int32),
        ("pdu", c_int32),
        ("request_id", c_int32),
        ("error_status", c_int32),
        ("error_index", c_int32),
        ("message_id", c_int32),
    ]


class ConfigPlace(ctypes.Structure):
    _fields_ = [
        ("table", c_size_t),
        ("position", c_size_t),
        ("reason", c_size_t),
        ("key", c_size_t),
    ]


class Notice(ctypes.Structure):
    _fields_ = [
        ("message_id", c_uint32),
        ("request_id", c_uint32),
        ("level", c_uint),
        ("user", Octets),
        ("context_engine", Octets),
        ("context_name", Octets),
        ("list", Octets),
        ("salt", c_uint64),
    ]


class Counters(ctypes.Structure):
    _fields_ = [
        ("unsupported_levels", c_uint32),
        ("not_in_windows", c_uint32),
        ("unknown_users", c_uint32),
        ("unknown_engines", c_uint32),
        ("wrong_digests", c_uint32),
        ("decryption_errors", c_uint32),
    ]


class Counts(ctypes.Structure):
    _fields_ = [
        ("unknown_pdu_handlers", c_uint32),
        ("unavailable_contexts", c_uint32),
        ("unknown_contexts", c_uint32),
        ("bad_versions", c_uint32),
        ("asn_parse_errors", c_uint32),
        ("unknown_security_models", c_uint32),
        ("invalid_messages", c_uint32),
        ("silent_drops", c_uint32),
    ]


class Reply(ctypes.Structure):
    _fields_ = [
        ("kind", c_uint),
        ("counter", c_int),
    ]


class Report(ctypes.Structure):
    _fields_ = [
        ("counter", c_int),
        ("value", c_uint32),
        ("has_value", c_bool),
        ("is_authenticated", c_bool),
    ]


class Request(ctypes.Structure):
    _fields_ = [
        ("pdu", c_uint),
        ("message_id", c_uint32),
        ("request_id", c_uint32),
        ("error_status", c_uint32),
        ("error_index", c_uint32),
        ("level", c_uint),
        ("engine", Octets),
        ("user", Octets),
        ("context_engine", Octets),
        ("context_name", Octets),
        ("list", Octets),
        ("salt", c_uint64),
    ]


class Answered(ctypes.Structure):
    _fields_ = [
        ("kind", c_uint),
        ("counter", c_int),
        ("is_authentic", c_bool),
        ("token", c_uint64),
    ]


class AnsweredRead(Answered):
    """The same, where a call only reads it."""


class Device(ctypes.Structure):
    _fields_ = [
        ("level", c_uint),
        ("sent", c_uint32),
        ("again", c_uint32),
        ("counter", c_int),
        ("is_authentic", c_bool),
    ]


class Clock(ctypes.Structure):
    _fields_ = [
        ("boots", c_uint32),
        ("time", c_uint32),
    ]


class Sealing(ctypes.Structure):
    _fields_ = [
        ("message_id", c_uint32),
        ("max_size", c_uint32),
        ("is_reportable", c_bool),
        ("level", c_uint),
        ("engine", Octets),
        ("user", Octets),
        ("boots", c_uint32),
        ("time", c_uint32),
        ("scoped", Octets),
        ("salt", c_uint64),
    ]


class ListenerSettings(ctypes.Structure):
    _fields_ = [
        ("least_level", c_uint32),
        ("boots", c_uint32),
        ("started", c_uint64),
        ("clocks_moment", c_uint64),
        ("most", c_size_t),
        ("engine", Octets),
        ("clocks", Octets),
    ]


class GateInfo(ctypes.Structure):
    _fields_ = [
        ("request", c_uint64),
        ("device", c_uint64),
        ("waiting", c_uint64),
        ("status", c_uint64),
        ("index", c_uint64),
        ("is_report", c_uint64),
        ("misfit", c_uint64),
        ("binding", c_uint64),
        ("hidden", c_uint64),
        ("pdu", c_uint64),
        ("ended", c_uint64),
        ("unhandled", c_uint64),
        ("again", c_uint64),
        ("times", c_uint64),
    ]


class ForwardInfo(ctypes.Structure):
    _fields_ = [
        ("notification", c_uint64),
        ("receiver", c_uint64),
        ("waiting", c_uint64),
        ("inform", c_uint64),
        ("informs", c_uint64),
        ("message", c_uint64),
        ("counter", c_uint64),
    ]


class BindingRead(ctypes.Structure):
    _fields_ = [
        ("arcs", c_uint32 * 128),
        ("arcs_len", c_size_t),
        ("tag", c_uint8),
        ("content", c_void_p),
        ("content_len", c_size_t),
    ]


class Scoped(ctypes.Structure):
    _fields_ = [
        ("pdu", c_uint),
        ("request_id", c_int32),
        ("error_status", c_int32),
        ("error_index", c_int32),
        ("context_engine", Octets),
        ("context_name", Octets),
        ("list", Octets),
    ]


SIGNATURES = {
    "version": (c_char_p, []),
    "strerror": (c_char_p, [c_int]),
    "error_name": (c_char_p, [c_int]),
    "config_fault": (c_int, [c_char_p, c_size_t, POINTER(ConfigPlace), POINTER(c_char), c_size_t, POINTER(c_size_t)]),
    "agent_free": (None, [c_void_p]),
    "agent_new": (c_int, [c_char_p, c_size_t, c_char_p, c_size_t, c_uint32, c_uint64, POINTER(c_void_p)]),
    "agent_reconfigure": (c_int, [c_void_p, c_char_p, c_size_t]),
    "agent_take": (c_int, [c_void_p, c_uint64, c_char_p, c_size_t]),
    "agent_info": (c_int, [c_void_p, POINTER(Info)]),
    "agent_part": (c_int, [c_void_p, c_uint, POINTER(c_char), c_size_t, POINTER(c_size_t)]),
    "agent_message": (c_int, [c_void_p, POINTER(c_char), c_size_t, POINTER(c_size_t)]),
    "agent_access": (c_int, [c_void_p, c_uint, POINTER(c_uint32), c_size_t, POINTER(Enumeration)]),
    "agent_next": (
        c_int,
        [
            c_void_p, c_uint, POINTER(c_uint32), c_size_t, POINTER(Written), c_size_t, POINTER(c_size_t),
        ],
    ),
    "agent_user_access": (
        c_int,
        [
            c_void_p, Octets, c_uint, Octets, c_uint, POINTER(c_uint32), c_size_t, POINTER(Enumeration),
        ],
    ),
    "agent_respond": (c_int, [c_void_p, c_uint64, c_uint32, c_uint32, c_char_p, c_size_t, c_uint64]),
    "agent_max_size": (c_int, [c_void_p, POINTER(Written)]),
    "agent_respond_within": (c_int, [c_void_p, c_uint64, c_uint32, c_uint32, c_char_p, c_size_t, c_uint64, c_uint32]),
    "agent_respond_front": (
        c_int,
        [
            c_void_p, c_uint64, c_uint32, c_uint32, c_char_p, c_size_t, c_uint64, c_uint32, POINTER(c_size_t),
        ],
    ),
    "agent_fits": (c_int, [c_void_p, c_uint64, c_uint32, c_uint32, c_char_p, c_size_t, c_uint32, POINTER(c_size_t)]),
    "agent_unhandled": (c_int, [c_void_p, POINTER(Enumeration)]),
    "agent_refuse": (c_int, [c_void_p, c_uint64, c_uint, c_uint64]),
    "agent_silent_drop": (c_int, [c_void_p]),
    "kept_free": (None, [c_void_p]),
    "agent_keep": (c_int, [c_void_p, POINTER(Other)]),
    "agent_restore": (c_int, [c_void_p, Other]),
    "kept_info": (c_int, [c_void_p, POINTER(Info)]),
    "kept_part": (c_int, [c_void_p, c_uint, POINTER(c_char), c_size_t, POINTER(c_size_t)]),
    "kept_max_size": (c_int, [c_void_p, POINTER(Written)]),
    "kept_respond": (c_int, [c_void_p, Other, c_uint64, c_uint32, c_uint32, c_char_p, c_size_t, c_uint64]),
    "kept_respond_within": (
        c_int,
        [
            c_void_p, Other, c_uint64, c_uint32, c_uint32, c_char_p, c_size_t, c_uint64, c_uint32,
        ],
    ),
    "kept_respond_front": (
        c_int,
        [
            c_void_p, Other, c_uint64, c_uint32, c_uint32, c_char_p, c_size_t, c_uint64, c_uint32, POINTER(c_size_t),
        ],
    ),
    "status_of": (c_int, [c_uint, c_uint, POINTER(Enumeration)]),
    "agent_notify": (c_int, [c_void_p, c_uint64, POINTER(Notice)]),
    "agent_counters": (c_int, [c_void_p, POINTER(Counters)]),
    "agent_counts": (c_int, [c_void_p, POINTER(Counts)]),
    "manager_free": (None, [c_void_p]),
    "manager_new": (c_int, [c_char_p, c_size_t, c_char_p, c_size_t, c_uint64, POINTER(c_void_p)]),
    "manager_take": (c_int, [c_void_p, c_uint64, c_char_p, c_size_t]),
    "manager_info": (c_int, [c_void_p, POINTER(Info)]),
    "manager_part": (c_int, [c_void_p, c_uint, POINTER(c_char), c_size_t, POINTER(c_size_t)]),
    "manager_message": (c_int, [c_void_p, POINTER(c_char), c_size_t, POINTER(c_size_t)]),
    "manager_reply": (c_int, [c_void_p, POINTER(Reply)]),
    "manager_take_reply": (c_int, [c_void_p, POINTER(Reply)]),
    "manager_report": (c_int, [c_void_p, POINTER(Report)]),
    "manager_max_size": (c_int, [c_void_p, POINTER(Written)]),
    "manager_discover": (c_int, [c_void_p, c_uint32]),
    "manager_request": (c_int, [c_void_p, c_uint64, POINTER(Request)]),
    "manager_ask": (c_int, [c_void_p, c_uint64, POINTER(Request), POINTER(c_uint64)]),
    "manager_ask_discovery": (c_int, [c_void_p, c_uint32, POINTER(c_uint64)]),
    "manager_answered": (c_int, [c_void_p, POINTER(Answered)]),
    "manager_give_up": (c_int, [c_void_p, c_uint64]),
    "device_begin": (c_int, [POINTER(Device), c_uint, c_uint, POINTER(Enumeration)]),
    "device_hear": (c_int, [POINTER(Device), POINTER(AnsweredRead), c_bool, POINTER(Enumeration)]),
    "manager_absorb": (c_int, [c_void_p, c_char_p, c_size_t, c_uint64]),
    "manager_save": (c_int, [c_void_p, POINTER(c_char), c_size_t, POINTER(c_size_t)]),
    "manager_clock": (c_int, [c_void_p, c_char_p, c_size_t, POINTER(Clock)]),
    "manager_seal": (c_int, [c_void_p, POINTER(Sealing)]),
    "listener_free": (None, [c_void_p]),
    "listener_new": (
        c_int,
        [
            c_char_p, c_size_t, POINTER(ListenerSettings), POINTER(Octets), c_size_t, POINTER(c_void_p),
        ],
    ),
    "listener_take": (
        c_int,
        [
            c_void_p, c_uint64, c_char_p, c_size_t, c_char_p, c_size_t, c_uint64, POINTER(Enumeration), POINTER(c_int),
        ],
    ),
    "listener_info": (c_int, [c_void_p, POINTER(Info)]),
    "listener_part": (c_int, [c_void_p, c_uint, POINTER(c_char), c_size_t, POINTER(c_size_t)]),
    "listener_message": (c_int, [c_void_p, POINTER(c_char), c_size_t, POINTER(c_size_t)]),
    "listener_count": (c_int, [c_void_p, c_uint32, POINTER(c_uint64)]),
    "listener_save": (c_int, [c_void_p, POINTER(c_char), c_size_t, POINTER(c_size_t)]),
    "listener_clock": (c_int, [c_void_p, c_char_p, c_size_t, POINTER(Clock)]),
    "gate_free": (None, [c_void_p]),
    "gate_fault": (c_int, [c_char_p, c_size_t, POINTER(c_char), c_size_t, POINTER(c_size_t)]),
    "gate_new": (c_int, [c_char_p, c_size_t, c_uint32, c_uint64, POINTER(c_void_p)]),
    "gate_read": (c_int, [c_char_p, c_size_t, POINTER(c_void_p)]),
    "gate_setting": (c_int, [c_void_p, c_uint, c_size_t, POINTER(c_char), c_size_t, POINTER(c_size_t)]),
    "gate_take_client": (c_int, [c_void_p, c_uint64, c_char_p, c_size_t, c_char_p, c_size_t, POINTER(Enumeration)]),
    "gate_take_device": (c_int, [c_void_p, c_uint64, c_size_t, c_char_p, c_size_t, POINTER(Enumeration)]),
    "gate_next": (c_int, [c_void_p, c_uint64, c_uint64, c_uint32, POINTER(Enumeration), POINTER(c_int)]),
    "gate_due": (c_int, [c_void_p, POINTER(c_uint64)]),
    "gate_message": (c_int, [c_void_p, POINTER(c_char), c_size_t, POINTER(c_size_t)]),
    "gate_client": (c_int, [c_void_p, POINTER(c_char), c_size_t, POINTER(c_size_t)]),
    "gate_asker": (c_int, [c_void_p, c_uint64, POINTER(c_char), c_size_t, POINTER(c_size_t)]),
    "gate_lines": (c_int, [c_void_p, POINTER(Written)]),
    "gate_line": (
        c_int,
        [
            c_void_p, c_uint, c_char_p, c_size_t, c_char_p, c_size_t, POINTER(c_char), c_size_t, POINTER(c_size_t),
        ],
    ),
    "gate_numbers": (c_int, [c_void_p, POINTER(GateInfo)]),
    "gate_counters": (c_int, [c_void_p, POINTER(Counters)]),
    "gate_counts": (c_int, [c_void_p, POINTER(Counts)]),
    "gate_may_notify": (c_int, [c_void_p, c_size_t, c_size_t, POINTER(c_uint32), c_size_t, POINTER(Enumeration)]),
    "datagram_user": (c_int, [c_char_p, c_size_t, POINTER(c_char), c_size_t, POINTER(c_size_t)]),
    "forward_free": (None, [c_void_p]),
    "forward_new": (c_int, [c_char_p, c_size_t, c_uint32, c_uint64, POINTER(c_void_p)]),
    "forward_take_trap": (c_int, [c_void_p, c_size_t, c_char_p, c_size_t, POINTER(Enumeration)]),
    "forward_take_receiver": (c_int, [c_void_p, c_uint64, c_size_t, c_char_p, c_size_t, POINTER(Enumeration)]),
    "forward_next": (c_int, [c_void_p, c_uint64, c_uint64, c_uint32, POINTER(Enumeration), POINTER(c_int)]),
    "forward_due": (c_int, [c_void_p, POINTER(c_uint64)]),
    "forward_message": (c_int, [c_void_p, POINTER(c_char), c_size_t, POINTER(c_size_t)]),
    "forward_numbers": (c_int, [c_void_p, POINTER(ForwardInfo)]),
    "binding_read": (c_int, [c_char_p, c_size_t, POINTER(c_size_t), POINTER(BindingRead)]),
    "binding_write": (
        c_int,
        [
            POINTER(c_uint32), c_size_t, c_uint8, c_char_p, c_size_t, POINTER(c_char), c_size_t, POINTER(c_size_t),
        ],
    ),
    "scoped_write": (c_int, [POINTER(Scoped), POINTER(c_char), c_size_t, POINTER(c_size_t)]),
    "value_is": (c_bool, [c_uint8, c_char_p, c_size_t]),
    "password_key": (c_int, [c_uint, c_char_p, c_size_t, POINTER(c_char), c_size_t, POINTER(c_size_t)]),
    "localise": (c_int, [c_uint, c_char_p, c_size_t, c_char_p, c_size_t, POINTER(c_char), c_size_t, POINTER(c_size_t)]),
    "mac": (
        c_int,
        [
            c_uint, c_char_p, c_size_t, c_char_p, c_size_t, c_size_t, c_char_p, c_size_t, POINTER(c_char), c_size_t,
            POINTER(c_size_t),
        ],
    ),
    "seal": (c_int, [c_char_p, c_size_t, c_uint32, c_uint32, c_char_p, c_size_t, POINTER(c_char), c_size_t]),
    "open": (c_int, [c_char_p, c_size_t, c_uint32, c_uint32, c_char_p, c_size_t, POINTER(c_char), c_size_t]),
}
