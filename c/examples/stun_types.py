"""What the examples in Python need of stun_types.h: structs, numbers and calls, named as there."""
import secrets
import time
from ctypes import (CDLL, POINTER, Structure, c_bool, c_char_p, c_size_t, c_uint8, c_uint16, c_uint32,
                    c_uint64, c_void_p)
from ipaddress import ip_address


class Answer(Structure):
    _fields_ = [("code", c_uint32), ("type", c_uint32), ("expected", c_uint64),
                ("actual", c_uint64)]
class Id(Structure):
    _fields_ = [("bytes", c_uint8 * 12)]
class Attribute(Structure):
    _fields_ = [("value_at", c_size_t), ("type", c_uint16), ("length", c_uint16)]
class Address(Structure):
    _fields_ = [("octets", c_uint8 * 16), ("port", c_uint16), ("family", c_uint16)]
class Key(Structure):
    _fields_ = [("at", c_void_p), ("held", c_uint64)]
class Policy(Structure):
    _fields_ = [("algorithm", c_uint32), ("min_hmac_length", c_uint32), ("fingerprint", c_uint32),
                ("reserved", c_uint32)]
class Validated(Structure):
    _fields_ = [("algorithm", c_uint32), ("hmac_length", c_uint32), ("reserved", c_uint64)]
class Ice(Structure):
    _fields_ = [("at", c_void_p), ("held", c_uint64)]
class IceSettings(Structure):
    _fields_ = [("ufrag", c_char_p), ("ufrag_length", c_size_t), ("password", c_char_p),
                ("password_length", c_size_t), ("software", c_char_p), ("software_length", c_size_t),
                ("tiebreaker", c_uint64), ("role", c_uint32), ("pairs", c_uint32),
                ("candidates", c_uint32), ("requests", c_uint32), ("ta", c_uint32), ("rto", c_uint32),
                ("patience", c_uint32), ("tries", c_uint32), ("reserved", c_uint64)]
class IceBase(Structure):
    _fields_ = [("number", c_uint32), ("foundation", c_uint32), ("priority", c_uint32),
                ("reflexive_priority", c_uint32), ("component", c_uint16), ("family", c_uint16),
                ("link_local", c_uint16), ("reserved", c_uint16)]
class IceRemote(Structure):
    _fields_ = [("address", Address), ("foundation", c_uint32), ("priority", c_uint32),
                ("component", c_uint16), ("reserved", c_uint16)]
class IceReceived(Structure):
    _fields_ = [("length", c_size_t), ("kind", c_uint32), ("component", c_uint16),
                ("reserved", c_uint16)]
class IceRequest(Structure):
    _fields_ = [("length", c_size_t), ("to", Address), ("base", c_uint32)]
class IcePath(Structure):
    _fields_ = [("to", Address), ("base", c_uint32)]
class IceStanding(Structure):
    _fields_ = [("path", IcePath), ("progress", c_uint32), ("role", c_uint32), ("pairs", c_size_t)]
class IceChecked(Structure):
    _fields_ = [("until", c_uint64), ("remote", Address), ("base", c_uint32), ("priority", c_uint32),
                ("remote_priority", c_uint32), ("state", c_uint32), ("component", c_uint16),
                ("tries", c_uint16), ("triggered", c_uint16), ("nominated", c_uint16)]
class IceChange(Structure):
    _fields_ = [("address", Address), ("base", c_uint32), ("kind", c_uint32), ("progress", c_uint32),
                ("role", c_uint32), ("component", c_uint16), ("reserved", c_uint16)]
class IceCandidate(Structure):
    _fields_ = [("foundation", c_uint8 * 32), ("foundation_length", c_uint16), ("component", c_uint16),
                ("priority", c_uint32), ("address", Address), ("related", Address),
                ("transport", c_uint32), ("kind", c_uint32)]
class Allocation(Structure):
    _fields_ = [("at", c_void_p), ("held", c_uint64)]
class AllocationSettings(Structure):
    _fields_ = [("server", Address), ("transport", c_uint32), ("user", c_char_p),
                ("user_length", c_size_t), ("password", c_char_p), ("password_length", c_size_t),
                ("software", c_char_p), ("software_length", c_size_t), ("lifetime", c_uint32),
                ("peers", c_uint32), ("rto", c_uint32), ("last_wait", c_uint32), ("sends", c_uint32),
                ("retries", c_uint32), ("algorithm", c_uint32), ("family", c_uint16),
                ("fingerprint", c_uint16), ("named", c_uint32), ("port", c_uint16),
                ("dont_fragment", c_uint16), ("token", c_uint64)]
class AllocationData(Structure):
    _fields_ = [("at", c_size_t), ("length", c_size_t), ("peer", Address), ("shown", c_uint32),
                ("token", c_uint64), ("icmp_data", c_uint32), ("icmp_type", c_uint8),
                ("icmp_code", c_uint8), ("reserved", c_uint16)]
class AllocationHead(Structure):
    _fields_ = [("length", c_size_t), ("padding", c_size_t), ("sends", c_uint32),
                ("reserved", c_uint32)]
class AllocationChange(Structure):
    _fields_ = [("until", c_uint64), ("channel_until", c_uint64), ("kind", c_uint32), ("why", c_uint32),
                ("relayed", Address), ("mapped", Address), ("peer", Address), ("server", Address),
                ("channel", c_uint16), ("code", c_uint16), ("wants", c_uint16), ("violated", c_uint16),
                ("rest", c_uint32), ("reserved", c_uint32)]


STUN_TYPES_CLASS_REQUEST, STUN_TYPES_METHOD_BINDING = 0, 0x001
STUN_TYPES_ATTRIBUTE_USERNAME, STUN_TYPES_ATTRIBUTE_XOR_MAPPED_ADDRESS = 0x0006, 0x0020
STUN_TYPES_INTEGRITY_SHA256 = 0x001C
STUN_TYPES_UDP = 1
STUN_TYPES_ICE_CONTROLLING, STUN_TYPES_ICE_CONTROLLED = 1, 2
STUN_TYPES_ICE_RESPONSE, STUN_TYPES_ICE_DATA = 1, 2
STUN_TYPES_ICE_CONNECTED, STUN_TYPES_ICE_FAILED = 2, 3
STUN_TYPES_ICE_PROGRESS, STUN_TYPES_ICE_HOST = 3, 1
STUN_TYPES_ALLOCATION_ALLOCATE, STUN_TYPES_ALLOCATION_BIND, STUN_TYPES_ALLOCATION_CLOSE = 1, 3, 4
STUN_TYPES_ALLOCATION_ALLOCATED, STUN_TYPES_ALLOCATION_BOUND, STUN_TYPES_ALLOCATION_OVER = 1, 5, 8
STUN_TYPES_ALLOCATION_CLOSED = 1

# The result and the arguments of each call.
BYTES = (c_char_p, c_size_t)
ROOM = (*BYTES, POINTER(c_size_t))
ICE, NOW, CLIENT = POINTER(Ice), c_uint64, POINTER(Allocation)
CALLS = {
    "stun_types_parse": (Answer, *BYTES),
    "stun_types_find": (c_bool, *BYTES, c_uint16, POINTER(Attribute)),
    "stun_types_read_xor_address": (Answer, *BYTES, POINTER(Attribute), POINTER(Address)),
    "stun_types_key_short_term": (Answer, POINTER(Key), *BYTES),
    "stun_types_keys_free": (None, POINTER(Key), c_size_t),
    "stun_types_message_type": (c_uint16, c_uint32, c_uint32),
    "stun_types_begin": (Answer, *BYTES, c_uint16, POINTER(Id), POINTER(c_size_t)),
    "stun_types_add": (Answer, *ROOM, c_uint16, *BYTES),
    "stun_types_add_integrity": (Answer, *ROOM, POINTER(Key), c_uint32),
    "stun_types_add_fingerprint": (Answer, *ROOM),
    "stun_types_binding_reply": (Answer, *BYTES, POINTER(Address), *ROOM),
    "stun_types_validate_by_policy": (Answer, *BYTES, POINTER(Policy), POINTER(Key), POINTER(Validated)),
    "stun_types_ice_new": (Answer, ICE, POINTER(IceSettings)),
    "stun_types_ices_free": (None, ICE, c_size_t),
    "stun_types_ice_set_peer": (Answer, ICE, NOW, *BYTES, *BYTES),
    "stun_types_ice_add_base": (Answer, ICE, NOW, POINTER(IceBase)),
    "stun_types_ice_add_remote": (Answer, ICE, NOW, POINTER(IceRemote)),
    "stun_types_ice_add_address": (Answer, ICE, POINTER(Address)),
    "stun_types_ice_end_candidates": (Answer, ICE, NOW),
    "stun_types_ice_datagram": (Answer, ICE, NOW, c_uint32, POINTER(Address), *BYTES, c_uint64, *BYTES,
                                POINTER(IceReceived)),
    "stun_types_ice_poll": (Answer, ICE, NOW, POINTER(Id), *BYTES, POINTER(IceRequest), POINTER(c_uint64)),
    "stun_types_ice_route": (c_bool, ICE, NOW, c_uint16, POINTER(IcePath)),
    "stun_types_ice_status": (c_bool, ICE, c_uint16, POINTER(IceStanding)),
    "stun_types_ice_pair": (c_bool, ICE, c_uint32, POINTER(IceChecked)),
    "stun_types_ice_changes": (c_bool, ICE, POINTER(IceChange)),
    "stun_types_ice_candidate_read": (Answer, *BYTES, POINTER(IceCandidate)),
    "stun_types_ice_candidate_write": (Answer, POINTER(IceCandidate), *ROOM),
    "stun_types_allocation_new": (Answer, CLIENT, POINTER(AllocationSettings)),
    "stun_types_allocations_free": (None, CLIENT, c_size_t),
    "stun_types_allocation_want": (Answer, CLIENT, NOW, c_uint32, POINTER(Address)),
    "stun_types_allocation_datagram": (Answer, CLIENT, NOW, POINTER(Address), *BYTES, POINTER(AllocationData)),
    "stun_types_allocation_poll": (Answer, CLIENT, NOW, POINTER(Id), *ROOM, POINTER(c_uint64)),
    "stun_types_allocation_send": (Answer, CLIENT, NOW, c_size_t, POINTER(Address), POINTER(Id), *BYTES,
                                   POINTER(AllocationHead)),
    "stun_types_allocation_changes": (c_bool, CLIENT, POINTER(AllocationChange)),
}


def check(answer, call, _arguments):
    if answer.code:
        raise ValueError(f"{call.__name__} returned the code {answer.code}")


def load(name):
    """The library, whose calls raise ValueError if they fail."""
    library = CDLL(name)
    for name, (result, *arguments) in CALLS.items():
        call = getattr(library, name)
        call.restype, call.argtypes = result, arguments
        if result is Answer:
            call.errcheck = check
    return library


def now():
    """The moment, for the calls of ICE agents and TURN clients."""
    return time.monotonic_ns()


def new_id():
    return Id((c_uint8 * 12)(*secrets.token_bytes(12)))


def address_of(host, port, *_):
    """The address of a socket, for the library."""
    ip = ip_address(host)
    return Address((c_uint8 * 16)(*ip.packed), port, ip.version)


def socket_address(address):
    """An address of the library, for a socket."""
    octets = bytes(address.octets)
    return str(ip_address(octets if address.family == 6 else octets[:4])), address.port


def text_of(address):
    """192.0.2.1:32853, or [2001:db8::1]:32853."""
    host, port = socket_address(address)
    return f"[{host}]:{port}" if address.family == 6 else f"{host}:{port}"
