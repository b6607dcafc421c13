#!/usr/bin/env python3
"""Reads the address in a response, and writes and validates a signed request, as messages.c does.

python3 messages.py [LIBRARY [DATAGRAM]]    LIBRARY is by default what the loader finds as libstun_types.so.0.1
"""
import sys
from ctypes import c_size_t, c_uint8, create_string_buffer

import stun_types as stun

RESPONSE = bytes.fromhex("0101000c2112a442b7e7a701bc34d686fa87dfae002000080001a147e112a643")


def address_in(library, message):
    found, address, size = stun.Attribute(), stun.Address(), len(message)
    library.stun_types_parse(message, size)
    if not library.stun_types_find(message, size, stun.STUN_TYPES_ATTRIBUTE_XOR_MAPPED_ADDRESS, found):
        raise ValueError("the response reports no address")
    library.stun_types_read_xor_address(message, size, found, address)
    return stun.text_of(address)


def signed_request(library, user, key):
    room, size, length = create_string_buffer(200), 200, c_size_t()
    random = stun.Id((c_uint8 * 12)(*range(1, 13)))  # yours is drawn at random
    kind = library.stun_types_message_type(stun.STUN_TYPES_CLASS_REQUEST, stun.STUN_TYPES_METHOD_BINDING)
    library.stun_types_begin(room, size, kind, random, length)
    library.stun_types_add(room, size, length, stun.STUN_TYPES_ATTRIBUTE_USERNAME, user, len(user))
    library.stun_types_add_integrity(room, size, length, key, stun.STUN_TYPES_INTEGRITY_SHA256)
    library.stun_types_add_fingerprint(room, size, length)
    return room.raw[: length.value]


def reply_to(library, datagram):
    """What a server without credentials replies to a datagram from 192.0.2.1:32853; no bytes if nothing."""
    source, length = stun.address_of("192.0.2.1", 32853), c_size_t()
    room = create_string_buffer(len(datagram) + 48)  # a reply is at most so much longer
    library.stun_types_binding_reply(datagram, len(datagram), source, room, len(room), length)
    return room.raw[: length.value]


def main():
    library = stun.load(sys.argv[1] if len(sys.argv) > 1 else "libstun_types.so.0.1")
    print(address_in(library, RESPONSE))
    key, password, both, validated = stun.Key(), b"wonderland", stun.Policy(), stun.Validated()
    library.stun_types_key_short_term(key, password, len(password))
    request = signed_request(library, b"alice", key)
    library.stun_types_validate_by_policy(request, len(request), both, key, validated)
    library.stun_types_keys_free(key, 1)
    print(request.hex())
    if len(sys.argv) > 2:
        print(reply_to(library, bytes.fromhex(sys.argv[2])).hex())


if __name__ == "__main__":
    main()
