/* STUN messages (RFC 8489) for C: read, validated, written and answered by a library that is proved.
 *
 * - A slice is a pointer and its length in bytes, or its count of elements: two parameters, or two
 *   fields of a struct that is passed in. A slice of length 0 may be NULL. Every other pointer is valid
 *   and not NULL, but for those of stun_types_key_free, stun_types_turn_free, stun_types_allocation_free and
 *   stun_types_ice_free.
 *   Messages are uint8_t; a text or a value that is passed in may be char or uint8_t (const void *).
 * - What a call writes, a slice or a struct, overlaps no other argument of it, nor a slice in a struct
 *   that is passed in. A call compares the addresses before all else: if it would write what overlaps
 *   another argument, it returns BAD_ARGUMENT, or false, or, if it counts, SIZE_MAX;
 *   stun_types_turn_ended, stun_types_turn_over and stun_types_turn_end_user return 0.
 * - No call keeps a pointer, prints, blocks or aborts. Only the calls whose comments say so
 *   allocate (by malloc), and at most twice the bytes of their arguments and 1,024 more at once;
 *   stun_types_turn_new, stun_types_allocation_new, stun_types_ice_new, stun_types_ice_poll and
 *   stun_types_ice_lite_new allocate more. All may run in several threads at once. One key may be used
 *   by any number of calls at once that take it as const stun_types_key *; a call that takes it as
 *   stun_types_key * makes or frees it, and has it alone.
 * - Numbers in messages are big-endian; numbers in these structs are the machine's.
 * - Most calls return a stun_types_answer. If its code isn't STUN_TYPES_OK, the call writes nothing
 *   else, unless its comment says otherwise. If several codes apply, the answer has the one that the
 *   comment lists first; OUT_OF_MEMORY may come before the last of them.
 * - No zero permits anything. A verdict is a struct of type stun_types_validated,
 *   stun_types_authentication, stun_types_action, stun_types_received, stun_types_turn_action,
 *   stun_types_turn_delivery, stun_types_turn_notice, stun_types_turn_sent, stun_types_allocation_data,
 *   stun_types_allocation_head, stun_types_allocation_change, stun_types_ice_received, stun_types_ice_request, stun_types_ice_path,
 *   stun_types_ice_standing, stun_types_ice_checked or stun_types_ice_change: a call that fails fills it with zeros, which say that nothing is
 *   decided or done; of stun_types_turn_client see there. stun_types_transaction_begin zeroes its
 *   transaction likewise, and the two calls that report a stun_types_covered zero it. A
 *   stun_types_policy of zeros lets both algorithms count, as RFC 8489 does. If an argument of an
 *   enumeration has no meaning for 0, 0 is BAD_ARGUMENT.
 * - A password or a key of no bytes is BAD_ARGUMENT: anybody can sign with it.
 * - Arguments are tested. Only a key, a TURN server, a TURN client and an ICE agent have to be what the library made (see
 *   Keys).
 * - The layout of the structs is part of the ABI. `reserved` is for fields of later versions: it is 0
 *   in what is passed in, or the call returns BAD_ARGUMENT, and 0 in what a call writes. So begin a
 *   struct that is passed in with zeros (memset, or { 0 }), and set its fields by name.
 */
#ifndef STUN_TYPES_H
#define STUN_TYPES_H

#include <stdbool.h>
#include <stddef.h>
#include <stdint.h>

/* The version: 1,000,000 times its first number, 1,000 times its second, and its third. */
#define STUN_TYPES_VERSION 1000
#define STUN_TYPES_VERSION_TEXT "0.1.0"

/* A compiler warns if what such a call answers isn't looked at (C++17, C23, gcc, clang). */
#if (defined(__cplusplus) && __cplusplus >= 201703L)                                              \
    || (defined(__STDC_VERSION__) && __STDC_VERSION__ >= 202311L)
#define STUN_TYPES_NODISCARD [[nodiscard]]
#elif defined(__GNUC__)
#define STUN_TYPES_NODISCARD __attribute__((warn_unused_result))
#else
#define STUN_TYPES_NODISCARD
#endif

/* The parameters that are never NULL, by their places: STUN_TYPES_NONNULL((3, 4)). */
#if defined(__GNUC__)
#define STUN_TYPES_NONNULL(places) __attribute__((nonnull places))
#else
#define STUN_TYPES_NONNULL(places)
#endif

/* An enumeration of 32 bits. */
#if defined(__cplusplus) || (defined(__STDC_VERSION__) && __STDC_VERSION__ >= 202311L)
#define STUN_TYPES_ENUM(name) enum name : uint32_t
#else
#define STUN_TYPES_ENUM(name) enum name
#endif

#ifdef __cplusplus
extern "C" {
#endif

/* ---- Answers ---------------------------------------------------------------------------------- */

/* What a code says, and which fields of the answer it uses; the others are 0. */
typedef STUN_TYPES_ENUM(stun_types_status) {
    STUN_TYPES_OK = 0,
    STUN_TYPES_NOT_STUN = 1,             /* no STUN message begins so */
    STUN_TYPES_TRUNCATED = 2,            /* expected, actual: too few bytes */
    STUN_TYPES_TOO_LARGE = 3,            /* expected, actual: too many bytes */
    STUN_TYPES_FINGERPRINT_MISMATCH = 4, /* the FINGERPRINT is wrong */
    STUN_TYPES_MISSING_ATTRIBUTE = 5,    /* type: there is no such attribute */
    STUN_TYPES_INVALID_DATA = 6,         /* a value isn't what its type asks for */
    STUN_TYPES_INTEGRITY_FAILED = 7,     /* the HMAC is wrong */
    STUN_TYPES_OUT_OF_MEMORY = 8,        /* an allocation failed */
    STUN_TYPES_TOO_SMALL = 9,            /* expected, actual: the room of the caller's slice */
    STUN_TYPES_EXISTS = 10,              /* type: what is written blocks the addition; see Writing */
    STUN_TYPES_ENDING_TYPE = 11,         /* type: one that has an add of its own */
    STUN_TYPES_OUT_OF_RANGE = 12,        /* expected, actual: the greatest allowed, the number */
    STUN_TYPES_BAD_ARGUMENT = 13,        /* an argument is not what the call takes */
    STUN_TYPES_NO_KEY = 14,              /* the key holds none */
    STUN_TYPES_NOT_PADDED = 15,          /* actual: a length field that is no multiple of 4 */
    STUN_TYPES_NOT_A_REQUEST = 16,       /* the message is no request */
    STUN_TYPES_NOT_SIGNED = 17,          /* the request needs an integrity attribute, for the key */
    STUN_TYPES_SIGNED = 18,              /* the request has an integrity attribute, and needs none */
    STUN_TYPES_NOT_A_CHALLENGE = 19,     /* the response is no 401 and no 438 */
    STUN_TYPES_BID_DOWN = 20,            /* somebody may have taken out PASSWORD-ALGORITHMS */
    STUN_TYPES_INCOMPLETE = 21,          /* REALM or NONCE is missing */
    STUN_TYPES_NO_ALGORITHM = 22,        /* no password algorithm is supported by both */
    STUN_TYPES_SAME_CREDENTIALS = 23,    /* the credentials were refused already */
    STUN_TYPES_HMAC_TOO_SHORT = 24,      /* expected, actual: bytes of an HMAC that is right, and cut */
    STUN_TYPES_FULL = 25,                /* there is no room for another one */
    STUN_TYPES_OTHER_FAMILY = 26         /* the address is of another family than the relayed address */
} stun_types_status;

typedef struct {
    stun_types_status code; /* one of the above */
    uint32_t type;          /* of an attribute */
    uint64_t expected;      /* in bytes */
    uint64_t actual;        /* in bytes */
} stun_types_answer;

/* The STUN_TYPES_VERSION of the library that the program runs with. */
STUN_TYPES_NODISCARD
uint32_t stun_types_version(void);

/* A short English text for a code. For languages that read no headers, stun_types_text writes it at the
   start of text, which has size bytes, and a 0 after it. A text that is longer is cut, and ends with a
   0 too; with a size of 0 nothing is written. Returns how many bytes the whole text has with its 0. */
STUN_TYPES_NODISCARD
size_t stun_types_text(stun_types_status code, char *text, size_t size);
static inline const char *stun_types_status_text(uint32_t code) {
    switch (code) {
    case STUN_TYPES_OK: return "no error";
    case STUN_TYPES_NOT_STUN: return "not a STUN message";
    case STUN_TYPES_TRUNCATED: return "bytes are missing";
    case STUN_TYPES_TOO_LARGE: return "too many bytes";
    case STUN_TYPES_FINGERPRINT_MISMATCH: return "the FINGERPRINT is wrong";
    case STUN_TYPES_MISSING_ATTRIBUTE: return "an attribute is missing";
    case STUN_TYPES_INVALID_DATA: return "the value of an attribute is invalid";
    case STUN_TYPES_INTEGRITY_FAILED: return "the HMAC is wrong";
    case STUN_TYPES_OUT_OF_MEMORY: return "out of memory";
    case STUN_TYPES_TOO_SMALL: return "the slice is too small";
    case STUN_TYPES_EXISTS: return "an attribute that is written blocks the addition";
    case STUN_TYPES_ENDING_TYPE: return "attributes of this type have an add of their own";
    case STUN_TYPES_OUT_OF_RANGE: return "a number is out of range";
    case STUN_TYPES_BAD_ARGUMENT: return "an argument is invalid";
    case STUN_TYPES_NO_KEY: return "there is no key";
    case STUN_TYPES_NOT_PADDED: return "the length field is no multiple of 4";
    case STUN_TYPES_NOT_A_REQUEST: return "the message is no request";
    case STUN_TYPES_NOT_SIGNED: return "the request isn't signed";
    case STUN_TYPES_SIGNED: return "the request is signed";
    case STUN_TYPES_NOT_A_CHALLENGE: return "the response asks for no credentials";
    case STUN_TYPES_BID_DOWN: return "the response may have been tampered with";
    case STUN_TYPES_INCOMPLETE: return "REALM or NONCE is missing";
    case STUN_TYPES_NO_ALGORITHM: return "no password algorithm is supported";
    case STUN_TYPES_SAME_CREDENTIALS: return "the credentials were refused already";
    case STUN_TYPES_HMAC_TOO_SHORT: return "the HMAC is cut to too few bytes";
    case STUN_TYPES_FULL: return "there is no room";
    case STUN_TYPES_OTHER_FAMILY: return "the address is of another family";
    default: return "unknown code";
    }
}

/* ---- Numbers ---------------------------------------------------------------------------------- */

/* The class of a message (RFC 8489, section 5). */
typedef STUN_TYPES_ENUM(stun_types_class) {
    STUN_TYPES_CLASS_REQUEST = 0,
    STUN_TYPES_CLASS_INDICATION = 1,
    STUN_TYPES_CLASS_SUCCESS = 2,
    STUN_TYPES_CLASS_ERROR = 3
} stun_types_class;

/* Methods: of RFC 8489, section 18.2; of TURN (RFC 8656, section 17, and RFC 6062, section 6.1). */
typedef STUN_TYPES_ENUM(stun_types_method) {
    STUN_TYPES_METHOD_BINDING = 0x001,
    STUN_TYPES_METHOD_ALLOCATE = 0x003,
    STUN_TYPES_METHOD_REFRESH = 0x004,
    STUN_TYPES_METHOD_SEND = 0x006,
    STUN_TYPES_METHOD_DATA = 0x007,
    STUN_TYPES_METHOD_CREATE_PERMISSION = 0x008,
    STUN_TYPES_METHOD_CHANNEL_BIND = 0x009,
    STUN_TYPES_METHOD_CONNECT = 0x00A,
    STUN_TYPES_METHOD_CONNECTION_BIND = 0x00B,
    STUN_TYPES_METHOD_CONNECTION_ATTEMPT = 0x00C
} stun_types_method;

/* Attribute types. */
enum {
    /* STUN (RFC 8489, section 18.3) */
    STUN_TYPES_ATTRIBUTE_MAPPED_ADDRESS = 0x0001,
    STUN_TYPES_ATTRIBUTE_USERNAME = 0x0006,
    STUN_TYPES_ATTRIBUTE_MESSAGE_INTEGRITY = 0x0008,
    STUN_TYPES_ATTRIBUTE_ERROR_CODE = 0x0009,
    STUN_TYPES_ATTRIBUTE_UNKNOWN_ATTRIBUTES = 0x000A,
    STUN_TYPES_ATTRIBUTE_REALM = 0x0014,
    STUN_TYPES_ATTRIBUTE_NONCE = 0x0015,
    STUN_TYPES_ATTRIBUTE_MESSAGE_INTEGRITY_SHA256 = 0x001C,
    STUN_TYPES_ATTRIBUTE_PASSWORD_ALGORITHM = 0x001D,
    STUN_TYPES_ATTRIBUTE_USERHASH = 0x001E,
    STUN_TYPES_ATTRIBUTE_XOR_MAPPED_ADDRESS = 0x0020,
    STUN_TYPES_ATTRIBUTE_PASSWORD_ALGORITHMS = 0x8002,
    STUN_TYPES_ATTRIBUTE_ALTERNATE_DOMAIN = 0x8003,
    STUN_TYPES_ATTRIBUTE_SOFTWARE = 0x8022,
    STUN_TYPES_ATTRIBUTE_ALTERNATE_SERVER = 0x8023,
    STUN_TYPES_ATTRIBUTE_FINGERPRINT = 0x8028,
    /* ICE (RFC 8445, section 16.1) */
    STUN_TYPES_ATTRIBUTE_PRIORITY = 0x0024,
    STUN_TYPES_ATTRIBUTE_USE_CANDIDATE = 0x0025,
    STUN_TYPES_ATTRIBUTE_ICE_CONTROLLED = 0x8029,
    STUN_TYPES_ATTRIBUTE_ICE_CONTROLLING = 0x802A,
    /* TURN (RFC 8656, section 18; RFC 6062, 7635 and 8016) */
    STUN_TYPES_ATTRIBUTE_CHANNEL_NUMBER = 0x000C,
    STUN_TYPES_ATTRIBUTE_LIFETIME = 0x000D,
    STUN_TYPES_ATTRIBUTE_XOR_PEER_ADDRESS = 0x0012,
    STUN_TYPES_ATTRIBUTE_DATA = 0x0013,
    STUN_TYPES_ATTRIBUTE_XOR_RELAYED_ADDRESS = 0x0016,
    STUN_TYPES_ATTRIBUTE_REQUESTED_ADDRESS_FAMILY = 0x0017,
    STUN_TYPES_ATTRIBUTE_EVEN_PORT = 0x0018,
    STUN_TYPES_ATTRIBUTE_REQUESTED_TRANSPORT = 0x0019,
    STUN_TYPES_ATTRIBUTE_DONT_FRAGMENT = 0x001A,
    STUN_TYPES_ATTRIBUTE_ACCESS_TOKEN = 0x001B,
    STUN_TYPES_ATTRIBUTE_RESERVATION_TOKEN = 0x0022,
    STUN_TYPES_ATTRIBUTE_CONNECTION_ID = 0x002A,
    STUN_TYPES_ATTRIBUTE_ADDITIONAL_ADDRESS_FAMILY = 0x8000,
    STUN_TYPES_ATTRIBUTE_ADDRESS_ERROR_CODE = 0x8001,
    STUN_TYPES_ATTRIBUTE_ICMP = 0x8004,
    STUN_TYPES_ATTRIBUTE_THIRD_PARTY_AUTHORIZATION = 0x802E,
    STUN_TYPES_ATTRIBUTE_MOBILITY_TICKET = 0x8030,
    /* Discovery (RFC 5780, section 9, and RFC 7982) */
    STUN_TYPES_ATTRIBUTE_CHANGE_REQUEST = 0x0003,
    STUN_TYPES_ATTRIBUTE_PADDING = 0x0026,
    STUN_TYPES_ATTRIBUTE_RESPONSE_PORT = 0x0027,
    STUN_TYPES_ATTRIBUTE_TRANSACTION_TRANSMIT_COUNTER = 0x8025,
    STUN_TYPES_ATTRIBUTE_RESPONSE_ORIGIN = 0x802B,
    STUN_TYPES_ATTRIBUTE_OTHER_ADDRESS = 0x802C
};

/* Codes of error responses (RFC 8489, section 14.8; RFC 8656, section 19; RFC 6062; RFC 8445). */
typedef STUN_TYPES_ENUM(stun_types_code) {
    STUN_TYPES_CODE_TRY_ALTERNATE = 300,
    STUN_TYPES_CODE_BAD_REQUEST = 400,
    STUN_TYPES_CODE_UNAUTHORIZED = 401,
    STUN_TYPES_CODE_FORBIDDEN = 403,
    STUN_TYPES_CODE_MOBILITY_FORBIDDEN = 405,
    STUN_TYPES_CODE_UNKNOWN_ATTRIBUTE = 420,
    STUN_TYPES_CODE_ALLOCATION_MISMATCH = 437,
    STUN_TYPES_CODE_STALE_NONCE = 438,
    STUN_TYPES_CODE_ADDRESS_FAMILY_NOT_SUPPORTED = 440,
    STUN_TYPES_CODE_WRONG_CREDENTIALS = 441,
    STUN_TYPES_CODE_UNSUPPORTED_TRANSPORT_PROTOCOL = 442,
    STUN_TYPES_CODE_PEER_ADDRESS_FAMILY_MISMATCH = 443,
    STUN_TYPES_CODE_CONNECTION_ALREADY_EXISTS = 446,
    STUN_TYPES_CODE_CONNECTION_TIMEOUT_OR_FAILURE = 447,
    STUN_TYPES_CODE_ALLOCATION_QUOTA_REACHED = 486,
    STUN_TYPES_CODE_ROLE_CONFLICT = 487,
    STUN_TYPES_CODE_SERVER_ERROR = 500,
    STUN_TYPES_CODE_INSUFFICIENT_CAPACITY = 508
} stun_types_code;

/* Password algorithms (RFC 8489, section 18.5). */
typedef STUN_TYPES_ENUM(stun_types_password) {
    STUN_TYPES_PASSWORD_MD5 = 1,
    STUN_TYPES_PASSWORD_SHA256 = 2
} stun_types_password;

/* Integrity algorithms, by the types of their attributes. No password algorithm has one of these
   numbers: a call that takes one refuses the other. */
typedef STUN_TYPES_ENUM(stun_types_integrity) {
    STUN_TYPES_INTEGRITY_ANY = 0,        /* of a key: it serves both */
    STUN_TYPES_INTEGRITY_SHA1 = 0x0008,  /* MESSAGE-INTEGRITY */
    STUN_TYPES_INTEGRITY_SHA256 = 0x001C /* MESSAGE-INTEGRITY-SHA256 */
} stun_types_integrity;

/* The type, the first two bytes, of a message of a class and a method (RFC 8489, section 5). Of the
   method the low 12 bits count, of the class the low two. */
STUN_TYPES_NODISCARD
uint16_t stun_types_message_type(stun_types_class message_class, stun_types_method method);

/* Which protocol a packet is of by its first byte, if several share a socket (RFC 7983, section 7). */
typedef STUN_TYPES_ENUM(stun_types_protocol) {
    STUN_TYPES_PROTOCOL_UNKNOWN = 0,
    STUN_TYPES_PROTOCOL_STUN = 1,         /* 0 to 3 */
    STUN_TYPES_PROTOCOL_ZRTP = 2,         /* 16 to 19 */
    STUN_TYPES_PROTOCOL_DTLS = 3,         /* 20 to 63 */
    STUN_TYPES_PROTOCOL_CHANNEL_DATA = 4, /* 64 to 79 */
    STUN_TYPES_PROTOCOL_RTP = 5,          /* RTP or RTCP: 128 to 191 */
    STUN_TYPES_PROTOCOL_QUIC = 6          /* 80 to 127 and 192 to 255 (RFC 9443, section 3) */
} stun_types_protocol;
STUN_TYPES_NODISCARD
stun_types_protocol stun_types_protocol_of(uint8_t first);

/* ---- Reading ---------------------------------------------------------------------------------- */

/* A transaction ID: 12 bytes, as in the message. */
typedef struct {
    uint8_t bytes[12];
} stun_types_id;

typedef struct {
    uint16_t type;          /* the first two bytes */
    uint16_t method;        /* of 12 bits */
    uint16_t message_class; /* STUN_TYPES_CLASS_REQUEST .. STUN_TYPES_CLASS_ERROR */
    uint16_t length;        /* the length field: how many bytes follow the header */
    stun_types_id id;
} stun_types_header;

/* An attribute that a message has: one that stun_types_next yields. */
typedef struct {
    size_t value_at; /* offset of its value in the message; its header is the four bytes before */
    uint16_t type;
    uint16_t length; /* of the value, without padding */
} stun_types_attribute;

/* How many bytes the message has that begins here, in a stream's buffer or in a longer one: 20 and its
   length field. *message_length is 0 if more bytes are needed to know it. NOT_STUN: no message begins
   so. */
STUN_TYPES_NODISCARD STUN_TYPES_NONNULL((3))
stun_types_answer stun_types_framed_length(const uint8_t *bytes, size_t length,
                                           size_t *message_length);

/* Whether the bytes are a message, no fewer and no more: its header, its attributes, and its
   FINGERPRINT if there is one (RFC 8489, sections 5, 6.3 and 14.7). It reads the attributes
   once, and over the bytes before a FINGERPRINT once more.
   NOT_STUN, TRUNCATED, TOO_LARGE, FINGERPRINT_MISMATCH. */
STUN_TYPES_NODISCARD
stun_types_answer stun_types_parse(const uint8_t *bytes, size_t length);

/* Reads the header, the first 20 bytes. NOT_STUN, TRUNCATED. */
STUN_TYPES_NODISCARD STUN_TYPES_NONNULL((3))
stun_types_answer stun_types_read_header(const uint8_t *bytes, size_t length,
                                         stun_types_header *header);

/* How far a walk over the attributes of a message has come: it begins as STUN_TYPES_CURSOR. */
typedef struct {
    size_t index;      /* how many attributes it has yielded */
    size_t offset;     /* of the header that follows the last of them */
    size_t length;     /* of the message that the last one was in */
    uint64_t id_begin; /* the first eight bytes of its transaction ID, big-endian */
    uint32_t id_end;   /* the last four of them */
    uint16_t last;     /* the type of the last attribute */
    uint16_t reserved;
} stun_types_cursor;

#define STUN_TYPES_CURSOR { 0, 0, 0, 0, 0, 0, 0 }

/* STUN_TYPES_CURSOR, for languages that read no macros. */
STUN_TYPES_NODISCARD
stun_types_cursor stun_types_cursor_first(void);

/* The next attribute of the message: those of other types, and then at most one of
   MESSAGE-INTEGRITY, MESSAGE-INTEGRITY-SHA256 and FINGERPRINT each, in this order (RFC 8489,
   sections 14.5 to 14.7). What follows is ignored, and the message doesn't have it. False if there
   are no more, and from then on: cursor and attribute stay as they were. The bytes need not parse:
   nothing is yielded if they have no header or another length than it states. A call reads one
   attribute, and a whole walk each attribute once.
   The cursor may be any, and what is yielded is within the bytes. With a message of another length
   or transaction ID than that of the last attribute, it reads as many attributes as it has yielded
   again, and yields the next one. With other bytes of the same length and ID, it yields what begins
   at its offset, which may be within a value. It yields none if `reserved` isn't 0. */
STUN_TYPES_NODISCARD STUN_TYPES_NONNULL((3, 4))
bool stun_types_next(const uint8_t *bytes, size_t length, stun_types_cursor *cursor,
                     stun_types_attribute *attribute);

/* All attributes that the message has, in the order of stun_types_next, in one pass. Returns how many
   there are, even if that is more than room; the first room of them are written. SIZE_MAX: arguments
   overlap. */
STUN_TYPES_NODISCARD
size_t stun_types_attributes(const uint8_t *bytes, size_t length, stun_types_attribute *attributes,
                             size_t room);

/* The first attribute of a type that the message has; false if there is none, and *attribute
   stays as it was. */
STUN_TYPES_NODISCARD STUN_TYPES_NONNULL((4))
bool stun_types_find(const uint8_t *bytes, size_t length, uint16_t type,
                     stun_types_attribute *attribute);

/* A transport address. */
typedef struct {
    uint8_t octets[16]; /* the first 4 for IPv4, all for IPv6, in network order */
    uint16_t port;      /* the machine's number */
    uint16_t family;    /* 4 or 6 */
} stun_types_address;

/* The calls below read the value of an attribute that was found in the same bytes.
   BAD_ARGUMENT: the bytes have no value there: it would end after them, or begin before the offset 24,
   as that of a stun_types_attribute of zeros. */

/* The address in an XOR-MAPPED-ADDRESS, XOR-PEER-ADDRESS or XOR-RELAYED-ADDRESS (RFC 8489, section
   14.2), or in an attribute of a type that the library doesn't know. BAD_ARGUMENT: the type is one of
   the next call. NOT_STUN: the bytes begin with no header, whose transaction ID is needed. TRUNCATED,
   TOO_LARGE, INVALID_DATA: the value is no address. */
STUN_TYPES_NODISCARD STUN_TYPES_NONNULL((3, 4))
stun_types_answer stun_types_read_xor_address(const uint8_t *bytes, size_t length,
                                              const stun_types_attribute *attribute,
                                              stun_types_address *address);

/* The address in a MAPPED-ADDRESS, ALTERNATE-SERVER, RESPONSE-ORIGIN or OTHER-ADDRESS (RFC 8489,
   section 14.1), or in an attribute of a type that the library doesn't know. BAD_ARGUMENT: the type
   is one of the call before. TRUNCATED, TOO_LARGE, INVALID_DATA: the value is no address. */
STUN_TYPES_NODISCARD STUN_TYPES_NONNULL((3, 4))
stun_types_answer stun_types_read_address(const uint8_t *bytes, size_t length,
                                          const stun_types_attribute *attribute,
                                          stun_types_address *address);

/* The code, 300 to 699, in an ERROR-CODE (RFC 8489, section 14.8), and the offset of its reason in
   the message: UTF-8, at most 763 bytes. An ADDRESS-ERROR-CODE (RFC 8656, section 18.12) is read so
   too: the first byte of its value is the family, 1 for IPv4 and 2 for IPv6, which the call ignores.
   TRUNCATED, TOO_LARGE, INVALID_DATA. */
STUN_TYPES_NODISCARD STUN_TYPES_NONNULL((3, 4, 5, 6))
stun_types_answer stun_types_read_error(const uint8_t *bytes, size_t length,
                                        const stun_types_attribute *attribute, uint16_t *code,
                                        size_t *reason_at, size_t *reason_length);

/* The types in an UNKNOWN-ATTRIBUTES (RFC 8489, section 14.13). *count is how many there are, even if
   that is more than room; the first room of them are written. INVALID_DATA: an odd length. */
STUN_TYPES_NODISCARD STUN_TYPES_NONNULL((3, 6))
stun_types_answer stun_types_read_types(const uint8_t *bytes, size_t length,
                                        const stun_types_attribute *attribute, uint16_t *types,
                                        size_t room, size_t *count);

/* The types of attributes that the message has, that must be understood (below 0x8000) and are
   none of those supported, in order and as often as they occur (RFC 8489, section 6.3.1).
   Returns how many there are, even if that is more than room; the first room are written. SIZE_MAX:
   arguments overlap. */
STUN_TYPES_NODISCARD
size_t stun_types_unknown_types(const uint8_t *bytes, size_t length, const uint16_t *supported,
                                size_t supported_count, uint16_t *types, size_t room);

/* The types of RFC 8489 that must be understood (section 18.3): every client and server understands
   them. Pass them to stun_types_unknown_types with your own; stun_types_transaction_receive has them by
   itself. Returns how many there are, 11, even if that is more than room; the first room are written. */
STUN_TYPES_NODISCARD
size_t stun_types_known_types(uint16_t *types, size_t room);

/* Reads a number of 8, 16, 32 or 64 bits, big-endian. The table at stun_types_add_u8 lists the call
   for each type that the library knows; any other type, and MESSAGE-INTEGRITY,
   MESSAGE-INTEGRITY-SHA256 and FINGERPRINT, is read by the call that has the width of the value. The
   zeros that follow a number may be any octets, and those of a RESPONSE-PORT may be missing.
   BAD_ARGUMENT: the value of this type is no number, or a number of another width. TRUNCATED,
   TOO_LARGE: the value has another length than expected. INVALID_DATA: a CHANNEL-NUMBER outside 0x4000
   to 0x4FFF, or an address family that isn't in the table. */
STUN_TYPES_NODISCARD STUN_TYPES_NONNULL((3, 4))
stun_types_answer stun_types_read_u8(const uint8_t *bytes, size_t length,
                                     const stun_types_attribute *attribute, uint8_t *number);
STUN_TYPES_NODISCARD STUN_TYPES_NONNULL((3, 4))
stun_types_answer stun_types_read_u16(const uint8_t *bytes, size_t length,
                                      const stun_types_attribute *attribute, uint16_t *number);
STUN_TYPES_NODISCARD STUN_TYPES_NONNULL((3, 4))
stun_types_answer stun_types_read_u32(const uint8_t *bytes, size_t length,
                                      const stun_types_attribute *attribute, uint32_t *number);
STUN_TYPES_NODISCARD STUN_TYPES_NONNULL((3, 4))
stun_types_answer stun_types_read_u64(const uint8_t *bytes, size_t length,
                                      const stun_types_attribute *attribute, uint64_t *number);

/* The message as a text, by its names and values, without a final 0: one line of printable ASCII, for
   logs and terminals. In the texts of the message, each byte that is no printable character of ASCII,
   and each backslash, is escaped: \xHH. Attributes and methods of ICE, TURN and NAT discovery have
   their names too, also the types in an UNKNOWN-ATTRIBUTES; PRIORITY and LIFETIME are numbers,
   addresses are addresses, and the values of all others are hexadecimal. NOT_STUN, TRUNCATED,
   TOO_LARGE, FINGERPRINT_MISMATCH: it is no message. TOO_SMALL: expected is how many bytes the text has, and
   the first room of them are written. *written is how many bytes are written. */
STUN_TYPES_NODISCARD STUN_TYPES_NONNULL((5))
stun_types_answer stun_types_print(const uint8_t *bytes, size_t length, char *text, size_t room,
                                   size_t *written);

/* ---- Keys ------------------------------------------------------------------------------------- */

/* A key of an HMAC, on the heap. It begins as STUN_TYPES_KEY_INIT, is made by one of the calls
   below, which free what it held before, and ended by stun_types_key_free. It keeps what its HMACs
   begin with, by each algorithm that it serves: so make a key once, and use it for many messages. C
   neither reads nor writes nor copies its fields. A struct holds a key only if its second word is a
   mark that the library sets: one of zeros, or of another byte that is repeated, holds none.
   Nothing is promised of bytes that were a key's before, so begin each key.
   The calls that take it as const stun_types_key * only read it: they may run at once, in as many
   threads as there are. A call that makes or frees it has it alone: C orders such a call before and
   after all others with this key, on other threads by a lock, a join or the start of a thread. */
typedef struct {
    void *at;
    uint64_t held;
} stun_types_key;

#define STUN_TYPES_KEY_INIT { NULL, 0 }

/* STUN_TYPES_KEY_INIT, for languages that read no macros. */
STUN_TYPES_NODISCARD
stun_types_key stun_types_key_none(void);

/* The key of a short-term credential, the password (RFC 8489, section 9.1.1). It serves both
   algorithms. BAD_ARGUMENT: no byte of password. Allocates: OUT_OF_MEMORY. If the call fails, the key
   stays as it was. */
STUN_TYPES_NODISCARD STUN_TYPES_NONNULL((1))
stun_types_answer stun_types_key_short_term(stun_types_key *key, const void *password,
                                            size_t password_length);

/* The key of a long-term credential (RFC 8489, sections 9.2.2 and 18.5.1): the MD5 or the SHA-256 of
   user:realm:password, by the password algorithm. It serves both integrity attributes (section
   9.2.5). The texts are taken as they are, with no SASLprep and no OpaqueString. BAD_ARGUMENT:
   another password algorithm, or no byte of password. INVALID_DATA: a text isn't UTF-8. Allocates:
   OUT_OF_MEMORY. If the call fails, the key stays. */
STUN_TYPES_NODISCARD STUN_TYPES_NONNULL((1))
stun_types_answer stun_types_key_long_term(stun_types_key *key, const void *user,
                                           size_t user_length, const void *realm,
                                           size_t realm_length, const void *password,
                                           size_t password_length, stun_types_password algorithm);

/* The key with these bytes, made for one integrity attribute or, by STUN_TYPES_INTEGRITY_ANY, for
   both: as a server stores them. BAD_ARGUMENT: no such algorithm, or no byte. Allocates:
   OUT_OF_MEMORY. If the call fails, the key stays. */
STUN_TYPES_NODISCARD STUN_TYPES_NONNULL((1))
stun_types_answer stun_types_key_from_bytes(stun_types_key *key, const void *bytes, size_t length,
                                            stun_types_integrity algorithm);

/* Another key with the same bytes, made for the same. NO_KEY: `from` holds none. Allocates:
   OUT_OF_MEMORY. If the call fails, the key stays. */
STUN_TYPES_NODISCARD STUN_TYPES_NONNULL((1, 2))
stun_types_answer stun_types_key_copy(stun_types_key *key, const stun_types_key *from);

/* The bytes of a key, and what it was made for, as stun_types_key_from_bytes takes them. They are a
   secret: overwrite them after use. NO_KEY. TOO_SMALL: expected is how many bytes the key has. */
STUN_TYPES_NODISCARD STUN_TYPES_NONNULL((1, 4, 5))
stun_types_answer stun_types_key_bytes(const stun_types_key *key, uint8_t *room, size_t size,
                                       size_t *written, stun_types_integrity *algorithm);

/* A user's hash: what a USERHASH holds. */
typedef struct {
    uint8_t bytes[32];
} stun_types_hash;

/* The SHA-256 of user:realm, by which a request names its user if the server asks for that (RFC
   8489, section 14.4). INVALID_DATA: a text isn't UTF-8. */
STUN_TYPES_NODISCARD STUN_TYPES_NONNULL((5))
stun_types_answer stun_types_userhash(const void *user, size_t user_length, const void *realm,
                                      size_t realm_length, stun_types_hash *hash);

/* Overwrites the bytes of these keys, one after the other in memory, frees them, and leaves
   STUN_TYPES_KEY_INIT for each. */
void stun_types_keys_free(stun_types_key *keys, size_t count);

/* The same with one key. With STUN_TYPES_KEY_INIT, and with NULL, it does nothing. */
static inline void stun_types_key_free(stun_types_key *key) {
    stun_types_keys_free(key, key ? 1 : 0);
}

/* Which messages a usage takes. All zeros take the MESSAGE-INTEGRITY of a message that has no
   MESSAGE-INTEGRITY-SHA256: so a message from which somebody has removed the latter counts, if its
   MESSAGE-INTEGRITY is right. They take no HMAC that is cut, and a message without a FINGERPRINT, as
   RFC 8489 has it if no usage says otherwise. */
typedef struct {
    stun_types_integrity algorithm; /* whose attribute counts, or STUN_TYPES_INTEGRITY_ANY: of both */
    uint32_t min_hmac_length;       /* bytes that a MESSAGE-INTEGRITY-SHA256 has at least (section
                                       14.6): a usage may say 16, 20, 24 or 28; 0 is 32 */
    uint32_t fingerprint;           /* not 0: the usage uses FINGERPRINT, as ICE does, and a message
                                       without one isn't taken (sections 6.3 and 7) */
    uint32_t reserved;
} stun_types_policy;

/* MESSAGE-INTEGRITY-SHA256 alone counts, for peers that all know RFC 8489. */
#define STUN_TYPES_POLICY_SHA256 { STUN_TYPES_INTEGRITY_SHA256, 0, 0, 0 }
/* Both count, MESSAGE-INTEGRITY-SHA256 if it is there: for peers of RFC 5389 too. It is all zeros. */
#define STUN_TYPES_POLICY_BOTH { STUN_TYPES_INTEGRITY_ANY, 0, 0, 0 }

/* What was checked of a message that is valid; all zeros if it isn't. */
typedef struct {
    stun_types_integrity algorithm; /* whose attribute was checked */
    uint32_t hmac_length;           /* in bytes: 20 of a MESSAGE-INTEGRITY; 32 of a
                                       MESSAGE-INTEGRITY-SHA256, or 16, 20, 24 or 28 if it is cut */
    uint64_t reserved;
} stun_types_validated;

/* Whether a message is authentic under a key, by a policy (RFC 8489, sections 9.1.3, 9.2.4, 14.5 and
   14.6). It parses the bytes, as stun_types_parse does. Of the integrity attributes that count, and
   that the key serves, it checks MESSAGE-INTEGRITY-SHA256 if it is there, otherwise MESSAGE-INTEGRITY.
   With an algorithm in the policy and a key for both, it allocates. What follows the attribute that
   was checked, and the length field, are not authentic.
   The errors of stun_types_parse. BAD_ARGUMENT: the policy. NO_KEY. MISSING_ATTRIBUTE, of type
   FINGERPRINT: the usage uses it. BAD_ARGUMENT: the key was made for one algorithm, and the other
   counts. MISSING_ATTRIBUTE, of type MESSAGE-INTEGRITY: none that counts is there. TRUNCATED,
   TOO_LARGE, INVALID_DATA: it has a length that its type doesn't allow. INTEGRITY_FAILED.
   HMAC_TOO_SHORT: expected is what the policy asks for. Allocates: OUT_OF_MEMORY. */
STUN_TYPES_NODISCARD STUN_TYPES_NONNULL((3, 4, 5))
stun_types_answer stun_types_validate_by_policy(const uint8_t *bytes, size_t length,
                                                const stun_types_policy *policy,
                                                const stun_types_key *key,
                                                stun_types_validated *validated);

/* The same by no policy: both attributes count, and an HMAC-SHA256 may be cut to 16 bytes, which RFC
   8489 allows a usage alone. Look at validated->hmac_length, and at validated->algorithm: without its
   MESSAGE-INTEGRITY-SHA256, a message that has both attributes validates by SHA-1. It allocates
   nothing.
   The errors of stun_types_parse; NO_KEY; MISSING_ATTRIBUTE; TRUNCATED, TOO_LARGE, INVALID_DATA: the
   attribute has a length that its type doesn't allow; INTEGRITY_FAILED. */
STUN_TYPES_NODISCARD STUN_TYPES_NONNULL((3, 4))
stun_types_answer stun_types_validate(const uint8_t *bytes, size_t length,
                                      const stun_types_key *key, stun_types_validated *validated);

/* The same by a short-term or a long-term credential, of which the key is made and freed. A long-term
   one has two: the key by SHA-256 checks a MESSAGE-INTEGRITY-SHA256, and the key by MD5 a
   MESSAGE-INTEGRITY. A client signs both with the key by MD5 if the server's list prefers MD5: its
   MESSAGE-INTEGRITY-SHA256 is INTEGRITY_FAILED here, so validate it with that key, by a call above.
   After the errors of stun_types_parse come BAD_ARGUMENT: no byte of password; and INVALID_DATA: a text
   of the long-term one isn't UTF-8. Allocates: OUT_OF_MEMORY. */
STUN_TYPES_NODISCARD STUN_TYPES_NONNULL((5))
stun_types_answer stun_types_validate_short_term(const uint8_t *bytes, size_t length,
                                                 const void *password, size_t password_length,
                                                 stun_types_validated *validated);
STUN_TYPES_NODISCARD STUN_TYPES_NONNULL((9))
stun_types_answer stun_types_validate_long_term(const uint8_t *bytes, size_t length,
                                                const void *user, size_t user_length,
                                                const void *realm, size_t realm_length,
                                                const void *password, size_t password_length,
                                                stun_types_validated *validated);

/* The bytes that an integrity attribute covers, for a program that computes HMACs with its own code: by
   the processor's instructions, in a validated module (FIPS 140), or in hardware that keeps the key.
   They are the four of first (the type and a length field, big-endian), and then length - 4 bytes of the
   message from its offset 4. Only the length field may differ from the message's: it counts through the
   end of the attribute. */
typedef struct {
    stun_types_integrity algorithm; /* of the HMAC */
    uint8_t first[4];
    uint64_t length; /* of all of them: at least 20, or 0 if the call failed */
} stun_types_covered;

/* An HMAC that the program computed: 20 bytes by SHA-1 (the other 12 aren't read), or 32 by SHA-256, even
   if the attribute's value is truncated. */
typedef struct {
    stun_types_integrity algorithm;
    uint8_t bytes[32];
} stun_types_hmac;

/* stun_types_validate in two halves, between which the program computes the HMAC. The first reports the
   bytes that it is computed over, and by which algorithm: those that the last integrity attribute of the
   message covers or, if an algorithm is given, the attribute of that algorithm. The second compares the
   HMAC with that attribute, and returns what stun_types_validate does with the key, made for the
   algorithm: look at validated->hmac_length, and at validated->algorithm. Pass it the same bytes and
   algorithm: the HMAC isn't computed again, so a message that somebody changes in between may validate
   although nobody signed it; copy one from shared memory first. Nothing is kept or allocated.
   The errors of stun_types_parse. BAD_ARGUMENT: the algorithm is neither of the two, nor
   STUN_TYPES_INTEGRITY_ANY; or the HMAC's is neither of the two. MISSING_ATTRIBUTE, always of type
   MESSAGE-INTEGRITY: the message has no integrity attribute of that algorithm, or of either. TRUNCATED,
   TOO_LARGE, INVALID_DATA: it has a length that its type doesn't allow. Only the second half returns
   INTEGRITY_FAILED: the HMAC isn't the attribute's, or is by the other algorithm. */
STUN_TYPES_NODISCARD STUN_TYPES_NONNULL((4))
stun_types_answer stun_types_covered_text(const uint8_t *bytes, size_t length,
                                          stun_types_integrity algorithm, stun_types_covered *covered);
STUN_TYPES_NODISCARD STUN_TYPES_NONNULL((4, 5))
stun_types_answer stun_types_validate_with_hmac(const uint8_t *bytes, size_t length,
                                                stun_types_integrity algorithm,
                                                const stun_types_hmac *hmac,
                                                stun_types_validated *validated);

/* ---- Writing ---------------------------------------------------------------------------------- */

/* A message is written step by step into a slice of the caller's, room of size bytes. *written is
   how many bytes it has so far: stun_types_begin sets it, each add counts it up, and a refused add
   leaves it and the slice as they were. What the slice holds after it stays. Nothing allocates.

   Each add tests in this order, and returns the first that applies:
   - what is there. BAD_ARGUMENT: *written is more than size, or what was written is no header with
     whole attributes after it, as its length field counts them;
   - its arguments: the errors that its comment lists;
   - the order. ENDING_TYPE: stun_types_add, or an add of a number or of an address, is given the type
     MESSAGE-INTEGRITY, MESSAGE-INTEGRITY-SHA256 or FINGERPRINT, which have adds of their own. EXISTS:
     an attribute that blocks the addition is written: nothing follows a FINGERPRINT; a
     MESSAGE-INTEGRITY-SHA256 only a FINGERPRINT; a MESSAGE-INTEGRITY only these two. The type is that
     of the attribute, but MESSAGE-INTEGRITY's if either blocks one that is none of these three;
   - the room. TOO_SMALL: the slice hasn't room for expected bytes, the whole message with its
     addition. TOO_LARGE: the message would be longer than 65,555 bytes. */

/* Begins a message: its header, with length 0. BAD_ARGUMENT: the two top bits of the type are not 0.
   TOO_SMALL: fewer than 20 bytes. */
STUN_TYPES_NODISCARD STUN_TYPES_NONNULL((4, 5))
stun_types_answer stun_types_begin(uint8_t *room, size_t size, uint16_t type,
                                   const stun_types_id *id, size_t *written);

/* Begins the reply to a request: a response of the class STUN_TYPES_CLASS_SUCCESS or
   STUN_TYPES_CLASS_ERROR with the method and the transaction ID of the request (RFC 8489, section
   6.3.1.1). Only the header of the request is read. An error response still lacks its ERROR-CODE.
   NOT_STUN, TRUNCATED: the request doesn't begin with a header. NOT_A_REQUEST. BAD_ARGUMENT: another
   class. TOO_SMALL: fewer than 20 bytes. */
STUN_TYPES_NODISCARD STUN_TYPES_NONNULL((6))
stun_types_answer stun_types_begin_reply(uint8_t *room, size_t size, const uint8_t *request,
                                         size_t request_length, stun_types_class message_class,
                                         size_t *written);

/* Adds an attribute by its type and value: header, value, zeros up to a multiple of 4.
   TOO_LARGE: the value has more than 65,535 bytes. */
STUN_TYPES_NODISCARD STUN_TYPES_NONNULL((3))
stun_types_answer stun_types_add(uint8_t *room, size_t size, size_t *written, uint16_t type,
                                 const void *value, size_t value_length);

/* Adds a number of 8, 16, 32 or 64 bits, big-endian. The table lists the types that have such values:
   a call of another width refuses them. Each call refuses the types whose value is no number:
   addresses, texts, errors, lists, hashes and any octets (DATA, PADDING, ACCESS-TOKEN,
   MOBILITY-TICKET), and USE-CANDIDATE and DONT-FRAGMENT, which stun_types_add adds with a length of 0.
   A type that the library doesn't know is taken by each call. Of MESSAGE-INTEGRITY,
   MESSAGE-INTEGRITY-SHA256 and FINGERPRINT the error is ENDING_TYPE, not BAD_ARGUMENT.

     u8   REQUESTED_TRANSPORT (17 for UDP, 6 for TCP), REQUESTED_ADDRESS_FAMILY (1 for IPv4, 2 for
          IPv6), ADDITIONAL_ADDRESS_FAMILY (2): three zeros follow
          EVEN_PORT (0x80 reserves the next port too, 0 doesn't)
     u16  CHANNEL_NUMBER (0x4000 to 0x4FFF), RESPONSE_PORT: two zeros follow
     u32  PRIORITY, LIFETIME (seconds), CONNECTION_ID, CHANGE_REQUEST (4 for the address, 2 for the
          port), TRANSACTION_TRANSMIT_COUNTER (256 times the requests, and the responses)
     u64  ICE_CONTROLLED, ICE_CONTROLLING (the tiebreaker), RESERVATION_TOKEN, ICMP (the type times
          2 to the power of 40, the code times 2 to the power of 32, and the data)

   BAD_ARGUMENT: the value of this type is no number, or a number of another width. OUT_OF_RANGE: a
   CHANNEL_NUMBER or a family that isn't in the table. */
STUN_TYPES_NODISCARD STUN_TYPES_NONNULL((3))
stun_types_answer stun_types_add_u8(uint8_t *room, size_t size, size_t *written, uint16_t type,
                                    uint8_t number);
STUN_TYPES_NODISCARD STUN_TYPES_NONNULL((3))
stun_types_answer stun_types_add_u16(uint8_t *room, size_t size, size_t *written, uint16_t type,
                                     uint16_t number);
STUN_TYPES_NODISCARD STUN_TYPES_NONNULL((3))
stun_types_answer stun_types_add_u32(uint8_t *room, size_t size, size_t *written, uint16_t type,
                                     uint32_t number);
STUN_TYPES_NODISCARD STUN_TYPES_NONNULL((3))
stun_types_answer stun_types_add_u64(uint8_t *room, size_t size, size_t *written, uint16_t type,
                                     uint64_t number);

/* Adds an address, XORed with the message's transaction ID or as it is. BAD_ARGUMENT: the family is
   neither 4 nor 6; or the type is known to have the other form: XOR-MAPPED-ADDRESS, XOR-PEER-ADDRESS
   and XOR-RELAYED-ADDRESS are XORed, and MAPPED-ADDRESS, ALTERNATE-SERVER, RESPONSE-ORIGIN and
   OTHER-ADDRESS are not. */
STUN_TYPES_NODISCARD STUN_TYPES_NONNULL((3, 5))
stun_types_answer stun_types_add_xor_address(uint8_t *room, size_t size, size_t *written,
                                             uint16_t type, const stun_types_address *address);
STUN_TYPES_NODISCARD STUN_TYPES_NONNULL((3, 5))
stun_types_answer stun_types_add_address(uint8_t *room, size_t size, size_t *written, uint16_t type,
                                         const stun_types_address *address);

/* Adds an ERROR-CODE with a reason, UTF-8. OUT_OF_RANGE: the code is none of 300 to 699.
   TOO_LARGE: the reason has more than 763 bytes. INVALID_DATA: it isn't UTF-8. An ADDRESS-ERROR-CODE is
   added by stun_types_add: its value is the family, a zero, code / 100, code % 100, and the reason. */
STUN_TYPES_NODISCARD STUN_TYPES_NONNULL((3))
stun_types_answer stun_types_add_error(uint8_t *room, size_t size, size_t *written,
                                       stun_types_code code, const void *reason,
                                       size_t reason_length);

/* Adds an UNKNOWN-ATTRIBUTES of types. TOO_LARGE: more than 32,767 of them. */
STUN_TYPES_NODISCARD STUN_TYPES_NONNULL((3))
stun_types_answer stun_types_add_unknown_types(uint8_t *room, size_t size, size_t *written,
                                               const uint16_t *types, size_t count);

/* Signs what is written: adds MESSAGE-INTEGRITY (STUN_TYPES_INTEGRITY_SHA1, 20 bytes of HMAC-SHA1) or
   MESSAGE-INTEGRITY-SHA256 (STUN_TYPES_INTEGRITY_SHA256, 32 bytes). BAD_ARGUMENT: another algorithm.
   NO_KEY. BAD_ARGUMENT: the key was made for the other algorithm. */
STUN_TYPES_NODISCARD STUN_TYPES_NONNULL((3, 4))
stun_types_answer stun_types_add_integrity(uint8_t *room, size_t size, size_t *written,
                                           const stun_types_key *key, stun_types_integrity algorithm);

/* The same in two halves, between which the program computes the HMAC. The first reports the bytes that
   it is computed over: those that the attribute covers if it is added next. It writes nothing else, and is
   refused as an add is: BAD_ARGUMENT for what is there or for the algorithm (STUN_TYPES_INTEGRITY_ANY is
   none), EXISTS, TOO_SMALL, TOO_LARGE. The second adds the attribute. BAD_ARGUMENT: what is there; the
   algorithm of the HMAC is neither of the two; or isn't covered->algorithm, or *covered no longer fits the
   message, since something was added, or one of another type or length was begun. Then EXISTS, TOO_SMALL,
   TOO_LARGE. The bytes themselves aren't compared: if the program writes into the message in between, or
   begins one of the same type and length, the HMAC that is added is wrong. */
STUN_TYPES_NODISCARD STUN_TYPES_NONNULL((5))
stun_types_answer stun_types_next_covered_text(const uint8_t *room, size_t size, size_t written,
                                               stun_types_integrity algorithm,
                                               stun_types_covered *covered);
STUN_TYPES_NODISCARD STUN_TYPES_NONNULL((3, 4, 5))
stun_types_answer stun_types_add_hmac(uint8_t *room, size_t size, size_t *written,
                                      const stun_types_covered *covered,
                                      const stun_types_hmac *hmac);

/* Ends the message with a FINGERPRINT, the CRC-32 of what is written, XORed with 0x5354554E. */
STUN_TYPES_NODISCARD STUN_TYPES_NONNULL((3))
stun_types_answer stun_types_add_fingerprint(uint8_t *room, size_t size, size_t *written);

/* ---- A server without credentials -------------------------------------------------------------- */

/* Greatest length of a reply: a room of that size takes any. */
#define STUN_TYPES_GREATEST_REPLY 32840

/* Writes the reply to a datagram that came from source: to a binding request the address that it
   came from, or 420 if it has types that must be understood; with a FINGERPRINT if the request has
   one. *reply_length is 0 if none is owed, or if the call fails. A reply is at most 48 bytes longer than
   its request and at most three times as long.
   BAD_ARGUMENT: the family. TOO_SMALL: expected is what the reply takes, and nothing is written. */
STUN_TYPES_NODISCARD STUN_TYPES_NONNULL((3, 6))
stun_types_answer stun_types_binding_reply(const uint8_t *bytes, size_t length,
                                           const stun_types_address *source, uint8_t *room,
                                           size_t size, size_t *reply_length);

/* ---- A server with credentials ----------------------------------------------------------------- */

/* stun_types_authentication.kind; a call that fails leaves STUN_TYPES_NOT_DECIDED. */
typedef STUN_TYPES_ENUM(stun_types_authentication_kind) {
    STUN_TYPES_NOT_DECIDED = 0,
    STUN_TYPES_ACCEPTED = 1,  /* it is this user's; sign the reply by reply_algorithm with their key */
    STUN_TYPES_REFUSED = 2,   /* answer by an error response with error_code: 400, 401 or 438 */
    STUN_TYPES_DISCARDED = 3, /* answer nothing */
    STUN_TYPES_NOT_CHECKED = 4 /* a response, or an indication under long-term credentials, such as
                                  TURN's Send: the mechanism doesn't authenticate it here */
} stun_types_authentication_kind;

typedef struct {
    stun_types_authentication_kind kind;
    stun_types_code error_code;
    stun_types_integrity algorithm;       /* whose HMAC in the message was right */
    stun_types_integrity reply_algorithm; /* by which the reply is signed */
    stun_types_password password_algorithm; /* of the key that accepted: STUN_TYPES_PASSWORD_MD5 if
                                               md5_key has its bytes, also if both keys have them; 0
                                               under short-term credentials */
    uint32_t reserved;
} stun_types_authentication;

/* Authenticates a message by short-term credentials (RFC 8489, section 9.1.3). key is that of the
   user whom its USERNAME names, and holds none if there is no such user: find the USERNAME first. If it
   was made for one integrity attribute, the other counts as absent.
   The errors of stun_types_parse. BAD_ARGUMENT: the policy. Allocates: OUT_OF_MEMORY. */
STUN_TYPES_NODISCARD STUN_TYPES_NONNULL((3, 4, 5))
stun_types_answer stun_types_authenticate_short_term(const uint8_t *bytes, size_t length,
                                                     const stun_types_policy *policy,
                                                     const stun_types_key *key,
                                                     stun_types_authentication *authentication);

/* What a server knows of a nonce. */
typedef STUN_TYPES_ENUM(stun_types_nonce_state) {
    STUN_TYPES_NONCE_UNKNOWN = 0,
    STUN_TYPES_NONCE_VALID = 1,
    STUN_TYPES_NONCE_STALE = 2 /* it was valid */
} stun_types_nonce_state;

/* Authenticates a request by long-term credentials (RFC 8489, section 9.2.4). nonce_state is what the
   server knows of its NONCE, and algorithms are the password algorithms that it sent with a valid
   one. md5_key and sha256_key are the keys, in the server's realm, of the user whom its USERNAME or
   USERHASH names, by either password algorithm; one that holds none says that there is no such user. If
   a key was made for one integrity attribute, the other counts as absent. A PASSWORD-ALGORITHM with
   octets after its four is refused with 400, since neither algorithm has parameters.
   The errors of stun_types_parse. BAD_ARGUMENT: the policy, the state, a password algorithm, or more
   than 16 of them. Allocates: OUT_OF_MEMORY. */
STUN_TYPES_NODISCARD STUN_TYPES_NONNULL((3, 7, 8, 9))
stun_types_answer stun_types_authenticate_long_term(const uint8_t *bytes, size_t length,
                                                    const stun_types_policy *policy,
                                                    stun_types_nonce_state nonce_state,
                                                    const uint16_t *algorithms,
                                                    size_t algorithms_count,
                                                    const stun_types_key *md5_key,
                                                    const stun_types_key *sha256_key,
                                                    stun_types_authentication *authentication);

/* Finishes the reply to a request that was accepted (RFC 8489, sections 9.1.3 and 9.2.4): signs it by
   the reply_algorithm, with the key that accepted, and adds a FINGERPRINT if fingerprint is true. A
   reply has one if its request has one (section 7). key is that of the short-term credential, or the
   one by MD5; sha256_key is used if password_algorithm is STUN_TYPES_PASSWORD_SHA256. BAD_ARGUMENT: the
   authentication is no acceptance, or the key was made for the integrity attribute that isn't the
   reply's. NO_KEY. Then the errors of the calls that add the two attributes. A refused call leaves the
   message, its first *written bytes; what room holds after them may have changed. */
STUN_TYPES_NODISCARD STUN_TYPES_NONNULL((3, 4, 5, 6))
stun_types_answer stun_types_finish_reply(uint8_t *room, size_t size, size_t *written,
                                          const stun_types_authentication *authentication,
                                          const stun_types_key *key, const stun_types_key *sha256_key,
                                          bool fingerprint);

/* Writes the error response to a request that was refused at the start of room: an ERROR-CODE with the
   reason of RFC 8489, and a FINGERPRINT if the request has one (RFC 8489, section 9.1.3). It isn't
   signed. code is the error_code of the authentication: 400 or 401.
   The errors of stun_types_parse; NOT_A_REQUEST. BAD_ARGUMENT: another code. TOO_SMALL: expected is the
   length of the response, and nothing is written. Allocates: OUT_OF_MEMORY. */
STUN_TYPES_NODISCARD STUN_TYPES_NONNULL((6))
stun_types_answer stun_types_refuse_short_term(const uint8_t *request, size_t request_length,
                                               stun_types_code code, uint8_t *room, size_t size,
                                               size_t *written);

/* What a 401 and a 438 ask the next request to carry (RFC 8489, section 9.2.4). All zeros ask for an
   empty realm and an empty nonce. */
typedef struct {
    const void *realm; /* the text of the REALM */
    size_t realm_length;
    const void *nonce; /* the text of the NONCE: it is valid, and was sent to nobody else */
    size_t nonce_length;
    const uint16_t *algorithms; /* of PASSWORD-ALGORITHMS, the preferred one first; 0 of them: the
                                   response has none, and the user's key is by MD5 */
    size_t algorithms_count;
    uint64_t reserved;
} stun_types_asked;

/* The same under long-term credentials, with the code 400, 401 or 438 (section 9.2.4). A 401 and a 438
   carry what is asked for. The nonce begins with a cookie that promises algorithms exactly if there are
   some: otherwise a client would take the response for an attacker's, or its next request would be
   processed as though with MD5.
   The errors of stun_types_parse; NOT_A_REQUEST. BAD_ARGUMENT: another code, asked->reserved, a password
   algorithm, or more than 16 of them. For the realm and then for the nonce, INVALID_DATA: it isn't
   UTF-8, and TOO_LARGE: it has more than 763 bytes. BAD_ARGUMENT: the nonce promises algorithms and there
   are none, or there are some that it doesn't promise. A 400 has these errors too. TOO_SMALL, as above.
   Allocates: OUT_OF_MEMORY. */
STUN_TYPES_NODISCARD STUN_TYPES_NONNULL((4, 7))
stun_types_answer stun_types_refuse_long_term(const uint8_t *request, size_t request_length,
                                              stun_types_code code, const stun_types_asked *asked,
                                              uint8_t *room, size_t size, size_t *written);

/* The security features of a server, which its nonces begin with (RFC 8489, sections 9.2 and 18.1): a
   sum of these. */
enum {
    STUN_TYPES_FEATURE_PASSWORD_ALGORITHMS = 1, /* it sends PASSWORD-ALGORITHMS with the nonce */
    STUN_TYPES_FEATURE_USERNAME_ANONYMITY = 2   /* it knows its users by USERHASH too */
};

typedef struct {
    uint8_t bytes[13];
} stun_types_cookie;

/* The bytes with which the nonces of a server with these features begin. BAD_ARGUMENT: another sum. */
STUN_TYPES_NODISCARD STUN_TYPES_NONNULL((2))
stun_types_answer stun_types_nonce_cookie(uint32_t features, stun_types_cookie *cookie);

/* The features that a nonce begins with. False, and *features stays, if it begins with no cookie. */
STUN_TYPES_NODISCARD STUN_TYPES_NONNULL((3))
bool stun_types_security_features(const void *nonce, size_t nonce_length, uint32_t *features);

/* How many bytes a nonce has that stun_types_make_nonce makes. */
#define STUN_TYPES_NONCE_LENGTH 35

/* Makes a nonce that the server need not store: the cookie of these features, 36 bits of the time now,
   in seconds since a moment that stays the same, and the first 96 bits of an HMAC-SHA256 of both and of
   the client's address and port. It is valid for this client alone, for window seconds (for ever if
   they are 2^36 - 1 or more): the nonce doesn't contain the window, so pass the same one to
   stun_types_judge_nonce. The secret, which only the server knows, is a key of at least
   32 random bytes (stun_types_key_from_bytes, for STUN_TYPES_INTEGRITY_ANY).
   BAD_ARGUMENT: another sum of features, the family of the address, or a secret of fewer than 16 bytes. NO_KEY: there is no secret.
   TOO_SMALL. Allocates: OUT_OF_MEMORY. */
STUN_TYPES_NODISCARD STUN_TYPES_NONNULL((1, 5, 8))
stun_types_answer stun_types_make_nonce(const stun_types_key *secret, uint32_t features,
                                        uint64_t window, uint64_t now,
                                        const stun_types_address *client, uint8_t *room, size_t size,
                                        size_t *written);

/* What the server knows of the nonce in a request of this client, for stun_types_authenticate_long_term:
   it is valid; stale, if its window is over or its time is still to come; or unknown, if it was made by
   another secret, for another client or with other features. At most one HMAC is computed. A server
   that changes its secret keeps the old one for a window, and calls this with both. If the call fails,
   *state is NONCE_UNKNOWN.
   BAD_ARGUMENT, NO_KEY: as above. Allocates: OUT_OF_MEMORY. */
STUN_TYPES_NODISCARD STUN_TYPES_NONNULL((1, 5, 8))
stun_types_answer stun_types_judge_nonce(const stun_types_key *secret, uint32_t features,
                                         uint64_t window, uint64_t now,
                                         const stun_types_address *client, const void *nonce,
                                         size_t nonce_length, stun_types_nonce_state *state);

/* ---- A client -------------------------------------------------------------------------------- */

typedef STUN_TYPES_ENUM(stun_types_transport) {
    STUN_TYPES_UDP = 1,
    STUN_TYPES_TCP = 2
} stun_types_transport;

/* When a request is sent again and given up, in milliseconds (RFC 8489, section 6.2), and which
   responses the usage takes. If the last two fields are 0, the defaults of RFC 8489 apply. */
typedef struct {
    uint64_t rto;           /* the first interval, which doubles */
    uint64_t reliable_wait; /* over TCP, the whole time (Ti) */
    uint32_t requests;      /* how many are sent at most (Rc) */
    uint32_t last_wait;     /* how many times rto is waited after the last (Rm) */
    uint32_t min_hmac_length; /* bytes that a MESSAGE-INTEGRITY-SHA256 has at least (section 14.6): a
                                 usage may say 16, 20, 24 or 28; 0 is 32 */
    uint32_t fingerprint;   /* not 0: the usage sends FINGERPRINT, so that a response without one is
                               discarded (sections 6.3 and 7) */
    uint64_t reserved;
} stun_types_schedule;

/* What RFC 8489 recommends. */
#define STUN_TYPES_SCHEDULE { 500, 39500, 7, 16, 0, 0, 0 }

/* STUN_TYPES_SCHEDULE, for languages that read no macros. */
STUN_TYPES_NODISCARD
stun_types_schedule stun_types_schedule_default(void);

/* How a request is protected. */
typedef STUN_TYPES_ENUM(stun_types_protection) {
    STUN_TYPES_SHORT_TERM = 1,
    STUN_TYPES_LONG_TERM = 2,
    STUN_TYPES_FIRST_LONG_TERM = 3, /* not signed, as the first request by the long-term mechanism */
    STUN_TYPES_UNPROTECTED = 4
} stun_types_protection;

/* A transaction of a request. The fields are the library's own. Times are milliseconds since a
   beginning of the caller's choice; one that steps back counts as the one before. */
typedef struct {
    stun_types_schedule schedule;
    uint64_t last, clock;
    stun_types_id id;
    uint32_t sent;
    uint16_t method;
    uint8_t transport, protection, signed_by, violated, end, stopped;
    uint64_t reserved;
} stun_types_transaction;

/* Begins the transaction of a request, which is signed if it is protected. key is that of the
   credential that protects it, and isn't looked at otherwise. If the call fails, it fills the transaction
   with zeros, whatever it was: that is none, and a poll of it says to do nothing. Nothing allocates.
   The errors of stun_types_parse; BAD_ARGUMENT: transport, protection, or
   schedule->min_hmac_length, which is none of 0, 16, 20, 24, 28 and 32; OUT_OF_RANGE, of no number:
   rto, reliable_wait, requests or last_wait is 0, or they are too large; NOT_A_REQUEST; NOT_SIGNED,
   SIGNED: against protection; NO_KEY; NOT_SIGNED: the key of a short-term credential works with no
   integrity attribute of the request; BAD_ARGUMENT: a key of a long-term credential works with both
   integrity attributes, and this one was made for one. */
STUN_TYPES_NODISCARD STUN_TYPES_NONNULL((1, 4, 7))
stun_types_answer stun_types_transaction_begin(stun_types_transaction *transaction,
                                               const uint8_t *request, size_t length,
                                               const stun_types_schedule *schedule,
                                               stun_types_transport transport,
                                               stun_types_protection protection,
                                               const stun_types_key *key, uint64_t now);

/* stun_types_action.kind */
typedef STUN_TYPES_ENUM(stun_types_action_kind) {
    STUN_TYPES_NO_ACTION = 0, /* the call failed */
    STUN_TYPES_SEND_NOW = 1,  /* send the request, now */
    STUN_TYPES_WAIT = 2,      /* nothing before the moment until, unless a message is received */
    STUN_TYPES_ENDED = 3      /* the transaction has ended, or ends now */
} stun_types_action_kind;

/* How a transaction ended. */
typedef STUN_TYPES_ENUM(stun_types_end) {
    STUN_TYPES_ANSWERED = 1,
    STUN_TYPES_TIMED_OUT = 2,
    STUN_TYPES_INTEGRITY_VIOLATED = 3, /* responses came, and none was authentic */
    STUN_TYPES_RESPONSE_REFUSED = 4,   /* a response came that a client can't take */
    STUN_TYPES_CANCELLED = 5,          /* also if sending was stopped, and none was taken in time */
    STUN_TYPES_TRANSPORT_FAILED = 6
} stun_types_end;

typedef struct {
    stun_types_action_kind kind;
    stun_types_end end;
    uint64_t until;
    uint64_t reserved;
} stun_types_action;

/* What is to be done now. BAD_ARGUMENT: the transaction isn't one. */
STUN_TYPES_NODISCARD STUN_TYPES_NONNULL((1, 3))
stun_types_answer stun_types_transaction_poll(stun_types_transaction *transaction, uint64_t now,
                                              stun_types_action *action);

/* stun_types_received.kind */
typedef STUN_TYPES_ENUM(stun_types_received_kind) {
    STUN_TYPES_NOT_FOR_THIS = 0,             /* no response to this request, or the call failed */
    STUN_TYPES_DISCARDED_NOT_AUTHENTIC = 1,  /* the transaction goes on, as for 2 to 5 */
    STUN_TYPES_DISCARDED_BID_DOWN = 2,
    STUN_TYPES_DISCARDED_UNSIGNED = 3,
    STUN_TYPES_DISCARDED_OTHER_ALGORITHM = 4, /* signed, by no algorithm of the request (9.1.4) */
    STUN_TYPES_DISCARDED_NO_FINGERPRINT = 5,  /* the usage sends FINGERPRINT, and it has none */
    STUN_TYPES_FAILED_INTEGRITY = 6,         /* the transaction has ended, as for all below */
    STUN_TYPES_FAILED_UNKNOWN_ATTRIBUTE = 7, /* number: its type */
    STUN_TYPES_FAILED_NO_ERROR_CODE = 8,
    STUN_TYPES_TAKEN_SUCCESS = 9,            /* the success response */
    STUN_TYPES_TAKEN_ERROR = 10              /* the error response; number: its code */
} stun_types_received_kind;

/* Of a response that is discarded, or fails by its integrity, number is the code that it claims, or 0:
   it isn't authentic, and nothing follows from it. algorithm is that of the attribute that
   authenticates a response that is taken, STUN_TYPES_INTEGRITY_SHA1 or STUN_TYPES_INTEGRITY_SHA256,
   by which later requests are signed (9.1.5); 0 if no credential protects the request, and for a 401
   or 438 that isn't authentic. A 300 with the algorithm 0 must not be followed (14.8). */
typedef struct {
    stun_types_received_kind kind;
    uint32_t number;
    stun_types_integrity algorithm;
    uint32_t reserved;
} stun_types_received;

/* What received bytes are for the transaction (RFC 8489, sections 6.3.3, 6.3.4, 9.1.4 and 9.2.5).
   understood are the types below 0x8000 that the caller understands, but for those of RFC 8489. key is
   that which the transaction began with.
   BAD_ARGUMENT: the transaction isn't one. NO_KEY, NOT_SIGNED, BAD_ARGUMENT: the key isn't one that
   the transaction can have begun with. Allocates if a credential protects the request, for a copy
   of the key: OUT_OF_MEMORY. If the call fails, the transaction stays as it was. */
STUN_TYPES_NODISCARD STUN_TYPES_NONNULL((1, 2, 7))
stun_types_answer stun_types_transaction_receive(stun_types_transaction *transaction,
                                                 const stun_types_key *key, const uint8_t *bytes,
                                                 size_t length, const uint16_t *understood,
                                                 size_t understood_count,
                                                 stun_types_received *received);

/* Stops sending the request, unless the transaction has ended. A response is still taken until the
   transaction would have timed out; if none is, it ends as cancelled (RFC 8445, section 7.3.1.4).
   BAD_ARGUMENT: the transaction isn't one. */
STUN_TYPES_NODISCARD STUN_TYPES_NONNULL((1))
stun_types_answer stun_types_transaction_stop_sending(stun_types_transaction *transaction);

/* Ends the transaction, unless it has ended: the caller wants no response, or the transport failed.
   BAD_ARGUMENT: the transaction isn't one. */
STUN_TYPES_NODISCARD STUN_TYPES_NONNULL((1))
stun_types_answer stun_types_transaction_cancel(stun_types_transaction *transaction);
STUN_TYPES_NODISCARD STUN_TYPES_NONNULL((1))
stun_types_answer stun_types_transaction_fail(stun_types_transaction *transaction);

/* What a 401 or a 438 asks the next request to carry: the offsets of texts in its bytes, the value of
   PASSWORD-ALGORITHMS (to be copied; algorithms_at is 0 if there is none), the password algorithm
   of the key, whether the request names its user by USERHASH, and by which it is signed. */
typedef struct {
    size_t realm_at, realm_length;
    size_t nonce_at, nonce_length;
    size_t algorithms_at, algorithms_length;
    stun_types_password password_algorithm;
    uint32_t anonymous;
    stun_types_integrity integrity_algorithm;
    uint32_t reserved;
} stun_types_challenge;

/* Reads it (RFC 8489, section 9.2.5). supported are the password algorithms that the client knows.
   The other arguments are what it knows from earlier challenges. If was_tried, the refused request had
   these credentials in the realm tried, that of the challenge which it answered. If had_algorithms, the
   server has sent PASSWORD-ALGORITHMS before, so that a response without it may be an attacker's.
   BAD_ARGUMENT: a password algorithm, or more than 16 of them. INVALID_DATA: was_tried, and tried
   isn't UTF-8. The errors of stun_types_parse; NOT_A_CHALLENGE, BID_DOWN, INCOMPLETE, NO_ALGORITHM,
   SAME_CREDENTIALS. */
STUN_TYPES_NODISCARD STUN_TYPES_NONNULL((9))
stun_types_answer stun_types_challenge_of(const uint8_t *bytes, size_t length,
                                          const uint16_t *supported, size_t supported_count,
                                          bool was_tried, const void *tried, size_t tried_length,
                                          bool had_algorithms, stun_types_challenge *challenge);

/* Makes the key of a user in the realm of the challenge in response, by the password algorithm that it
   asks for. The key signs every request that answers this challenge, and validates the responses to it.
   It serves both integrity algorithms. The texts are taken as they are.
   BAD_ARGUMENT: no byte of password, a password algorithm, or more than 16 of them. The errors of
   stun_types_parse; NOT_A_CHALLENGE, BID_DOWN, INCOMPLETE, NO_ALGORITHM; INVALID_DATA: a text isn't
   UTF-8. Allocates: OUT_OF_MEMORY. If the call fails, the key stays. */
STUN_TYPES_NODISCARD STUN_TYPES_NONNULL((1))
stun_types_answer stun_types_key_for(stun_types_key *key, const uint8_t *response,
                                     size_t response_length, const uint16_t *supported,
                                     size_t supported_count, const void *user, size_t user_length,
                                     const void *password, size_t password_length);

/* Answers the challenge in response (RFC 8489, section 9.2.5): adds to a request USERNAME, or USERHASH
   if the challenge asks for that, REALM and NONCE, and PASSWORD-ALGORITHMS and PASSWORD-ALGORITHM if it
   has a list; signs the request with a key that stun_types_key_for made; and adds a FINGERPRINT if
   fingerprint is true. The request has a new transaction ID. Later requests to the server carry the
   same attributes, so keep the response until another challenge comes. Nothing allocates.
   The errors, before anything is written: BAD_ARGUMENT: a password algorithm, or more than 16 of them.
   Those of stun_types_parse; NOT_A_CHALLENGE, BID_DOWN, INCOMPLETE, NO_ALGORITHM. INVALID_DATA: the
   user isn't UTF-8. TOO_LARGE: it has more than 513 bytes. NO_KEY. BAD_ARGUMENT: the key was made for
   the integrity attribute by which the request isn't signed. Then the errors of the calls that add each
   attribute: the first one that is refused ends the call. A refused call leaves the message, its first
   *written bytes; what room holds after them may have changed. */
STUN_TYPES_NODISCARD STUN_TYPES_NONNULL((3, 10))
stun_types_answer stun_types_answer_challenge(uint8_t *room, size_t size, size_t *written,
                                              const uint8_t *response, size_t response_length,
                                              const uint16_t *supported, size_t supported_count,
                                              const void *user, size_t user_length,
                                              const stun_types_key *key, bool fingerprint);

/* ---- Many transactions of a client -------------------------------------------------------------- */

/* The transactions are an array of the caller's, of count. A place with all zeros is free. Poll each
   transaction when its moment has come, and clear its place when it has ended. Each call makes one pass
   over the array. */

/* Finds the transaction that a received message is for: *place is that of the first whose request was
   sent, that has not ended, and that has the transaction ID of the message. Pass the message to
   stun_types_transaction_receive of that transaction. False, and *place stays, if there is none, or if
   the bytes don't begin with the header of a response. */
STUN_TYPES_NODISCARD STUN_TYPES_NONNULL((5))
bool stun_types_transactions_find(const stun_types_transaction *transactions, size_t count,
                                  const uint8_t *bytes, size_t length, size_t *place);

/* The soonest moment at which a poll of one of them does something, unless a message is received
   before. False, and *until stays, if each has ended or its place is free. */
STUN_TYPES_NODISCARD STUN_TYPES_NONNULL((3))
bool stun_types_transactions_next(const stun_types_transaction *transactions, size_t count,
                                  uint64_t *until);

/* How many milliseconds the response took, if it was received at the moment now: a client makes its
   next rto from it (RFC 8489, section 6.2.1). False, and *time stays, if no response was taken, or if
   the request was sent more than once, since then it isn't known which one was answered. */
STUN_TYPES_NODISCARD STUN_TYPES_NONNULL((1, 3))
bool stun_types_transaction_round_trip(const stun_types_transaction *transaction, uint64_t now,
                                       uint64_t *time);

/* ---- Streams --------------------------------------------------------------------------------- */

/* Greatest length of a message in a stream: a buffer of that size takes any. */
#define STUN_TYPES_GREATEST_MESSAGE 65552

/* What a stream carries: STUN messages alone, or ChannelData of TURN too, padded to a multiple of 4
   (RFC 8656, section 12.5), as between a TURN client and its server. */
typedef STUN_TYPES_ENUM(stun_types_stream_kind) {
    STUN_TYPES_STREAM_MESSAGES = 0,
    STUN_TYPES_STREAM_CHANNEL_DATA = 1,    /* on channels 0x4000 to 0x4FFF (RFC 8656, section 12) */
    STUN_TYPES_STREAM_OLD_CHANNEL_DATA = 2 /* on channels 0x4000 to 0x7FFF (RFC 5766, section 11) */
} stun_types_stream_kind;

/* The messages of a stream that comes in pieces, as over TCP (RFC 8489, section 6.2.2), gathered in
   a buffer of the caller's: all zeros at first, but for what it carries. */
typedef struct {
    uint64_t offset; /* in the stream, of the bytes that are pending */
    size_t pending;  /* how many bytes at the start of the buffer belong to a message that isn't whole */
    size_t message;  /* how many bytes the message there has that the last call completed, or 0 */
    stun_types_stream_kind carries;
    uint32_t reserved;
} stun_types_stream;

/* Takes the bytes at the start of a piece that belong to the message that is coming; *taken is how
   many. If they complete it, it is at the start of the buffer until the next call. It is ChannelData
   with its padding if its first byte is 0x40 or more. With 0x50 or more stun_types_read_channel_data
   refuses it: its channel and the length of its data have two bytes each, and its data follows.
   BAD_ARGUMENT: fewer than 20 bytes of buffer, what is pending isn't the beginning of a message, or
   no stream carries that.
   NOT_STUN, NOT_PADDED, TOO_LARGE (expected is the buffer's size): no message begins where one had
   to, at stream->offset; close the connection. The bytes that were pending stay, and stream->message
   is 0. */
STUN_TYPES_NODISCARD STUN_TYPES_NONNULL((1, 6))
stun_types_answer stun_types_stream_push(stun_types_stream *stream, uint8_t *buffer, size_t size,
                                         const uint8_t *piece, size_t piece_length, size_t *taken);

/* ---- ChannelData (RFC 8656, section 12.4) ------------------------------------------------------ */

typedef struct {
    size_t data_at;   /* offset of the data */
    uint16_t channel; /* 0x4000 to 0x4FFF */
    uint16_t length;  /* of the data */
} stun_types_channel_data;

/* How many bytes the ChannelData message has that begins here on a stream: 4, its data, and zeros up
   to a multiple of 4; *message_length is 0 if more bytes are needed to know it. NOT_STUN: the first
   byte is none of 0x40 to 0x4F. */
STUN_TYPES_NODISCARD STUN_TYPES_NONNULL((3))
stun_types_answer stun_types_channel_data_length(const uint8_t *bytes, size_t length,
                                                 size_t *message_length);

/* Reads a ChannelData message. NOT_STUN, TRUNCATED, TOO_LARGE. */
STUN_TYPES_NODISCARD STUN_TYPES_NONNULL((3))
stun_types_answer stun_types_read_channel_data(const uint8_t *bytes, size_t length,
                                               stun_types_channel_data *channel_data);

/* Writes one, padded with zeros to a multiple of 4 if padded is true. OUT_OF_RANGE: the channel.
   TOO_LARGE: more than 65,535 bytes of data. TOO_SMALL. */
STUN_TYPES_NODISCARD STUN_TYPES_NONNULL((7))
stun_types_answer stun_types_write_channel_data(uint16_t channel, const void *data,
                                                size_t data_length, bool padded, uint8_t *room,
                                                size_t size, size_t *written);

/* ---- A TURN server (RFC 8656) ------------------------------------------------------------------ */

/* A TURN server without sockets and without a clock, on the heap: its allocations, each with one relayed
   address or one of each family, and each relayed address with at most 16 permissions and 16 channels. It
   begins as STUN_TYPES_TURN_INIT, is made by
   stun_types_turn_new, which frees what it held before, and ended by stun_types_turn_free. C neither
   reads nor writes nor copies its fields; whether a struct holds a server is seen as with a key. Each
   call has it alone: one server for each thread, or a lock. */
typedef struct {
    void *at;
    uint64_t held;
} stun_types_turn;

#define STUN_TYPES_TURN_INIT { NULL, 0 }

/* STUN_TYPES_TURN_INIT, for languages that read no macros. */
STUN_TYPES_NODISCARD
stun_types_turn stun_types_turn_none(void);

/* Addresses whose first length bits are those of this one, with the ports from first_port to last_port. All
   other bits of the address are 0, also those of the octets after the four of IPv4, and its port is ignored.
   A length of 0: all addresses of the family. A last_port of 0, with a first_port of 0: all ports. */
typedef struct {
    stun_types_address address;
    uint16_t length;
    uint16_t first_port, last_port;
} stun_types_prefix;

/* The bounds of a server, and what it can do. All zeros: it refuses each Allocate request. */
typedef struct {
    uint32_t relays;            /* the most relayed addresses, below 2^24: an Allocate request beyond it is
                                   refused with 508 */
    uint32_t relays_per_user;   /* the most relayed addresses of one user (486). An allocation with an
                                   address of each family counts as two */
    uint32_t reservations;      /* the most sockets that are reserved at a time, by the R bit of EVEN-PORT:
                                   a request for one more is refused with 508 */
    uint32_t greatest_lifetime; /* seconds; below 600, as 0, it counts as 600 */
    uint16_t ipv4, ipv6;        /* not 0: the server relays the family. A request for another one is refused
                                   with 440, and if a socket of the family isn't ready with 508 */
    uint16_t dont_fragment;     /* not 0: the program can set the DF bit of what it sends to peers */
    uint16_t icmp;              /* not 0: ICMP packets are relayed: stun_types_turn_icmp */
    uint16_t channel_permits;   /* not 0: the permission that a ChannelBind request installs lasts as long
                                   as the channel, 600 seconds. By RFC 8656 it lasts 300, but some clients
                                   refresh only their channels */
    uint16_t old_channels;      /* not 0: channels 0x5000 to 0x7FFF are allowed too (RFC 5766) */
} stun_types_turn_limits;

/* 4,096 relayed addresses of either family, at most 64 of one user, for at most an hour, and the rules of
   RFC 8656, without DONT-FRAGMENT and ICMP. */
#define STUN_TYPES_TURN_LIMITS { 4096, 64, 64, 3600, 1, 1, 0, 0, 0, 0 }

/* STUN_TYPES_TURN_LIMITS, for languages that read no macros. */
STUN_TYPES_NODISCARD
stun_types_turn_limits stun_types_turn_limits_default(void);

/* What a server is made by. All zeros make one that refuses each Allocate request. */
typedef struct {
    uint64_t window;            /* for how many seconds a nonce is valid; 0: in its own second alone */
    uint64_t seed[2];           /* random: it keys the hashes of clients and users. With zeros clients can
                                   choose addresses whose hashes collide */
    stun_types_policy policy;   /* which requests are taken, and which integrity attributes count */
    stun_types_turn_limits limits;
    uint32_t features;          /* as in stun_types_make_nonce; 0: none. With
                                   STUN_TYPES_FEATURE_PASSWORD_ALGORITHMS a 401 offers SHA-256 and
                                   then MD5 */
    const void *realm;          /* the text of the realm of its users */
    size_t realm_length;        /* 0: the realm is empty */
    const void *software;       /* the text of the SOFTWARE of responses that are signed, but a 420. A
                                   reply to a Binding request has the library's, as by
                                   stun_types_binding_reply, and a 400, 401, 420 or 438 has none */
    size_t software_length;     /* 0: they have none either */
    const stun_types_prefix *denied; /* which peers clients may not reach, and which they may: the
                                        longest prefix that contains an address and port decides, of
                                        equal ones denied, then allowed, then the default
                                        (DENIED_BY_DEFAULT of crates/turn_peers). A permission, which
                                        is of no port, is refused if a prefix with all ports denies the
                                        address, and no longer one with any port allows it */
    size_t denied_count;        /* 0: none is denied but by default */
    const stun_types_prefix *allowed;
    size_t allowed_count;       /* 0: none that is denied by default is allowed */
    const stun_types_address *listening; /* the addresses and ports that clients send to; no client
                                            reaches them as a peer */
    size_t listening_count;     /* 0: clients can reach the server itself */
    uint64_t reserved;
} stun_types_turn_settings;

/* Makes a server with no allocation. It takes all memory that it ever keeps: some 2,700 bytes for each of
   limits.relays. secret makes the nonces, as in stun_types_make_nonce. The server keeps copies of
   all that it is given.
   The first of these: BAD_ARGUMENT: a number of the settings, also limits.relays from 2^24 on. NO_KEY:
   there is no secret. BAD_ARGUMENT: it has fewer than 16 bytes. INVALID_DATA, TOO_LARGE: the realm, and
   then the software, isn't UTF-8, or has more than 763 bytes. BAD_ARGUMENT: a family is neither 4 nor 6; a
   prefix is longer than an address of its family, or one of its other bits is 1; its first port is above
   its last one. Allocates: OUT_OF_MEMORY. If the call fails, the server stays as it was. */
STUN_TYPES_NODISCARD STUN_TYPES_NONNULL((1, 2, 3))
stun_types_answer stun_types_turn_new(stun_types_turn *server,
                                      const stun_types_turn_settings *settings,
                                      const stun_types_key *secret);

/* Replaces which peers clients may reach, by denied, allowed and listening of the settings, whose other fields
   are not read. The server keeps copies. What was granted stays, and data that the new rules don't allow is
   dropped from now on.
   BAD_ARGUMENT: as stun_types_turn_new of these, or there is no server. Allocates: OUT_OF_MEMORY. If the call
   fails, the rules stay. */
STUN_TYPES_NODISCARD STUN_TYPES_NONNULL((1, 2))
stun_types_answer stun_types_turn_set_rules(stun_types_turn *server, const stun_types_turn_settings *settings);

/* Replaces the limits, but relays and reservations, for which the server has taken memory. What was granted
   stays: a user who now has more relayed addresses than relays_per_user gets no other one.
   It allocates nothing. BAD_ARGUMENT: there is no server. */
STUN_TYPES_NODISCARD STUN_TYPES_NONNULL((1, 2))
stun_types_answer stun_types_turn_set_limits(stun_types_turn *server, const stun_types_turn_limits *limits);

/* Replaces the other server, to which clients are sent that can't be given a relayed address: an Allocate
   request that would be refused with 508 is refused with 300 and this address, if it is of the client's family
   and the request has no RESERVATION-TOKEN (RFC 8489, section 10). A new server has none. A family of 0: there
   is none. So a server that is to be left gets no sockets (stun_types_turn_datagram) from then on.
   It allocates nothing. BAD_ARGUMENT: the family is none of 0, 4 and 6, or there is no server. */
STUN_TYPES_NODISCARD STUN_TYPES_NONNULL((1, 2))
stun_types_answer stun_types_turn_set_alternate(stun_types_turn *server,
                                                const stun_types_address *alternate);

/* Ends these servers, one after the other in memory, and frees their memory, overwriting their secrets;
   leaves STUN_TYPES_TURN_INIT for each. */
void stun_types_turns_free(stun_types_turn *servers, size_t count);

/* The same with one server. With STUN_TYPES_TURN_INIT, and with NULL, it does nothing. */
static inline void stun_types_turn_free(stun_types_turn *server) {
    stun_types_turns_free(server, server ? 1 : 0);
}

/* Who sent a datagram, the address of the server that it came to, and by which transport. */
typedef struct {
    stun_types_address client, server;
    uint16_t stream; /* 0: UDP; 1: TCP or TLS, cut into messages by stun_types_stream_push */
} stun_types_five_tuple;

/* The sockets that are ready for Allocate requests, by the addresses that clients get: family 0, none, and
   a request for one is refused with 508. One for any port, one whose port is even; the same socket may be
   both. And one to be reserved with the even one: it has the same IP address and the next higher port. No
   relayed address and no reservation may have one of them already: the server doesn't check that. */
typedef struct {
    stun_types_address any_ipv4, even_ipv4, any_ipv6, even_ipv6, next_ipv4, next_ipv6;
} stun_types_turn_ready;

/* A client's datagram. All zeros, but for its bytes and where it comes from: no socket is ready, and no
   keys were looked up. */
typedef struct {
    const uint8_t *bytes;
    size_t length;
    stun_types_five_tuple from;
    stun_types_turn_ready ready;
    uint16_t looked_up; /* not 0: the keys that are passed are those of its user */
    uint32_t reserved;
    uint64_t token; /* random, new for each call: the RESERVATION-TOKEN of a request that reserves. Without a
                       socket to be reserved it isn't used */
} stun_types_turn_datagram;

typedef STUN_TYPES_ENUM(stun_types_turn_kind) {
    STUN_TYPES_TURN_NOTHING = 0,  /* nothing is sent */
    STUN_TYPES_TURN_RESPONSE = 1, /* room[0 .. length) goes back to the client, from where it sent to */
    STUN_TYPES_TURN_TO_PEER = 2,  /* bytes[at .. at + length) goes to peer, from the socket relay */
    STUN_TYPES_TURN_NEEDS_KEY = 3 /* find the keys of the user, and call again with them */
} stun_types_turn_kind;

/* A socket that was ready and is a relayed address's from now on. */
typedef struct {
    uint64_t relay;             /* the number that names it until it is ended. No other ever has it; its
                                   low 24 bits are below limits.relays, and no two that are there share
                                   them */
    stun_types_address relayed; /* its address, as it was ready */
    uint32_t took;              /* 1: keep the socket by its number, and have another one ready for the next
                                   call; 0: none was taken */
} stun_types_turn_opened;

/* What is to be done, in this order: close the sockets that ended, keep those that were taken, and send. */
typedef struct {
    uint64_t relay;          /* TO_PEER: the number of the socket */
    size_t at, length;       /* in bytes */
    size_t ended;            /* how many relayed addresses the call ended: stun_types_turn_ended */
    stun_types_turn_opened ipv4, ipv6; /* the sockets that the request took, of each family */
    stun_types_address peer; /* TO_PEER */
    stun_types_turn_kind kind;
    uint32_t code;           /* RESPONSE: the error code, or 0 if it is a success response */
    uint32_t dont_fragment;  /* TO_PEER: 1: send with the DF bit. For a client over UDP that holds from IPv4 to
                                IPv4: stun_types_turn_fields */
    uint64_t reserved;       /* reserves: keep the socket that was ready as the next one of ipv4, or of ipv6, by this
                                token, until it is claimed, or stun_types_turn_over has it */
    uint64_t claimed;        /* claims: the socket of ipv4, or of ipv6, is the one that is kept by this token */
    uint32_t reserves, claims; /* 1, or 0 */
} stun_types_turn_action;

/* Takes a client's datagram: keeps what it changes, and says what is to be done. now is a monotonic
   clock of the caller's, in nanoseconds since any moment that stays the same; the nonces count its
   whole seconds. Each call that takes it ends what has expired first, whatever the datagram is. A clock
   that steps back counts as stopped.

   When a datagram comes, looked_up is 0, and both keys may hold none. If the kind is
   STUN_TYPES_TURN_NEEDS_KEY, nothing has changed: it is a signed request, and its USERNAME or USERHASH
   (stun_types_find) names the user. Call again with the same arguments, looked_up 1, and the user's
   keys by MD5 and by SHA-256 (stun_types_key_long_term). If a key holds none, there is no such user.
   With looked_up the kind is never STUN_TYPES_TURN_NEEDS_KEY.

   A response is written into room. 1,000 bytes have room for any, but for a 420 that lists more than
   400 types. TOO_SMALL, OUT_OF_MEMORY: it isn't written, and the kind is STUN_TYPES_TURN_NOTHING. The
   request has taken effect, though: ended, ipv4, ipv6, reserves and claims say what it ended and took, and if
   the client sends it again it is answered. INVALID_DATA: the same, since the key is made for the other integrity
   algorithm. OUT_OF_MEMORY also if a key can't be copied: nothing has changed, and the action is zeros.
   BAD_ARGUMENT, and nothing has changed: there is no server, a family is neither 4 nor 6, an address
   that is ready is of the other family, stream is neither 0 nor 1, or reserved is not 0.
   Allocates, but not for data that goes to a peer. */
STUN_TYPES_NODISCARD STUN_TYPES_NONNULL((1, 3, 4, 5, 8))
stun_types_answer stun_types_turn_client(stun_types_turn *server, uint64_t now,
                                         const stun_types_turn_datagram *datagram,
                                         const stun_types_key *md5_key,
                                         const stun_types_key *sha256_key,
                                         uint8_t *room, size_t size,
                                         stun_types_turn_action *action);

/* What to do with the data of a peer. */
typedef struct {
    stun_types_five_tuple to;
    uint16_t sends;       /* 1: head[size - head_length .. size), the data, and padding zeros go to the
                             client; 0: the data is dropped */
    uint16_t head_length; /* 4 on a channel; otherwise 36, or 48 for a peer with an IPv6 address */
    uint16_t padding;     /* 0 to 3; on a channel over UDP 0 */
    size_t ended;         /* how many relayed addresses the call ended: stun_types_turn_ended */
} stun_types_turn_delivery;

#define STUN_TYPES_TURN_HEAD 48

/* Takes a datagram of data_length bytes, which came from peer to the socket relay. The data is neither
   read nor moved: what comes before it is written at the end of head, which has size bytes, at least
   STUN_TYPES_TURN_HEAD. So receive at buffer + 48, and pass buffer and 48. id: random; the transaction
   ID of a Data indication. The data is dropped if the socket is no live relayed address's, if there is no
   permission for the peer, if the peer is denied, or if the message is longer than the transport to the
   client takes: 65,507 bytes over UDP and IPv4, 65,527 over UDP and IPv6, and 65,552 on a stream. It allocates nothing.
   BAD_ARGUMENT: there is no server, or a family is neither 4 nor 6. TOO_SMALL: head is shorter. */
STUN_TYPES_NODISCARD STUN_TYPES_NONNULL((1, 3, 6, 9))
stun_types_answer stun_types_turn_peer(stun_types_turn *server, uint64_t now,
                                       const stun_types_address *peer, uint64_t relay,
                                       size_t data_length, const stun_types_id *id, uint8_t *head,
                                       size_t size, stun_types_turn_delivery *delivery);

/* An ICMP packet. */
typedef struct {
    uint32_t data; /* the MTU of the next hop, if the datagram was too large */
    uint8_t icmp_type, code;
} stun_types_icmp;

/* What to do with it. */
typedef struct {
    stun_types_five_tuple to;
    uint16_t sends; /* 1: room[0 .. length) goes to the client; 0: the packet is dropped */
    size_t length;
    size_t ended;   /* how many relayed addresses the call ended: stun_types_turn_ended */
} stun_types_turn_notice;

#define STUN_TYPES_TURN_NOTICE 56

/* Takes an ICMP packet about a datagram that the socket relay sent to peer: a Data indication with the peer's
   address and an ICMP attribute is written into room, which has size bytes, at least STUN_TYPES_TURN_NOTICE
   (RFC 8656, sections 11.5 and 18.13). The attribute has the data of the packet only if the datagram was too
   large (type 3 and code 4 of IPv4, type 2 of IPv6), and otherwise 0. peer: where the datagram went to, as the
   packet shows it, and not where the packet came from. id: random; the transaction ID. The packet is dropped
   unless limits.icmp is set, if its type isn't 3 or 11 for IPv4, or 1, 2 or 3 for IPv6, if the socket is no live
   relayed address's, if there is no permission for the peer, or if the peer is denied. It allocates nothing.
   BAD_ARGUMENT: there is no server, or a family is neither 4 nor 6. TOO_SMALL: room is shorter. */
STUN_TYPES_NODISCARD STUN_TYPES_NONNULL((1, 3, 5, 6, 9))
stun_types_answer stun_types_turn_icmp(stun_types_turn *server, uint64_t now,
                                       const stun_types_address *peer, uint64_t relay,
                                       const stun_types_icmp *error, const stun_types_id *id, uint8_t *room,
                                       size_t size, stun_types_turn_notice *notice);

#define STUN_TYPES_FIELD_UNSET 0xFFFF

/* Fields of an IP header. STUN_TYPES_FIELD_UNSET: the field isn't known, or it is sent with the system's default. */
typedef struct {
    uint16_t hop_limit;     /* at most 255; over IPv4 the TTL */
    uint16_t dscp;          /* the Differentiated Services Code Point, at most 63 */
    uint16_t ecn;           /* Explicit Congestion Notification, at most 3 */
    uint16_t dont_fragment; /* 1: the DF bit is set, or over IPv6 there is no Fragment header; 0: it isn't */
} stun_types_ip_fields;

/* How data came that is relayed in a UDP datagram, to a peer or to a client. */
typedef struct {
    size_t length;          /* how many bytes the datagram carries */
    uint16_t stream;        /* 0: a UDP datagram brought the data; 1: the connection of a client */
    uint16_t from, to;      /* the families, 4 or 6, of the packet that brought it and of the datagram */
    uint16_t dont_fragment; /* not 0: as in stun_types_turn_action */
    stun_types_ip_fields received; /* what is known of the packet that brought it; of a connection its DSCP */
} stun_types_turn_relayed;

typedef struct {
    stun_types_ip_fields fields;
    uint16_t sends; /* 1: send with these fields; 0: send nothing, since the Hop Limit reaches 0 */
} stun_types_turn_sent;

/* Says which fields the IP header of a datagram has that relays data (RFC 8656, sections 13 to 15): for each the
   preferred behaviour, and the alternate one if that field of the packet that brought the data isn't known. It
   allocates nothing. BAD_ARGUMENT, and sends is 0: a family is neither 4 nor 6, stream is neither 0 nor 1, or a
   field is greater than it may be. */
STUN_TYPES_NODISCARD STUN_TYPES_NONNULL((1, 2))
stun_types_answer stun_types_turn_fields(const stun_types_turn_relayed *relayed, stun_types_turn_sent *sent);
/* What the data of a channel is relayed by, in both directions: a program, for example in the kernel, can do it
   without the server. ChannelData of the client, on the channel, goes to peer from the socket relay, and what
   peer sends to this socket goes to the client on the channel. */
typedef struct {
    uint64_t relay;      /* the number of the socket */
    uint64_t expires_at; /* in nanoseconds of the caller's clock: the first end of the relayed address, the
                            channel, and the permission for the peer; at most UINT64_MAX */
    stun_types_address peer; /* that the channel is bound to */
} stun_types_flow;

/* Returns true, and the flow on a channel of a client, as of the last call with the server and a time. What it
   says holds until it expires, unless a request of this client is answered with success, stun_types_turn_end or
   stun_types_turn_end_user is called, or the rules change: ask again then. The rules for peers are not asked: end
   the flows to a peer that they deny.
   False, and zeros: no relayed address of the client has the channel, or there is no permission for its peer, or
   there is no server, or a family is neither 4 nor 6, or stream is neither 0 nor 1, or the arguments overlap.
   It ends nothing, and allocates nothing. */
STUN_TYPES_NODISCARD STUN_TYPES_NONNULL((1, 2, 4))
bool stun_types_turn_flow(stun_types_turn *server, const stun_types_five_tuple *client, uint16_t channel,
                          stun_types_flow *flow);

/* Ends what has expired, and returns how many relayed addresses it ended: stun_types_turn_ended. Without a
   server it is 0. Each call that takes the time does this, so that a server without datagrams needs it
   alone: call it once a second, or at stun_types_turn_next_due. */
STUN_TYPES_NODISCARD STUN_TYPES_NONNULL((1))
size_t stun_types_turn_poll(stun_types_turn *server, uint64_t now);

/* The same, and ends the relayed address with this number, for example if the connection of its client is
   closed. If none has it, only what has expired ends. */
STUN_TYPES_NODISCARD STUN_TYPES_NONNULL((1))
size_t stun_types_turn_end(stun_types_turn *server, uint64_t now, uint64_t relay);

/* The same, and ends all relayed addresses of the user with this USERHASH, whether they named themselves by
   it or by USERNAME: for example of a user who is revoked. stun_types_userhash makes it of the name and the
   realm of the server. 0: also if the arguments overlap. */
STUN_TYPES_NODISCARD STUN_TYPES_NONNULL((1, 3))
size_t stun_types_turn_end_user(stun_types_turn *server, uint64_t now, const stun_types_hash *user);

/* The numbers of the sockets that the last call with the server and a time ended, to be closed: from one
   of them on, at most room of them, in no particular order. first: 0, then how many were read. Returns how
   many it wrote; 0: there are no more, or there is no server, or the arguments overlap. A call that returned
   BAD_ARGUMENT, or that changed nothing, left them as they were: look at the count that it returned. */
STUN_TYPES_NODISCARD STUN_TYPES_NONNULL((1))
size_t stun_types_turn_ended(stun_types_turn *server, uint64_t *numbers, size_t room, size_t first);

/* The tokens of the reserved sockets that expired in the last call with a time, to be closed, as
   stun_types_turn_ended has numbers. So that no other call ends one unseen, call stun_types_turn_poll first when
   stun_types_turn_next_due has come. */
STUN_TYPES_NODISCARD STUN_TYPES_NONNULL((1))
size_t stun_types_turn_over(stun_types_turn *server, uint64_t *tokens, size_t room, size_t first);

/* When the next relayed address or reservation expires, by the clock of the caller: before, stun_types_turn_poll
   ends nothing. UINT64_MAX: there is none, or no server. */
STUN_TYPES_NODISCARD STUN_TYPES_NONNULL((1))
uint64_t stun_types_turn_next_due(stun_types_turn *server);

/* How many relayed addresses there are, with those that have expired since the last call. 0 without a
   server. */
STUN_TYPES_NODISCARD STUN_TYPES_NONNULL((1))
size_t stun_types_turn_count(stun_types_turn *server);

/* ---- A TURN client (RFC 8656) ------------------------------------------------------------------ */

/* A TURN client without sockets and without a clock, on the heap: one allocation at one server, on one
   5-tuple. It asks for the allocation, answers the server's challenges, renews the allocation, its
   permissions and its channels, and deletes it. It begins as STUN_TYPES_ALLOCATION_INIT, is made by
   stun_types_allocation_new, which frees what it held before, and ended by stun_types_allocation_free. C
   neither reads nor writes nor copies its fields; whether a struct holds a client is seen as with a key.
   Each call has it alone.
   now is a monotonic clock of the caller's, in nanoseconds since any moment that stays the same; a clock
   that steps back counts as stopped.
   An event loop passes each datagram of its socket to stun_types_allocation_datagram. After each call that
   takes now, and at *wake, it calls stun_types_allocation_poll and sends what that writes, until *length is
   0, and then stun_types_allocation_changes until that returns false. */
typedef struct {
    void *at;
    uint64_t held;
} stun_types_allocation;

#define STUN_TYPES_ALLOCATION_INIT { NULL, 0 }

/* STUN_TYPES_ALLOCATION_INIT, for languages that read no macros. */
STUN_TYPES_NODISCARD
stun_types_allocation stun_types_allocation_none(void);

/* What a client is made by. Zeros, but for the server, the transport, the user and the password, are what
   RFC 8489 and RFC 8656 recommend. */
typedef struct {
    stun_types_address server;      /* datagrams from elsewhere are ignored */
    stun_types_transport transport; /* STUN_TYPES_TCP also for TLS */
    const void *user;               /* the text of the user's name (RFC 8489, section 9.2) */
    size_t user_length;
    const void *password;           /* the text of the password */
    size_t password_length;
    const void *software;           /* the text of the SOFTWARE of requests */
    size_t software_length;         /* 0: they have none */
    uint32_t lifetime;              /* of the allocation, in seconds, as it is asked for; 0: requests ask
                                       for none, and a server grants 600 */
    uint32_t peers;                 /* the most peers, at most 4,096; 0: 32 */
    uint32_t rto;                   /* the wait after the first sending of a request, in milliseconds, which
                                       doubles; 0: 500. Not over TCP */
    uint32_t last_wait;             /* the wait after the last sending, in milliseconds; 0: 16 times rto,
                                       and 39,500 over TCP, where a request is sent once */
    uint32_t sends;                 /* how often a request is sent at most, at most 255; 0: 7. Not over
                                       TCP */
    uint32_t retries;               /* how often the server may ask for other credentials before it accepts
                                       a request, at most 255; 0: 3 */
    uint32_t algorithm;             /* the one password algorithm that the client supports,
                                       STUN_TYPES_PASSWORD_MD5 or STUN_TYPES_PASSWORD_SHA256; 0: both */
    uint16_t family;                /* of the relayed address and the peers: 4 or 6; 0: 4, which Allocate
                                       requests don't name, as for servers of RFC 5766 */
    uint16_t fingerprint;           /* not 0: requests have a FINGERPRINT */
    uint32_t named;                 /* the most peers that one CreatePermission request names, at most 16;
                                       0: 8. A request that names several is sent once: if no response
                                       comes by the first wait, or an error, each peer is asked for alone */
    uint16_t port;                  /* of the relayed address (section 7.1), a stun_types_allocation_port; 0:
                                       any. A server that has no such port rejects the client with 508, and
                                       one that doesn't know EVEN-PORT with 420 */
    uint16_t dont_fragment;         /* not 0: Allocate requests have a DONT-FRAGMENT, so that
                                       stun_types_allocation_send_whole may be called. A server that can't
                                       set the DF bit rejects the client with 420 */
    uint64_t token;                 /* with STUN_TYPES_ALLOCATION_PORT_RESERVED the token of the reservation,
                                       as stun_types_allocation_datagram reported it to another client of
                                       this user and server; otherwise 0. family is that of the reserved
                                       address then, and requests don't name it */
} stun_types_allocation_settings;

/* Which port a relayed address is to have (RFC 8656, section 7.1). */
typedef STUN_TYPES_ENUM(stun_types_allocation_port) {
    STUN_TYPES_ALLOCATION_PORT_ANY = 0,     /* any */
    STUN_TYPES_ALLOCATION_PORT_EVEN = 1,    /* an even one (EVEN-PORT) */
    STUN_TYPES_ALLOCATION_PORT_PAIR = 2,    /* an even one, and the server reserves the next-higher one */
    STUN_TYPES_ALLOCATION_PORT_RESERVED = 3 /* the one that a token reserves (RESERVATION-TOKEN) */
} stun_types_allocation_port;

/* Makes a client that hasn't asked for anything. It keeps copies of all that it is given, and takes memory
   for all its peers, some 400 bytes for each.
   BAD_ARGUMENT: a number of the settings, the family of server among them, a token with another port, or no
   byte of password. TOO_LARGE: user has more than 508 bytes. INVALID_DATA: user or password isn't UTF-8. INVALID_DATA,
   TOO_LARGE: the software isn't UTF-8, or has more than 763 bytes. Allocates: OUT_OF_MEMORY. If the call
   fails, the client stays as it was. */
STUN_TYPES_NODISCARD STUN_TYPES_NONNULL((1, 2))
stun_types_answer stun_types_allocation_new(stun_types_allocation *client,
                                            const stun_types_allocation_settings *settings);

/* Frees these clients, one after the other in memory, overwriting their passwords and keys, and leaves
   STUN_TYPES_ALLOCATION_INIT for each. It sends nothing: an allocation that isn't closed expires. */
void stun_types_allocations_free(stun_types_allocation *clients, size_t count);

/* The same with one client. With STUN_TYPES_ALLOCATION_INIT, and with NULL, it does nothing. */
static inline void stun_types_allocation_free(stun_types_allocation *client) {
    stun_types_allocations_free(client, client ? 1 : 0);
}

/* What the user wants. */
typedef STUN_TYPES_ENUM(stun_types_allocation_wish) {
    STUN_TYPES_ALLOCATION_ALLOCATE = 1, /* an allocation (RFC 8656, section 7.1) */
    STUN_TYPES_ALLOCATION_PERMIT = 2,   /* data of and to this IP address (section 9). Another peer with
                                           this address, if one is named, serves it too */
    STUN_TYPES_ALLOCATION_BIND = 3,     /* the same, and a channel of this very peer (section 12) */
    STUN_TYPES_ALLOCATION_CLOSE = 4,    /* the end, after the allocation is deleted (section 8) */
    STUN_TYPES_ALLOCATION_DROP = 5      /* no more data of and to this very peer. Its channel number rests
                                           for 900 seconds (section 12) */
} stun_types_allocation_wish;

/* Asks for it: the next polls write the requests. What is wanted already is not asked for again; a peer
   that is over is. A peer may be named before there is an allocation. To drop one that is not named
   changes nothing. peer is not read for ALLOCATE and CLOSE.
   BAD_ARGUMENT, and nothing has changed: there is no client, wish is none of these, or the family of peer
   is neither 4 nor 6. OTHER_FAMILY: peer is new, and of another family than the relayed address (section
   10.2). FULL: peer is new, and there is no room for it. It allocates nothing. */
STUN_TYPES_NODISCARD STUN_TYPES_NONNULL((1, 4))
stun_types_answer stun_types_allocation_want(stun_types_allocation *client, uint64_t now,
                                             stun_types_allocation_wish wish,
                                             const stun_types_address *peer);

/* What a datagram brings to the user. */
typedef STUN_TYPES_ENUM(stun_types_allocation_news) {
    STUN_TYPES_ALLOCATION_NO_NEWS = 0,
    STUN_TYPES_ALLOCATION_DATA = 1, /* data of a peer: at, length, peer */
    STUN_TYPES_ALLOCATION_ICMP = 2, /* the server has received an ICMP error about a packet to a peer (RFC 8656,
                                       section 11.6): peer, whose port is 0 if the server doesn't know it,
                                       icmp_type, icmp_code, icmp_data. It isn't signed */
    STUN_TYPES_ALLOCATION_TOKEN = 3 /* the allocation has come, and the server has reserved the next-higher
                                       port, for 30 seconds or longer: token */
} stun_types_allocation_news;

/* It; the other members are 0. */
typedef struct {
    size_t at, length;       /* the data is datagram[at .. at + length) */
    stun_types_address peer;
    stun_types_allocation_news shown;
    uint64_t token;          /* for the settings of another client */
    uint32_t icmp_data;      /* the MTU of the next hop if the packet was too long, otherwise 0 */
    uint8_t icmp_type, icmp_code;
    uint16_t reserved;
} stun_types_allocation_data;

/* Takes a datagram that came from this address, or a message that stun_types_stream_push completed
   (STUN_TYPES_STREAM_CHANNEL_DATA). Data is shown if it came from the server, in a Data indication while
   the server permits the peer's IP address, or on the channel of that very peer (RFC 8656, sections 11.4
   and 12.6), and an ICMP error while the server permits the peer's IP address. Anything else that the client
   doesn't wait for is ignored.
   BAD_ARGUMENT, and nothing has changed: there is no client, or the family of from is neither 4 nor 6.
   Allocates for a challenge of the server alone: OUT_OF_MEMORY, and the datagram is lost. */
STUN_TYPES_NODISCARD STUN_TYPES_NONNULL((1, 3, 6))
stun_types_answer stun_types_allocation_datagram(stun_types_allocation *client, uint64_t now,
                                                 const stun_types_address *from,
                                                 const uint8_t *datagram, size_t length,
                                                 stun_types_allocation_data *data);

/* Writes the request that is to be sent to the server now: out[0 .. *length), or nothing if *length is 0.
   Nothing is to be sent before *wake, unless another call comes first; UINT64_MAX: never. id: random, new
   at each call; it is the transaction ID if the request is a new one. 3,400 bytes have room for any
   request, unless the server's list of password algorithms has more than 124 bytes.
   TOO_SMALL, OUT_OF_MEMORY: the request counts as sent, and lost; *length is 0. BAD_ARGUMENT, and nothing
   is written: there is no client. Allocates if it writes a request. */
STUN_TYPES_NODISCARD STUN_TYPES_NONNULL((1, 3, 6, 7))
stun_types_answer stun_types_allocation_poll(stun_types_allocation *client, uint64_t now,
                                             const stun_types_id *id, uint8_t *out, size_t size,
                                             size_t *length, uint64_t *wake);

/* What is around data for a peer. */
typedef struct {
    size_t length;  /* 4 on a channel; otherwise 36, or 48 for a peer with an IPv6 address */
    size_t padding; /* 0 to 3; on a channel over UDP 0 */
    uint32_t sends; /* 1: head[size - length .. size), the data, and padding zeros go to the server; 0: the
                       data must not be sent */
    uint32_t reserved;
} stun_types_allocation_head;

#define STUN_TYPES_ALLOCATION_HEAD 52

/* Writes what comes before data_length bytes of data to a peer, at the end of head, which has size bytes.
   STUN_TYPES_ALLOCATION_HEAD bytes have room for any: so keep the data at buffer + 52, and pass buffer and
   52. The data is neither read nor moved. id: random; the transaction ID of a Send indication. The data may
   be sent if the allocation and a permission for the peer's IP address are granted, and haven't expired
   (RFC 8656, sections 11.1 and 12.5).
   BAD_ARGUMENT, and nothing has changed: there is no client, or the family of peer is neither 4 nor 6.
   TOO_LARGE: the message would be longer than the transport to the server takes, 65,507 bytes over UDP and
   IPv4, 65,527 over UDP and IPv6, and 65,552 on a stream. TOO_SMALL: head has no room for it. It allocates
   nothing. */
STUN_TYPES_NODISCARD STUN_TYPES_NONNULL((1, 4, 5, 8))
stun_types_answer stun_types_allocation_send(stun_types_allocation *client, uint64_t now,
                                             size_t data_length, const stun_types_address *peer,
                                             const stun_types_id *id, uint8_t *head, size_t size,
                                             stun_types_allocation_head *around);

/* The same for data that the server sends with the DF bit set (section 18.9): in a Send indication with
   DONT-FRAGMENT, also to a peer with a channel. The settings have to ask for dont_fragment: a server that can't
   set the bit drops such indications. The lengths of TOO_LARGE are without the four bytes of DONT-FRAGMENT. */
STUN_TYPES_NODISCARD STUN_TYPES_NONNULL((1, 4, 5, 8))
stun_types_answer stun_types_allocation_send_whole(stun_types_allocation *client, uint64_t now,
                                                   size_t data_length, const stun_types_address *peer,
                                                   const stun_types_id *id, uint8_t *head, size_t size,
                                                   stun_types_allocation_head *around);

typedef STUN_TYPES_ENUM(stun_types_allocation_change_kind) {
    STUN_TYPES_ALLOCATION_UNCHANGED = 0,
    STUN_TYPES_ALLOCATION_ALLOCATED = 1, /* there is an allocation: relayed, mapped, until */
    STUN_TYPES_ALLOCATION_REFRESHED = 2, /* it lasts longer: until */
    /* Something else holds of peer: channel, wants, until, channel_until, violated. */
    STUN_TYPES_ALLOCATION_ASKED = 3,     /* nothing is granted: it is asked for, or has expired */
    STUN_TYPES_ALLOCATION_PERMITTED = 4, /* data goes to it in Send indications */
    STUN_TYPES_ALLOCATION_BOUND = 5,     /* data goes to it by its channel */
    STUN_TYPES_ALLOCATION_PEER_OVER = 6, /* the client has given it up; code */
    STUN_TYPES_ALLOCATION_CLOSING = 7,   /* the allocation is being deleted */
    STUN_TYPES_ALLOCATION_OVER = 8       /* the client has ended: why, code, server, rest */
} stun_types_allocation_change_kind;

/* Why a client has ended. */
typedef STUN_TYPES_ENUM(stun_types_allocation_end) {
    STUN_TYPES_ALLOCATION_CLOSED = 1,   /* the user closed it */
    STUN_TYPES_ALLOCATION_SILENT = 2,   /* no response came in time */
    STUN_TYPES_ALLOCATION_REJECTED = 3, /* code: of the error response. After 437 try another socket */
    STUN_TYPES_ALLOCATION_MOVED = 4,    /* server: an alternate server, with code 300 */
    STUN_TYPES_ALLOCATION_USELESS = 5,  /* the server granted a lifetime of less than 80 seconds, or a
                                           relayed address of another family */
    STUN_TYPES_ALLOCATION_VIOLATED = 6  /* only responses with a wrong integrity came */
} stun_types_allocation_end;

/* The fields that kind doesn't name are 0. Moments are those of the caller's clock. */
typedef struct {
    uint64_t until;             /* when the allocation, or the permission of the peer's IP address, expires
                                   at the earliest; 0: none was granted */
    uint64_t channel_until;     /* when the peer's channel does */
    stun_types_allocation_change_kind kind;
    stun_types_allocation_end why;
    stun_types_address relayed; /* the relayed address */
    stun_types_address mapped;  /* the client's address, as the server sees it */
    stun_types_address peer;
    stun_types_address server;  /* MOVED: the alternate server */
    uint16_t channel;           /* the number of the peer's channel, also if it isn't bound */
    uint16_t code;              /* an error code; 0: none, or no response counted */
    uint16_t wants;             /* 1: a channel is wanted; 0 again after the server has refused one */
    uint16_t violated;          /* 1: a response to the last request for the peer had a wrong integrity */
    uint32_t rest;              /* for how many seconds to leave the server alone: 120 after 437, 60 after
                                   486 and 508 (RFC 8656, section 7.4), otherwise 0 */
    uint32_t reserved;
} stun_types_allocation_change;

/* A difference between what holds of the client and what the calls before have reported, if there is one;
   true then, and it counts as reported. The allocation comes first, then its peers as they were named. Of changes that undo each other between two calls nothing is reported,
   and after OVER nothing more. False: there is none, or there is no client. It allocates nothing. */
STUN_TYPES_NODISCARD STUN_TYPES_NONNULL((1, 2))
bool stun_types_allocation_changes(stun_types_allocation *client, stun_types_allocation_change *change);

/* A client at a server, and those before it. All zeros but for server: the first one. */
typedef struct {
    stun_types_address server;
    stun_types_address before[3]; /* servers of earlier clients, the newest first */
    uint16_t tries;               /* how many clients this server has already had, at most 2 */
    uint16_t servers;             /* how many servers are in before */
} stun_types_allocation_attempt;

/* What to try after the client of an attempt has ended, as ended reports it: from another local address at
   the same server after a 437, twice at most; and at the alternate server after a 300, if it wasn't asked
   before (RFC 8656, section 7.4; RFC 8489, section 10). At most eleven attempts follow the first. False, and
   *attempt stays: there is nothing to try, or the attempt is none. */
STUN_TYPES_NODISCARD STUN_TYPES_NONNULL((1, 2))
bool stun_types_allocation_attempt_next(stun_types_allocation_attempt *attempt,
                                        const stun_types_allocation_change *ended);

/* ---- An ICE agent (RFC 8445) -------------------------------------------------------------------- */

/* An ICE agent without sockets and without a clock, on the heap (RFC 8445; candidates may come at any time,
   RFC 8838). It checks the pairs of its bases and of the peer's candidates, answers the peer's checks,
   nominates as the controlling agent, and keeps the peer's consent (RFC 7675). It begins as
   STUN_TYPES_ICE_INIT; stun_types_ice_new makes it, and frees what it held before; stun_types_ice_free ends
   it. C neither reads, writes nor copies its fields; whether a struct holds an agent is tested as with a
   key. No two calls may use it at once.
   now is the caller's monotonic clock, in nanoseconds since any fixed moment; if it steps back, it counts as
   stopped.
   An event loop passes each datagram of its bases to stun_types_ice_datagram, and sends the response, if
   there is one. After each call that takes now, and at *wake, it calls stun_types_ice_poll and sends what
   that writes, until request.length is 0, and then stun_types_ice_changes until that returns false. Data
   goes where stun_types_ice_route says. A restart (section 9) is a second agent, with other credentials. */
typedef struct {
    void *at;
    uint64_t held;
} stun_types_ice;

#define STUN_TYPES_ICE_INIT { NULL, 0 }

/* STUN_TYPES_ICE_INIT, for languages that read no macros. */
STUN_TYPES_NODISCARD
stun_types_ice stun_types_ice_none(void);

/* The role of an agent (section 6.1.1). */
typedef STUN_TYPES_ENUM(stun_types_ice_role) {
    STUN_TYPES_ICE_CONTROLLING = 1, /* it nominates pairs: it made the offer, or the peer is a lite agent */
    STUN_TYPES_ICE_CONTROLLED = 2
} stun_types_ice_role;

/* The settings of an agent. At 0, a number has the default that its comment names; the defaults of pairs, ta
   and rto are RFC 8445's. */
typedef struct {
    const void *ufrag;         /* the text of its username fragment: 4 to 256 letters, digits, + and /, with
                                  at least 24 random bits (section 5.3) */
    size_t ufrag_length;
    const void *password;      /* the text of its password: 22 to 256 of these, with 128 random bits */
    size_t password_length;
    const void *software;      /* the text of the SOFTWARE of checks */
    size_t software_length;    /* 0: they have none */
    uint64_t tiebreaker;       /* 64 random bits (section 7.3.1.1) */
    stun_types_ice_role role;
    uint32_t pairs;            /* the most pairs, at most 4,096; 0: 100 */
    uint32_t candidates;       /* the most bases, and the most candidates of the peer, at most 4,096; 0: 32 */
    uint32_t requests;         /* the most requests that wait for a response, at most 4,096; 0: 200 */
    uint32_t ta;               /* the time between two requests, in milliseconds; below 5 it is 5; 0: 50 */
    uint32_t rto;              /* the wait after the first request of a check, in milliseconds, which doubles;
                                  below 500 it is 500; 0: 500 */
    uint32_t patience;         /* how many milliseconds a controlling agent waits for a pair of higher
                                  priority after one has succeeded; 0: 200 */
    uint32_t tries;            /* the most requests of a check without a response, at most 32; 0: 5 */
    uint64_t reserved;
} stun_types_ice_settings;

/* Makes an agent with no candidates. It copies the settings, and allocates all the memory that the agent
   uses, except for the peer's credentials, and for more requests under way, which stun_types_ice_poll allocates.
   BAD_ARGUMENT: a number of the settings is out of range, or password is empty. INVALID_DATA: ufrag or
   password isn't one. INVALID_DATA, TOO_LARGE: the software isn't UTF-8, or has more than 763 bytes.
   Allocates: OUT_OF_MEMORY. If the call fails, the agent stays as it was. */
STUN_TYPES_NODISCARD STUN_TYPES_NONNULL((1, 2))
stun_types_answer stun_types_ice_new(stun_types_ice *agent, const stun_types_ice_settings *settings);

/* Frees the agents of an array, overwrites their keys, and leaves STUN_TYPES_ICE_INIT for each. */
void stun_types_ices_free(stun_types_ice *agents, size_t count);

/* The same with one agent. With STUN_TYPES_ICE_INIT, and with NULL, it does nothing. */
static inline void stun_types_ice_free(stun_types_ice *agent) {
    stun_types_ices_free(agent, agent ? 1 : 0);
}

/* Sets the username fragment and the password that the peer has signalled. Before this call the agent
   answers the peer's checks, and sends none.
   BAD_ARGUMENT: there is no agent, or password is empty. INVALID_DATA: ufrag or password isn't one. EXISTS:
   the agent already has the peer's credentials, and keeps them. Allocates: OUT_OF_MEMORY. */
STUN_TYPES_NODISCARD STUN_TYPES_NONNULL((1))
stun_types_answer stun_types_ice_set_peer(stun_types_ice *agent, uint64_t now, const void *ufrag,
                                          size_t ufrag_length, const void *password, size_t password_length);

/* What an agent sends from and receives at (section 4): a socket, or an allocation at a TURN server. A
   server-reflexive candidate is signalled, but isn't a base: its base sends for it. */
typedef struct {
    uint32_t number;             /* of the caller's choice */
    uint32_t foundation;         /* of its candidate, a number of the caller's choice for each foundation */
    uint32_t priority;           /* of its candidate: 2^24 * type preference + 2^8 * local preference + 256
                                    - component (section 5.1.2.1). Type preferences are 126 (host), 110
                                    (peer-reflexive), 100 (server-reflexive) and 0 (relayed) */
    uint32_t reflexive_priority; /* of the peer-reflexive candidates that its checks discover: the same with
                                    a type preference of 110 (section 7.1.1) */
    uint16_t component;          /* a number for each component of each data stream; only candidates of the
                                    same component are paired */
    uint16_t family;             /* of its address: 4 or 6 */
    uint16_t link_local;         /* not 0: its address is IPv6 link-local; it is paired with such alone */
    uint16_t reserved;
} stun_types_ice_base;

/* A candidate of the peer. */
typedef struct {
    stun_types_address address;
    uint32_t foundation;         /* a number for each foundation of the peer; not 0 */
    uint32_t priority;
    uint16_t component;
    uint16_t reserved;
} stun_types_ice_remote;

/* Adds a base, or a candidate of the peer, and pairs it. They may come at any time and in any order.
   BAD_ARGUMENT, and nothing has changed: there is no agent, a family is neither 4 nor 6, or foundation is 0
   in a candidate of the peer. FULL: there is no room for it. EXISTS: there is a base of this number, or a
   candidate of the peer with this component and address. It allocates nothing. */
STUN_TYPES_NODISCARD STUN_TYPES_NONNULL((1, 3))
stun_types_answer stun_types_ice_add_base(stun_types_ice *agent, uint64_t now,
                                          const stun_types_ice_base *base);

STUN_TYPES_NODISCARD STUN_TYPES_NONNULL((1, 3))
stun_types_answer stun_types_ice_add_remote(stun_types_ice *agent, uint64_t now,
                                            const stun_types_ice_remote *remote);

/* Notes the address of a candidate that the caller signals, so that it isn't reported as discovered.
   BAD_ARGUMENT, FULL and EXISTS as above. It allocates nothing. */
STUN_TYPES_NODISCARD STUN_TYPES_NONNULL((1, 2))
stun_types_answer stun_types_ice_add_address(stun_types_ice *agent, const stun_types_address *address);

/* No more candidates follow, of this agent or of the peer: from now on a component may fail.
   BAD_ARGUMENT: there is no agent. It allocates nothing. */
STUN_TYPES_NODISCARD STUN_TYPES_NONNULL((1))
stun_types_answer stun_types_ice_end_candidates(stun_types_ice *agent, uint64_t now);

typedef STUN_TYPES_ENUM(stun_types_ice_kind) {
    STUN_TYPES_ICE_NOTHING = 0,  /* there is nothing to do */
    STUN_TYPES_ICE_RESPONSE = 1, /* send out[0 .. length) from the same base to where it came from */
    STUN_TYPES_ICE_DATA = 2      /* the datagram is the peer's data, of component */
} stun_types_ice_kind;

/* What to do with a datagram. The fields that kind doesn't name are 0. */
typedef struct {
    size_t length;
    stun_types_ice_kind kind;
    uint16_t component;
    uint16_t reserved;
} stun_types_ice_received;

/* Takes a datagram that came to the base of this number, from an address. Unwrap what comes from a TURN
   server first. random: 64 random bits, new at each call: the next tiebreaker if the peer answers a check
   with 487. Any response fits into 128 bytes, except a 420 that lists more than 16 types.
   BAD_ARGUMENT, and nothing has changed: there is no agent, or the family of from is neither 4 nor 6.
   TOO_SMALL: out has no room for the response; the datagram counts as received, and the response as lost.
   TOO_LARGE: a 420 would list more types than a message has room for. It allocates nothing. */
STUN_TYPES_NODISCARD STUN_TYPES_NONNULL((1, 4, 10))
stun_types_answer stun_types_ice_datagram(stun_types_ice *agent, uint64_t now, uint32_t base,
                                          const stun_types_address *from, const uint8_t *datagram,
                                          size_t length, uint64_t random, uint8_t *out, size_t size,
                                          stun_types_ice_received *received);

/* A request to send: out[0 .. length), from a base to an address. length 0: there is none. */
typedef struct {
    size_t length;
    stun_types_address to;
    uint32_t base;
} stun_types_ice_request;

/* Writes the request that is due now. Before *wake none is due, unless another call comes first; UINT64_MAX:
   never. id: the transaction ID, random and new at each call. Any request without SOFTWARE fits into 700
   bytes.
   BAD_ARGUMENT, and *wake stays: there is no agent. TOO_SMALL: out has no room; the request counts as sent
   and lost. Allocates if more requests wait for a response than ever before: OUT_OF_MEMORY, and the request
   is still due. */
STUN_TYPES_NODISCARD STUN_TYPES_NONNULL((1, 3, 6, 7))
stun_types_answer stun_types_ice_poll(stun_types_ice *agent, uint64_t now, const stun_types_id *id,
                                      uint8_t *out, size_t size, stun_types_ice_request *request,
                                      uint64_t *wake);

/* Where data goes. */
typedef struct {
    stun_types_address to;
    uint32_t base;
} stun_types_ice_path;

/* Returns true, and where data of a component goes now. False, and zeros: no pair is selected, or the peer
   hasn't consented within the last 30 seconds (RFC 7675, section 5.1), or there is no agent; data must not
   be sent. Call it for each datagram, or for each batch. It allocates nothing. */
STUN_TYPES_NODISCARD STUN_TYPES_NONNULL((1, 4))
bool stun_types_ice_route(stun_types_ice *agent, uint64_t now, uint16_t component, stun_types_ice_path *path);

typedef STUN_TYPES_ENUM(stun_types_ice_progress) {
    STUN_TYPES_ICE_CHECKING = 1,  /* no pair is selected yet */
    STUN_TYPES_ICE_CONNECTED = 2, /* a pair is selected */
    STUN_TYPES_ICE_FAILED = 3,    /* no pair is left that may be selected, and no candidates follow */
    STUN_TYPES_ICE_LOST = 4       /* the peer's consent has expired, and no pair is selected: restart */
} stun_types_ice_progress;

/* The status of a component. */
typedef struct {
    stun_types_ice_path path;         /* CONNECTED: of the selected pair; otherwise zeros */
    stun_types_ice_progress progress;
    stun_types_ice_role role;         /* the agent's, which a role conflict may have changed */
    size_t pairs;                     /* how many pairs the agent has, of all components */
} stun_types_ice_standing;

/* Returns true, and the status of a component at the latest now of a call. False, and all zeros: there is no
   agent. It allocates nothing. */
STUN_TYPES_NODISCARD STUN_TYPES_NONNULL((1, 3))
bool stun_types_ice_status(stun_types_ice *agent, uint16_t component, stun_types_ice_standing *standing);

/* The states of pairs (RFC 8445, section 6.1.2.6). */
typedef STUN_TYPES_ENUM(stun_types_ice_pair_state) {
    STUN_TYPES_ICE_PAIR_FROZEN = 1,
    STUN_TYPES_ICE_PAIR_WAITING = 2,
    STUN_TYPES_ICE_PAIR_IN_PROGRESS = 3,
    STUN_TYPES_ICE_PAIR_SUCCEEDED = 4,
    STUN_TYPES_ICE_PAIR_FAILED = 5,
    STUN_TYPES_ICE_PAIR_LOST = 6 /* the peer's consent for it has expired */
} stun_types_ice_pair_state;

/* A candidate pair. */
typedef struct {
    uint64_t until;           /* when the peer's consent for it expires; 0: it hasn't succeeded yet */
    stun_types_address remote;
    uint32_t base;
    uint32_t priority;        /* of the base's candidate */
    uint32_t remote_priority; /* of the peer's */
    stun_types_ice_pair_state state;
    uint16_t component;
    uint16_t tries;           /* how many requests were sent since it was last waiting */
    uint16_t triggered;       /* 1: it is in the triggered-check queue (section 6.1.4.1) */
    uint16_t nominated;       /* 1: it is nominated */
} stun_types_ice_checked;

/* Returns true, and the pair of this number, from 0, the newest first, at the latest now of a call. False,
   and all zeros: there are no more, or there is no agent. It allocates nothing. */
STUN_TYPES_NODISCARD STUN_TYPES_NONNULL((1, 3))
bool stun_types_ice_pair(stun_types_ice *agent, uint32_t number, stun_types_ice_checked *pair);

typedef STUN_TYPES_ENUM(stun_types_ice_change_kind) {
    STUN_TYPES_ICE_UNCHANGED = 0,
    STUN_TYPES_ICE_ROLE = 1,         /* the agent has this role now */
    STUN_TYPES_ICE_CONSENT_LOST = 2, /* the peer's consent for the pair of base and address, of component, has
                                        expired: nothing more is sent on it */
    STUN_TYPES_ICE_PROGRESS = 3,     /* component has this progress now; CONNECTED: from base to address */
    STUN_TYPES_ICE_SELECTED = 4,     /* component stays connected, by another pair, from base to address */
    STUN_TYPES_ICE_DISCOVERED = 5    /* the peer sees base at this address, which no candidate has: a
                                        peer-reflexive candidate of this agent (section 7.2.5.3.1) */
} stun_types_ice_change_kind;

/* The fields that kind doesn't name are 0. */
typedef struct {
    stun_types_address address;
    uint32_t base;
    stun_types_ice_change_kind kind;
    stun_types_ice_progress progress;
    stun_types_ice_role role;
    uint16_t component;
    uint16_t reserved;
} stun_types_ice_change;

/* Returns true, and a difference between the agent and what earlier calls have reported, which counts as
   reported then. Changes that undo each other between two calls aren't reported.
   False, and all zeros: there is none, or there is no agent. It allocates nothing. */
STUN_TYPES_NODISCARD STUN_TYPES_NONNULL((1, 2))
bool stun_types_ice_changes(stun_types_ice *agent, stun_types_ice_change *change);

/* ---- A lite ICE agent (RFC 8445, sections 2.5 and 7.3.2) ------------------------------------------ */

/* A lite ICE agent, for a server with a public address whose peers are full agents. It answers the peer's
   checks, and sends no request, so it has no timers. It is always controlled: a check with ICE-CONTROLLED
   gets 487 (Role Conflict). It needs no credentials of the peer. It begins as STUN_TYPES_ICE_LITE_INIT;
   stun_types_ice_lite_new makes it, and frees what it held before; stun_types_ice_lite_free ends it. C
   neither reads, writes nor copies its fields; whether a struct holds an agent is tested as with a key. No
   two calls may use it at once. now is as for stun_types_ice.
   Pass each datagram of its bases to stun_types_ice_lite_datagram, and send the response, if there is one.
   Data goes where stun_types_ice_lite_route says. A restart (section 9) is a second agent, with other
   credentials. */
typedef struct {
    void *at;
    uint64_t held;
} stun_types_ice_lite;

#define STUN_TYPES_ICE_LITE_INIT { NULL, 0 }

/* STUN_TYPES_ICE_LITE_INIT, for languages that read no macros. */
STUN_TYPES_NODISCARD
stun_types_ice_lite stun_types_ice_lite_none(void);

/* A socket of a lite agent: its host candidate (section 5.2). */
typedef struct {
    uint32_t number;    /* of the caller's choice; of two bases with the same number the first counts */
    uint16_t component; /* of a data stream: different ones have different numbers, in all streams */
    uint16_t reserved;
} stun_types_ice_lite_base;

/* The settings of a lite agent. */
typedef struct {
    const void *ufrag;     /* the texts of its username fragment and of its password, as for stun_types_ice */
    size_t ufrag_length;
    const void *password;
    size_t password_length;
    const stun_types_ice_lite_base *bases;
    size_t base_count;
    uint64_t reserved;
} stun_types_ice_lite_settings;

/* Makes a lite agent. It copies the settings, and allocates all the memory that the agent uses.
   BAD_ARGUMENT: a reserved field isn't 0, or password is empty. INVALID_DATA: ufrag or password isn't one.
   Allocates: OUT_OF_MEMORY. If the call fails, the agent stays as it was. */
STUN_TYPES_NODISCARD STUN_TYPES_NONNULL((1, 2))
stun_types_answer stun_types_ice_lite_new(stun_types_ice_lite *agent,
                                          const stun_types_ice_lite_settings *settings);

/* Frees the agents of an array, overwrites their keys, and leaves STUN_TYPES_ICE_LITE_INIT for each. */
void stun_types_ice_lites_free(stun_types_ice_lite *agents, size_t count);

/* The same with one agent. With STUN_TYPES_ICE_LITE_INIT, and with NULL, it does nothing. */
static inline void stun_types_ice_lite_free(stun_types_ice_lite *agent) {
    stun_types_ice_lites_free(agent, agent ? 1 : 0);
}

/* Takes a datagram that came to the base of this number, from an address. A check with USE-CANDIDATE selects
   its pair for the component of the base; the latest one counts. What is no STUN message with a FINGERPRINT
   is the peer's data if it came on the selected pair, and the latest accepted check on that less than 30
   seconds ago. Any response fits into 128 bytes, except a 420 that lists more than 16 types.
   BAD_ARGUMENT, and nothing has changed: there is no agent, or the family of from is neither 4 nor 6.
   TOO_SMALL: out has no room for the response; the datagram counts as received, and the response as lost.
   TOO_LARGE: a 420 would list more types than a message has room for. It allocates nothing. */
STUN_TYPES_NODISCARD STUN_TYPES_NONNULL((1, 4, 9))
stun_types_answer stun_types_ice_lite_datagram(stun_types_ice_lite *agent, uint64_t now, uint32_t base,
                                               const stun_types_address *from, const uint8_t *datagram,
                                               size_t length, uint8_t *out, size_t size,
                                               stun_types_ice_received *received);

/* Returns true, and where data of a component goes now. False, and zeros: no pair is selected, or no check on
   it was accepted within the last 30 seconds, or there is no agent; data must not be sent. Call it for each
   datagram, or for each batch. It allocates nothing. */
STUN_TYPES_NODISCARD STUN_TYPES_NONNULL((1, 4))
bool stun_types_ice_lite_route(stun_types_ice_lite *agent, uint64_t now, uint16_t component,
                               stun_types_ice_path *path);

/* ---- Candidates as lines of text (RFC 8839, section 5.1) ---------------------------------------- */

/* The type of a candidate (RFC 8445, section 5.1.1). */
typedef STUN_TYPES_ENUM(stun_types_ice_candidate_kind) {
    STUN_TYPES_ICE_OTHER_KIND = 0, /* another one, to be ignored */
    STUN_TYPES_ICE_HOST = 1,
    STUN_TYPES_ICE_SERVER_REFLEXIVE = 2,
    STUN_TYPES_ICE_PEER_REFLEXIVE = 3,
    STUN_TYPES_ICE_RELAYED = 4
} stun_types_ice_candidate_kind;

/* A candidate. */
typedef struct {
    uint8_t foundation[32];         /* 1 to 32 letters, digits, + and /, and zeros after them */
    uint16_t foundation_length;     /* how many they are */
    uint16_t component;             /* 1 to 256 */
    uint32_t priority;              /* 1 to 2^31 - 1 */
    stun_types_address address;     /* family 0: a host name, such as a browser's .local name, which is the
                                       fifth word of the line, at this port */
    stun_types_address related;     /* family 0: none, or a host name */
    stun_types_transport transport; /* 0: another one, to be ignored */
    stun_types_ice_candidate_kind kind;
} stun_types_ice_candidate;

/* Reads a candidate from the line of its attribute, with or without a= before it, and without a line break.
   What follows the related address, such as generation or ufrag, is checked, but not reported.
   INVALID_DATA: the line isn't a candidate's. */
STUN_TYPES_NODISCARD STUN_TYPES_NONNULL((3))
stun_types_answer stun_types_ice_candidate_read(const void *line, size_t length,
                                                stun_types_ice_candidate *candidate);

/* Writes the line of a candidate's attribute, without a=, at the start of text, which has size bytes.
   BAD_ARGUMENT: a field is out of range, transport or kind is 0, the family of address is neither 4 nor 6,
   or that of related none of 0, 4 and 6. TOO_SMALL: text has the first size bytes of the line, and *written
   is size; any line fits into 200 bytes. */
STUN_TYPES_NODISCARD STUN_TYPES_NONNULL((1, 4))
stun_types_answer stun_types_ice_candidate_write(const stun_types_ice_candidate *candidate, char *text,
                                                 size_t size, size_t *written);

/* ---- Layout ----------------------------------------------------------------------------------- */

/* A program that lays out a type otherwise than the library (-fshort-enums, -fpack-struct, another
   processor) doesn't compile. */
#if defined(__cplusplus)
#define STUN_TYPES_LAYOUT(name, holds) static_assert(holds, #name)
#elif defined(__STDC_VERSION__) && __STDC_VERSION__ >= 201112L
#define STUN_TYPES_LAYOUT(name, holds) _Static_assert(holds, #name)
#else
#define STUN_TYPES_LAYOUT(name, holds) typedef char stun_types_layout_##name[(holds) ? 1 : -1]
#endif
/* (written by c/abi.py) */
STUN_TYPES_LAYOUT(status_size, sizeof(stun_types_status) == 4);
STUN_TYPES_LAYOUT(class_size, sizeof(stun_types_class) == 4);
STUN_TYPES_LAYOUT(method_size, sizeof(stun_types_method) == 4);
STUN_TYPES_LAYOUT(code_size, sizeof(stun_types_code) == 4);
STUN_TYPES_LAYOUT(password_size, sizeof(stun_types_password) == 4);
STUN_TYPES_LAYOUT(integrity_size, sizeof(stun_types_integrity) == 4);
STUN_TYPES_LAYOUT(protocol_size, sizeof(stun_types_protocol) == 4);
STUN_TYPES_LAYOUT(authentication_kind_size, sizeof(stun_types_authentication_kind) == 4);
STUN_TYPES_LAYOUT(nonce_state_size, sizeof(stun_types_nonce_state) == 4);
STUN_TYPES_LAYOUT(transport_size, sizeof(stun_types_transport) == 4);
STUN_TYPES_LAYOUT(protection_size, sizeof(stun_types_protection) == 4);
STUN_TYPES_LAYOUT(action_kind_size, sizeof(stun_types_action_kind) == 4);
STUN_TYPES_LAYOUT(end_size, sizeof(stun_types_end) == 4);
STUN_TYPES_LAYOUT(received_kind_size, sizeof(stun_types_received_kind) == 4);
STUN_TYPES_LAYOUT(stream_kind_size, sizeof(stun_types_stream_kind) == 4);
STUN_TYPES_LAYOUT(turn_kind_size, sizeof(stun_types_turn_kind) == 4);
STUN_TYPES_LAYOUT(allocation_port_size, sizeof(stun_types_allocation_port) == 4);
STUN_TYPES_LAYOUT(allocation_wish_size, sizeof(stun_types_allocation_wish) == 4);
STUN_TYPES_LAYOUT(allocation_news_size, sizeof(stun_types_allocation_news) == 4);
STUN_TYPES_LAYOUT(allocation_change_kind_size, sizeof(stun_types_allocation_change_kind) == 4);
STUN_TYPES_LAYOUT(allocation_end_size, sizeof(stun_types_allocation_end) == 4);
STUN_TYPES_LAYOUT(ice_role_size, sizeof(stun_types_ice_role) == 4);
STUN_TYPES_LAYOUT(ice_kind_size, sizeof(stun_types_ice_kind) == 4);
STUN_TYPES_LAYOUT(ice_progress_size, sizeof(stun_types_ice_progress) == 4);
STUN_TYPES_LAYOUT(ice_pair_state_size, sizeof(stun_types_ice_pair_state) == 4);
STUN_TYPES_LAYOUT(ice_change_kind_size, sizeof(stun_types_ice_change_kind) == 4);
STUN_TYPES_LAYOUT(ice_candidate_kind_size, sizeof(stun_types_ice_candidate_kind) == 4);
STUN_TYPES_LAYOUT(answer_size, sizeof(stun_types_answer) == 24);
STUN_TYPES_LAYOUT(answer_code, offsetof(stun_types_answer, code) == 0);
STUN_TYPES_LAYOUT(answer_type, offsetof(stun_types_answer, type) == 4);
STUN_TYPES_LAYOUT(answer_expected, offsetof(stun_types_answer, expected) == 8);
STUN_TYPES_LAYOUT(answer_actual, offsetof(stun_types_answer, actual) == 16);
STUN_TYPES_LAYOUT(id_size, sizeof(stun_types_id) == 12);
STUN_TYPES_LAYOUT(id_bytes, offsetof(stun_types_id, bytes) == 0);
STUN_TYPES_LAYOUT(header_size, sizeof(stun_types_header) == 20);
STUN_TYPES_LAYOUT(header_type, offsetof(stun_types_header, type) == 0);
STUN_TYPES_LAYOUT(header_method, offsetof(stun_types_header, method) == 2);
STUN_TYPES_LAYOUT(header_message_class, offsetof(stun_types_header, message_class) == 4);
STUN_TYPES_LAYOUT(header_length, offsetof(stun_types_header, length) == 6);
STUN_TYPES_LAYOUT(header_id, offsetof(stun_types_header, id) == 8);
STUN_TYPES_LAYOUT(attribute_size, sizeof(stun_types_attribute) == 16);
STUN_TYPES_LAYOUT(attribute_value_at, offsetof(stun_types_attribute, value_at) == 0);
STUN_TYPES_LAYOUT(attribute_type, offsetof(stun_types_attribute, type) == 8);
STUN_TYPES_LAYOUT(attribute_length, offsetof(stun_types_attribute, length) == 10);
STUN_TYPES_LAYOUT(cursor_size, sizeof(stun_types_cursor) == 40);
STUN_TYPES_LAYOUT(cursor_index, offsetof(stun_types_cursor, index) == 0);
STUN_TYPES_LAYOUT(cursor_offset, offsetof(stun_types_cursor, offset) == 8);
STUN_TYPES_LAYOUT(cursor_length, offsetof(stun_types_cursor, length) == 16);
STUN_TYPES_LAYOUT(cursor_id_begin, offsetof(stun_types_cursor, id_begin) == 24);
STUN_TYPES_LAYOUT(cursor_id_end, offsetof(stun_types_cursor, id_end) == 32);
STUN_TYPES_LAYOUT(cursor_last, offsetof(stun_types_cursor, last) == 36);
STUN_TYPES_LAYOUT(cursor_reserved, offsetof(stun_types_cursor, reserved) == 38);
STUN_TYPES_LAYOUT(address_size, sizeof(stun_types_address) == 20);
STUN_TYPES_LAYOUT(address_octets, offsetof(stun_types_address, octets) == 0);
STUN_TYPES_LAYOUT(address_port, offsetof(stun_types_address, port) == 16);
STUN_TYPES_LAYOUT(address_family, offsetof(stun_types_address, family) == 18);
STUN_TYPES_LAYOUT(key_size, sizeof(stun_types_key) == 16);
STUN_TYPES_LAYOUT(key_at, offsetof(stun_types_key, at) == 0);
STUN_TYPES_LAYOUT(key_held, offsetof(stun_types_key, held) == 8);
STUN_TYPES_LAYOUT(hash_size, sizeof(stun_types_hash) == 32);
STUN_TYPES_LAYOUT(hash_bytes, offsetof(stun_types_hash, bytes) == 0);
STUN_TYPES_LAYOUT(policy_size, sizeof(stun_types_policy) == 16);
STUN_TYPES_LAYOUT(policy_algorithm, offsetof(stun_types_policy, algorithm) == 0);
STUN_TYPES_LAYOUT(policy_min_hmac_length, offsetof(stun_types_policy, min_hmac_length) == 4);
STUN_TYPES_LAYOUT(policy_fingerprint, offsetof(stun_types_policy, fingerprint) == 8);
STUN_TYPES_LAYOUT(policy_reserved, offsetof(stun_types_policy, reserved) == 12);
STUN_TYPES_LAYOUT(validated_size, sizeof(stun_types_validated) == 16);
STUN_TYPES_LAYOUT(validated_algorithm, offsetof(stun_types_validated, algorithm) == 0);
STUN_TYPES_LAYOUT(validated_hmac_length, offsetof(stun_types_validated, hmac_length) == 4);
STUN_TYPES_LAYOUT(validated_reserved, offsetof(stun_types_validated, reserved) == 8);
STUN_TYPES_LAYOUT(covered_size, sizeof(stun_types_covered) == 16);
STUN_TYPES_LAYOUT(covered_algorithm, offsetof(stun_types_covered, algorithm) == 0);
STUN_TYPES_LAYOUT(covered_first, offsetof(stun_types_covered, first) == 4);
STUN_TYPES_LAYOUT(covered_length, offsetof(stun_types_covered, length) == 8);
STUN_TYPES_LAYOUT(hmac_size, sizeof(stun_types_hmac) == 36);
STUN_TYPES_LAYOUT(hmac_algorithm, offsetof(stun_types_hmac, algorithm) == 0);
STUN_TYPES_LAYOUT(hmac_bytes, offsetof(stun_types_hmac, bytes) == 4);
STUN_TYPES_LAYOUT(authentication_size, sizeof(stun_types_authentication) == 24);
STUN_TYPES_LAYOUT(authentication_kind, offsetof(stun_types_authentication, kind) == 0);
STUN_TYPES_LAYOUT(authentication_error_code, offsetof(stun_types_authentication, error_code) == 4);
STUN_TYPES_LAYOUT(authentication_algorithm, offsetof(stun_types_authentication, algorithm) == 8);
STUN_TYPES_LAYOUT(authentication_reply_algorithm, offsetof(stun_types_authentication, reply_algorithm) == 12);
STUN_TYPES_LAYOUT(authentication_password_algorithm, offsetof(stun_types_authentication, password_algorithm) == 16);
STUN_TYPES_LAYOUT(authentication_reserved, offsetof(stun_types_authentication, reserved) == 20);
STUN_TYPES_LAYOUT(asked_size, sizeof(stun_types_asked) == 56);
STUN_TYPES_LAYOUT(asked_realm, offsetof(stun_types_asked, realm) == 0);
STUN_TYPES_LAYOUT(asked_realm_length, offsetof(stun_types_asked, realm_length) == 8);
STUN_TYPES_LAYOUT(asked_nonce, offsetof(stun_types_asked, nonce) == 16);
STUN_TYPES_LAYOUT(asked_nonce_length, offsetof(stun_types_asked, nonce_length) == 24);
STUN_TYPES_LAYOUT(asked_algorithms, offsetof(stun_types_asked, algorithms) == 32);
STUN_TYPES_LAYOUT(asked_algorithms_count, offsetof(stun_types_asked, algorithms_count) == 40);
STUN_TYPES_LAYOUT(asked_reserved, offsetof(stun_types_asked, reserved) == 48);
STUN_TYPES_LAYOUT(cookie_size, sizeof(stun_types_cookie) == 13);
STUN_TYPES_LAYOUT(cookie_bytes, offsetof(stun_types_cookie, bytes) == 0);
STUN_TYPES_LAYOUT(schedule_size, sizeof(stun_types_schedule) == 40);
STUN_TYPES_LAYOUT(schedule_rto, offsetof(stun_types_schedule, rto) == 0);
STUN_TYPES_LAYOUT(schedule_reliable_wait, offsetof(stun_types_schedule, reliable_wait) == 8);
STUN_TYPES_LAYOUT(schedule_requests, offsetof(stun_types_schedule, requests) == 16);
STUN_TYPES_LAYOUT(schedule_last_wait, offsetof(stun_types_schedule, last_wait) == 20);
STUN_TYPES_LAYOUT(schedule_min_hmac_length, offsetof(stun_types_schedule, min_hmac_length) == 24);
STUN_TYPES_LAYOUT(schedule_fingerprint, offsetof(stun_types_schedule, fingerprint) == 28);
STUN_TYPES_LAYOUT(schedule_reserved, offsetof(stun_types_schedule, reserved) == 32);
STUN_TYPES_LAYOUT(transaction_size, sizeof(stun_types_transaction) == 88);
STUN_TYPES_LAYOUT(transaction_schedule, offsetof(stun_types_transaction, schedule) == 0);
STUN_TYPES_LAYOUT(transaction_last, offsetof(stun_types_transaction, last) == 40);
STUN_TYPES_LAYOUT(transaction_clock, offsetof(stun_types_transaction, clock) == 48);
STUN_TYPES_LAYOUT(transaction_id, offsetof(stun_types_transaction, id) == 56);
STUN_TYPES_LAYOUT(transaction_sent, offsetof(stun_types_transaction, sent) == 68);
STUN_TYPES_LAYOUT(transaction_method, offsetof(stun_types_transaction, method) == 72);
STUN_TYPES_LAYOUT(transaction_transport, offsetof(stun_types_transaction, transport) == 74);
STUN_TYPES_LAYOUT(transaction_protection, offsetof(stun_types_transaction, protection) == 75);
STUN_TYPES_LAYOUT(transaction_signed_by, offsetof(stun_types_transaction, signed_by) == 76);
STUN_TYPES_LAYOUT(transaction_violated, offsetof(stun_types_transaction, violated) == 77);
STUN_TYPES_LAYOUT(transaction_end, offsetof(stun_types_transaction, end) == 78);
STUN_TYPES_LAYOUT(transaction_stopped, offsetof(stun_types_transaction, stopped) == 79);
STUN_TYPES_LAYOUT(transaction_reserved, offsetof(stun_types_transaction, reserved) == 80);
STUN_TYPES_LAYOUT(action_size, sizeof(stun_types_action) == 24);
STUN_TYPES_LAYOUT(action_kind, offsetof(stun_types_action, kind) == 0);
STUN_TYPES_LAYOUT(action_end, offsetof(stun_types_action, end) == 4);
STUN_TYPES_LAYOUT(action_until, offsetof(stun_types_action, until) == 8);
STUN_TYPES_LAYOUT(action_reserved, offsetof(stun_types_action, reserved) == 16);
STUN_TYPES_LAYOUT(received_size, sizeof(stun_types_received) == 16);
STUN_TYPES_LAYOUT(received_kind, offsetof(stun_types_received, kind) == 0);
STUN_TYPES_LAYOUT(received_number, offsetof(stun_types_received, number) == 4);
STUN_TYPES_LAYOUT(received_algorithm, offsetof(stun_types_received, algorithm) == 8);
STUN_TYPES_LAYOUT(received_reserved, offsetof(stun_types_received, reserved) == 12);
STUN_TYPES_LAYOUT(challenge_size, sizeof(stun_types_challenge) == 64);
STUN_TYPES_LAYOUT(challenge_realm_at, offsetof(stun_types_challenge, realm_at) == 0);
STUN_TYPES_LAYOUT(challenge_realm_length, offsetof(stun_types_challenge, realm_length) == 8);
STUN_TYPES_LAYOUT(challenge_nonce_at, offsetof(stun_types_challenge, nonce_at) == 16);
STUN_TYPES_LAYOUT(challenge_nonce_length, offsetof(stun_types_challenge, nonce_length) == 24);
STUN_TYPES_LAYOUT(challenge_algorithms_at, offsetof(stun_types_challenge, algorithms_at) == 32);
STUN_TYPES_LAYOUT(challenge_algorithms_length, offsetof(stun_types_challenge, algorithms_length) == 40);
STUN_TYPES_LAYOUT(challenge_password_algorithm, offsetof(stun_types_challenge, password_algorithm) == 48);
STUN_TYPES_LAYOUT(challenge_anonymous, offsetof(stun_types_challenge, anonymous) == 52);
STUN_TYPES_LAYOUT(challenge_integrity_algorithm, offsetof(stun_types_challenge, integrity_algorithm) == 56);
STUN_TYPES_LAYOUT(challenge_reserved, offsetof(stun_types_challenge, reserved) == 60);
STUN_TYPES_LAYOUT(stream_size, sizeof(stun_types_stream) == 32);
STUN_TYPES_LAYOUT(stream_offset, offsetof(stun_types_stream, offset) == 0);
STUN_TYPES_LAYOUT(stream_pending, offsetof(stun_types_stream, pending) == 8);
STUN_TYPES_LAYOUT(stream_message, offsetof(stun_types_stream, message) == 16);
STUN_TYPES_LAYOUT(stream_carries, offsetof(stun_types_stream, carries) == 24);
STUN_TYPES_LAYOUT(stream_reserved, offsetof(stun_types_stream, reserved) == 28);
STUN_TYPES_LAYOUT(channel_data_size, sizeof(stun_types_channel_data) == 16);
STUN_TYPES_LAYOUT(channel_data_data_at, offsetof(stun_types_channel_data, data_at) == 0);
STUN_TYPES_LAYOUT(channel_data_channel, offsetof(stun_types_channel_data, channel) == 8);
STUN_TYPES_LAYOUT(channel_data_length, offsetof(stun_types_channel_data, length) == 10);
STUN_TYPES_LAYOUT(turn_size, sizeof(stun_types_turn) == 16);
STUN_TYPES_LAYOUT(turn_at, offsetof(stun_types_turn, at) == 0);
STUN_TYPES_LAYOUT(turn_held, offsetof(stun_types_turn, held) == 8);
STUN_TYPES_LAYOUT(prefix_size, sizeof(stun_types_prefix) == 26);
STUN_TYPES_LAYOUT(prefix_address, offsetof(stun_types_prefix, address) == 0);
STUN_TYPES_LAYOUT(prefix_length, offsetof(stun_types_prefix, length) == 20);
STUN_TYPES_LAYOUT(prefix_first_port, offsetof(stun_types_prefix, first_port) == 22);
STUN_TYPES_LAYOUT(prefix_last_port, offsetof(stun_types_prefix, last_port) == 24);
STUN_TYPES_LAYOUT(turn_limits_size, sizeof(stun_types_turn_limits) == 28);
STUN_TYPES_LAYOUT(turn_limits_relays, offsetof(stun_types_turn_limits, relays) == 0);
STUN_TYPES_LAYOUT(turn_limits_relays_per_user, offsetof(stun_types_turn_limits, relays_per_user) == 4);
STUN_TYPES_LAYOUT(turn_limits_reservations, offsetof(stun_types_turn_limits, reservations) == 8);
STUN_TYPES_LAYOUT(turn_limits_greatest_lifetime, offsetof(stun_types_turn_limits, greatest_lifetime) == 12);
STUN_TYPES_LAYOUT(turn_limits_ipv4, offsetof(stun_types_turn_limits, ipv4) == 16);
STUN_TYPES_LAYOUT(turn_limits_ipv6, offsetof(stun_types_turn_limits, ipv6) == 18);
STUN_TYPES_LAYOUT(turn_limits_dont_fragment, offsetof(stun_types_turn_limits, dont_fragment) == 20);
STUN_TYPES_LAYOUT(turn_limits_icmp, offsetof(stun_types_turn_limits, icmp) == 22);
STUN_TYPES_LAYOUT(turn_limits_channel_permits, offsetof(stun_types_turn_limits, channel_permits) == 24);
STUN_TYPES_LAYOUT(turn_limits_old_channels, offsetof(stun_types_turn_limits, old_channels) == 26);
STUN_TYPES_LAYOUT(turn_settings_size, sizeof(stun_types_turn_settings) == 160);
STUN_TYPES_LAYOUT(turn_settings_window, offsetof(stun_types_turn_settings, window) == 0);
STUN_TYPES_LAYOUT(turn_settings_seed, offsetof(stun_types_turn_settings, seed) == 8);
STUN_TYPES_LAYOUT(turn_settings_policy, offsetof(stun_types_turn_settings, policy) == 24);
STUN_TYPES_LAYOUT(turn_settings_limits, offsetof(stun_types_turn_settings, limits) == 40);
STUN_TYPES_LAYOUT(turn_settings_features, offsetof(stun_types_turn_settings, features) == 68);
STUN_TYPES_LAYOUT(turn_settings_realm, offsetof(stun_types_turn_settings, realm) == 72);
STUN_TYPES_LAYOUT(turn_settings_realm_length, offsetof(stun_types_turn_settings, realm_length) == 80);
STUN_TYPES_LAYOUT(turn_settings_software, offsetof(stun_types_turn_settings, software) == 88);
STUN_TYPES_LAYOUT(turn_settings_software_length, offsetof(stun_types_turn_settings, software_length) == 96);
STUN_TYPES_LAYOUT(turn_settings_denied, offsetof(stun_types_turn_settings, denied) == 104);
STUN_TYPES_LAYOUT(turn_settings_denied_count, offsetof(stun_types_turn_settings, denied_count) == 112);
STUN_TYPES_LAYOUT(turn_settings_allowed, offsetof(stun_types_turn_settings, allowed) == 120);
STUN_TYPES_LAYOUT(turn_settings_allowed_count, offsetof(stun_types_turn_settings, allowed_count) == 128);
STUN_TYPES_LAYOUT(turn_settings_listening, offsetof(stun_types_turn_settings, listening) == 136);
STUN_TYPES_LAYOUT(turn_settings_listening_count, offsetof(stun_types_turn_settings, listening_count) == 144);
STUN_TYPES_LAYOUT(turn_settings_reserved, offsetof(stun_types_turn_settings, reserved) == 152);
STUN_TYPES_LAYOUT(five_tuple_size, sizeof(stun_types_five_tuple) == 42);
STUN_TYPES_LAYOUT(five_tuple_client, offsetof(stun_types_five_tuple, client) == 0);
STUN_TYPES_LAYOUT(five_tuple_server, offsetof(stun_types_five_tuple, server) == 20);
STUN_TYPES_LAYOUT(five_tuple_stream, offsetof(stun_types_five_tuple, stream) == 40);
STUN_TYPES_LAYOUT(turn_ready_size, sizeof(stun_types_turn_ready) == 120);
STUN_TYPES_LAYOUT(turn_ready_any_ipv4, offsetof(stun_types_turn_ready, any_ipv4) == 0);
STUN_TYPES_LAYOUT(turn_ready_even_ipv4, offsetof(stun_types_turn_ready, even_ipv4) == 20);
STUN_TYPES_LAYOUT(turn_ready_any_ipv6, offsetof(stun_types_turn_ready, any_ipv6) == 40);
STUN_TYPES_LAYOUT(turn_ready_even_ipv6, offsetof(stun_types_turn_ready, even_ipv6) == 60);
STUN_TYPES_LAYOUT(turn_ready_next_ipv4, offsetof(stun_types_turn_ready, next_ipv4) == 80);
STUN_TYPES_LAYOUT(turn_ready_next_ipv6, offsetof(stun_types_turn_ready, next_ipv6) == 100);
STUN_TYPES_LAYOUT(turn_datagram_size, sizeof(stun_types_turn_datagram) == 192);
STUN_TYPES_LAYOUT(turn_datagram_bytes, offsetof(stun_types_turn_datagram, bytes) == 0);
STUN_TYPES_LAYOUT(turn_datagram_length, offsetof(stun_types_turn_datagram, length) == 8);
STUN_TYPES_LAYOUT(turn_datagram_from, offsetof(stun_types_turn_datagram, from) == 16);
STUN_TYPES_LAYOUT(turn_datagram_ready, offsetof(stun_types_turn_datagram, ready) == 58);
STUN_TYPES_LAYOUT(turn_datagram_looked_up, offsetof(stun_types_turn_datagram, looked_up) == 178);
STUN_TYPES_LAYOUT(turn_datagram_reserved, offsetof(stun_types_turn_datagram, reserved) == 180);
STUN_TYPES_LAYOUT(turn_datagram_token, offsetof(stun_types_turn_datagram, token) == 184);
STUN_TYPES_LAYOUT(turn_opened_size, sizeof(stun_types_turn_opened) == 32);
STUN_TYPES_LAYOUT(turn_opened_relay, offsetof(stun_types_turn_opened, relay) == 0);
STUN_TYPES_LAYOUT(turn_opened_relayed, offsetof(stun_types_turn_opened, relayed) == 8);
STUN_TYPES_LAYOUT(turn_opened_took, offsetof(stun_types_turn_opened, took) == 28);
STUN_TYPES_LAYOUT(turn_action_size, sizeof(stun_types_turn_action) == 152);
STUN_TYPES_LAYOUT(turn_action_relay, offsetof(stun_types_turn_action, relay) == 0);
STUN_TYPES_LAYOUT(turn_action_at, offsetof(stun_types_turn_action, at) == 8);
STUN_TYPES_LAYOUT(turn_action_length, offsetof(stun_types_turn_action, length) == 16);
STUN_TYPES_LAYOUT(turn_action_ended, offsetof(stun_types_turn_action, ended) == 24);
STUN_TYPES_LAYOUT(turn_action_ipv4, offsetof(stun_types_turn_action, ipv4) == 32);
STUN_TYPES_LAYOUT(turn_action_ipv6, offsetof(stun_types_turn_action, ipv6) == 64);
STUN_TYPES_LAYOUT(turn_action_peer, offsetof(stun_types_turn_action, peer) == 96);
STUN_TYPES_LAYOUT(turn_action_kind, offsetof(stun_types_turn_action, kind) == 116);
STUN_TYPES_LAYOUT(turn_action_code, offsetof(stun_types_turn_action, code) == 120);
STUN_TYPES_LAYOUT(turn_action_dont_fragment, offsetof(stun_types_turn_action, dont_fragment) == 124);
STUN_TYPES_LAYOUT(turn_action_reserved, offsetof(stun_types_turn_action, reserved) == 128);
STUN_TYPES_LAYOUT(turn_action_claimed, offsetof(stun_types_turn_action, claimed) == 136);
STUN_TYPES_LAYOUT(turn_action_reserves, offsetof(stun_types_turn_action, reserves) == 144);
STUN_TYPES_LAYOUT(turn_action_claims, offsetof(stun_types_turn_action, claims) == 148);
STUN_TYPES_LAYOUT(turn_delivery_size, sizeof(stun_types_turn_delivery) == 56);
STUN_TYPES_LAYOUT(turn_delivery_to, offsetof(stun_types_turn_delivery, to) == 0);
STUN_TYPES_LAYOUT(turn_delivery_sends, offsetof(stun_types_turn_delivery, sends) == 42);
STUN_TYPES_LAYOUT(turn_delivery_head_length, offsetof(stun_types_turn_delivery, head_length) == 44);
STUN_TYPES_LAYOUT(turn_delivery_padding, offsetof(stun_types_turn_delivery, padding) == 46);
STUN_TYPES_LAYOUT(turn_delivery_ended, offsetof(stun_types_turn_delivery, ended) == 48);
STUN_TYPES_LAYOUT(icmp_size, sizeof(stun_types_icmp) == 8);
STUN_TYPES_LAYOUT(icmp_data, offsetof(stun_types_icmp, data) == 0);
STUN_TYPES_LAYOUT(icmp_icmp_type, offsetof(stun_types_icmp, icmp_type) == 4);
STUN_TYPES_LAYOUT(icmp_code, offsetof(stun_types_icmp, code) == 5);
STUN_TYPES_LAYOUT(turn_notice_size, sizeof(stun_types_turn_notice) == 64);
STUN_TYPES_LAYOUT(turn_notice_to, offsetof(stun_types_turn_notice, to) == 0);
STUN_TYPES_LAYOUT(turn_notice_sends, offsetof(stun_types_turn_notice, sends) == 42);
STUN_TYPES_LAYOUT(turn_notice_length, offsetof(stun_types_turn_notice, length) == 48);
STUN_TYPES_LAYOUT(turn_notice_ended, offsetof(stun_types_turn_notice, ended) == 56);
STUN_TYPES_LAYOUT(ip_fields_size, sizeof(stun_types_ip_fields) == 8);
STUN_TYPES_LAYOUT(ip_fields_hop_limit, offsetof(stun_types_ip_fields, hop_limit) == 0);
STUN_TYPES_LAYOUT(ip_fields_dscp, offsetof(stun_types_ip_fields, dscp) == 2);
STUN_TYPES_LAYOUT(ip_fields_ecn, offsetof(stun_types_ip_fields, ecn) == 4);
STUN_TYPES_LAYOUT(ip_fields_dont_fragment, offsetof(stun_types_ip_fields, dont_fragment) == 6);
STUN_TYPES_LAYOUT(turn_relayed_size, sizeof(stun_types_turn_relayed) == 24);
STUN_TYPES_LAYOUT(turn_relayed_length, offsetof(stun_types_turn_relayed, length) == 0);
STUN_TYPES_LAYOUT(turn_relayed_stream, offsetof(stun_types_turn_relayed, stream) == 8);
STUN_TYPES_LAYOUT(turn_relayed_from, offsetof(stun_types_turn_relayed, from) == 10);
STUN_TYPES_LAYOUT(turn_relayed_to, offsetof(stun_types_turn_relayed, to) == 12);
STUN_TYPES_LAYOUT(turn_relayed_dont_fragment, offsetof(stun_types_turn_relayed, dont_fragment) == 14);
STUN_TYPES_LAYOUT(turn_relayed_received, offsetof(stun_types_turn_relayed, received) == 16);
STUN_TYPES_LAYOUT(turn_sent_size, sizeof(stun_types_turn_sent) == 10);
STUN_TYPES_LAYOUT(turn_sent_fields, offsetof(stun_types_turn_sent, fields) == 0);
STUN_TYPES_LAYOUT(turn_sent_sends, offsetof(stun_types_turn_sent, sends) == 8);
STUN_TYPES_LAYOUT(flow_size, sizeof(stun_types_flow) == 40);
STUN_TYPES_LAYOUT(flow_relay, offsetof(stun_types_flow, relay) == 0);
STUN_TYPES_LAYOUT(flow_expires_at, offsetof(stun_types_flow, expires_at) == 8);
STUN_TYPES_LAYOUT(flow_peer, offsetof(stun_types_flow, peer) == 16);
STUN_TYPES_LAYOUT(allocation_size, sizeof(stun_types_allocation) == 16);
STUN_TYPES_LAYOUT(allocation_at, offsetof(stun_types_allocation, at) == 0);
STUN_TYPES_LAYOUT(allocation_held, offsetof(stun_types_allocation, held) == 8);
STUN_TYPES_LAYOUT(allocation_settings_size, sizeof(stun_types_allocation_settings) == 120);
STUN_TYPES_LAYOUT(allocation_settings_server, offsetof(stun_types_allocation_settings, server) == 0);
STUN_TYPES_LAYOUT(allocation_settings_transport, offsetof(stun_types_allocation_settings, transport) == 20);
STUN_TYPES_LAYOUT(allocation_settings_user, offsetof(stun_types_allocation_settings, user) == 24);
STUN_TYPES_LAYOUT(allocation_settings_user_length, offsetof(stun_types_allocation_settings, user_length) == 32);
STUN_TYPES_LAYOUT(allocation_settings_password, offsetof(stun_types_allocation_settings, password) == 40);
STUN_TYPES_LAYOUT(allocation_settings_password_length, offsetof(stun_types_allocation_settings, password_length) == 48);
STUN_TYPES_LAYOUT(allocation_settings_software, offsetof(stun_types_allocation_settings, software) == 56);
STUN_TYPES_LAYOUT(allocation_settings_software_length, offsetof(stun_types_allocation_settings, software_length) == 64);
STUN_TYPES_LAYOUT(allocation_settings_lifetime, offsetof(stun_types_allocation_settings, lifetime) == 72);
STUN_TYPES_LAYOUT(allocation_settings_peers, offsetof(stun_types_allocation_settings, peers) == 76);
STUN_TYPES_LAYOUT(allocation_settings_rto, offsetof(stun_types_allocation_settings, rto) == 80);
STUN_TYPES_LAYOUT(allocation_settings_last_wait, offsetof(stun_types_allocation_settings, last_wait) == 84);
STUN_TYPES_LAYOUT(allocation_settings_sends, offsetof(stun_types_allocation_settings, sends) == 88);
STUN_TYPES_LAYOUT(allocation_settings_retries, offsetof(stun_types_allocation_settings, retries) == 92);
STUN_TYPES_LAYOUT(allocation_settings_algorithm, offsetof(stun_types_allocation_settings, algorithm) == 96);
STUN_TYPES_LAYOUT(allocation_settings_family, offsetof(stun_types_allocation_settings, family) == 100);
STUN_TYPES_LAYOUT(allocation_settings_fingerprint, offsetof(stun_types_allocation_settings, fingerprint) == 102);
STUN_TYPES_LAYOUT(allocation_settings_named, offsetof(stun_types_allocation_settings, named) == 104);
STUN_TYPES_LAYOUT(allocation_settings_port, offsetof(stun_types_allocation_settings, port) == 108);
STUN_TYPES_LAYOUT(allocation_settings_dont_fragment, offsetof(stun_types_allocation_settings, dont_fragment) == 110);
STUN_TYPES_LAYOUT(allocation_settings_token, offsetof(stun_types_allocation_settings, token) == 112);
STUN_TYPES_LAYOUT(allocation_data_size, sizeof(stun_types_allocation_data) == 56);
STUN_TYPES_LAYOUT(allocation_data_at, offsetof(stun_types_allocation_data, at) == 0);
STUN_TYPES_LAYOUT(allocation_data_length, offsetof(stun_types_allocation_data, length) == 8);
STUN_TYPES_LAYOUT(allocation_data_peer, offsetof(stun_types_allocation_data, peer) == 16);
STUN_TYPES_LAYOUT(allocation_data_shown, offsetof(stun_types_allocation_data, shown) == 36);
STUN_TYPES_LAYOUT(allocation_data_token, offsetof(stun_types_allocation_data, token) == 40);
STUN_TYPES_LAYOUT(allocation_data_icmp_data, offsetof(stun_types_allocation_data, icmp_data) == 48);
STUN_TYPES_LAYOUT(allocation_data_icmp_type, offsetof(stun_types_allocation_data, icmp_type) == 52);
STUN_TYPES_LAYOUT(allocation_data_icmp_code, offsetof(stun_types_allocation_data, icmp_code) == 53);
STUN_TYPES_LAYOUT(allocation_data_reserved, offsetof(stun_types_allocation_data, reserved) == 54);
STUN_TYPES_LAYOUT(allocation_head_size, sizeof(stun_types_allocation_head) == 24);
STUN_TYPES_LAYOUT(allocation_head_length, offsetof(stun_types_allocation_head, length) == 0);
STUN_TYPES_LAYOUT(allocation_head_padding, offsetof(stun_types_allocation_head, padding) == 8);
STUN_TYPES_LAYOUT(allocation_head_sends, offsetof(stun_types_allocation_head, sends) == 16);
STUN_TYPES_LAYOUT(allocation_head_reserved, offsetof(stun_types_allocation_head, reserved) == 20);
STUN_TYPES_LAYOUT(allocation_change_size, sizeof(stun_types_allocation_change) == 120);
STUN_TYPES_LAYOUT(allocation_change_until, offsetof(stun_types_allocation_change, until) == 0);
STUN_TYPES_LAYOUT(allocation_change_channel_until, offsetof(stun_types_allocation_change, channel_until) == 8);
STUN_TYPES_LAYOUT(allocation_change_kind, offsetof(stun_types_allocation_change, kind) == 16);
STUN_TYPES_LAYOUT(allocation_change_why, offsetof(stun_types_allocation_change, why) == 20);
STUN_TYPES_LAYOUT(allocation_change_relayed, offsetof(stun_types_allocation_change, relayed) == 24);
STUN_TYPES_LAYOUT(allocation_change_mapped, offsetof(stun_types_allocation_change, mapped) == 44);
STUN_TYPES_LAYOUT(allocation_change_peer, offsetof(stun_types_allocation_change, peer) == 64);
STUN_TYPES_LAYOUT(allocation_change_server, offsetof(stun_types_allocation_change, server) == 84);
STUN_TYPES_LAYOUT(allocation_change_channel, offsetof(stun_types_allocation_change, channel) == 104);
STUN_TYPES_LAYOUT(allocation_change_code, offsetof(stun_types_allocation_change, code) == 106);
STUN_TYPES_LAYOUT(allocation_change_wants, offsetof(stun_types_allocation_change, wants) == 108);
STUN_TYPES_LAYOUT(allocation_change_violated, offsetof(stun_types_allocation_change, violated) == 110);
STUN_TYPES_LAYOUT(allocation_change_rest, offsetof(stun_types_allocation_change, rest) == 112);
STUN_TYPES_LAYOUT(allocation_change_reserved, offsetof(stun_types_allocation_change, reserved) == 116);
STUN_TYPES_LAYOUT(allocation_attempt_size, sizeof(stun_types_allocation_attempt) == 84);
STUN_TYPES_LAYOUT(allocation_attempt_server, offsetof(stun_types_allocation_attempt, server) == 0);
STUN_TYPES_LAYOUT(allocation_attempt_before, offsetof(stun_types_allocation_attempt, before) == 20);
STUN_TYPES_LAYOUT(allocation_attempt_tries, offsetof(stun_types_allocation_attempt, tries) == 80);
STUN_TYPES_LAYOUT(allocation_attempt_servers, offsetof(stun_types_allocation_attempt, servers) == 82);
STUN_TYPES_LAYOUT(ice_size, sizeof(stun_types_ice) == 16);
STUN_TYPES_LAYOUT(ice_at, offsetof(stun_types_ice, at) == 0);
STUN_TYPES_LAYOUT(ice_held, offsetof(stun_types_ice, held) == 8);
STUN_TYPES_LAYOUT(ice_settings_size, sizeof(stun_types_ice_settings) == 96);
STUN_TYPES_LAYOUT(ice_settings_ufrag, offsetof(stun_types_ice_settings, ufrag) == 0);
STUN_TYPES_LAYOUT(ice_settings_ufrag_length, offsetof(stun_types_ice_settings, ufrag_length) == 8);
STUN_TYPES_LAYOUT(ice_settings_password, offsetof(stun_types_ice_settings, password) == 16);
STUN_TYPES_LAYOUT(ice_settings_password_length, offsetof(stun_types_ice_settings, password_length) == 24);
STUN_TYPES_LAYOUT(ice_settings_software, offsetof(stun_types_ice_settings, software) == 32);
STUN_TYPES_LAYOUT(ice_settings_software_length, offsetof(stun_types_ice_settings, software_length) == 40);
STUN_TYPES_LAYOUT(ice_settings_tiebreaker, offsetof(stun_types_ice_settings, tiebreaker) == 48);
STUN_TYPES_LAYOUT(ice_settings_role, offsetof(stun_types_ice_settings, role) == 56);
STUN_TYPES_LAYOUT(ice_settings_pairs, offsetof(stun_types_ice_settings, pairs) == 60);
STUN_TYPES_LAYOUT(ice_settings_candidates, offsetof(stun_types_ice_settings, candidates) == 64);
STUN_TYPES_LAYOUT(ice_settings_requests, offsetof(stun_types_ice_settings, requests) == 68);
STUN_TYPES_LAYOUT(ice_settings_ta, offsetof(stun_types_ice_settings, ta) == 72);
STUN_TYPES_LAYOUT(ice_settings_rto, offsetof(stun_types_ice_settings, rto) == 76);
STUN_TYPES_LAYOUT(ice_settings_patience, offsetof(stun_types_ice_settings, patience) == 80);
STUN_TYPES_LAYOUT(ice_settings_tries, offsetof(stun_types_ice_settings, tries) == 84);
STUN_TYPES_LAYOUT(ice_settings_reserved, offsetof(stun_types_ice_settings, reserved) == 88);
STUN_TYPES_LAYOUT(ice_base_size, sizeof(stun_types_ice_base) == 24);
STUN_TYPES_LAYOUT(ice_base_number, offsetof(stun_types_ice_base, number) == 0);
STUN_TYPES_LAYOUT(ice_base_foundation, offsetof(stun_types_ice_base, foundation) == 4);
STUN_TYPES_LAYOUT(ice_base_priority, offsetof(stun_types_ice_base, priority) == 8);
STUN_TYPES_LAYOUT(ice_base_reflexive_priority, offsetof(stun_types_ice_base, reflexive_priority) == 12);
STUN_TYPES_LAYOUT(ice_base_component, offsetof(stun_types_ice_base, component) == 16);
STUN_TYPES_LAYOUT(ice_base_family, offsetof(stun_types_ice_base, family) == 18);
STUN_TYPES_LAYOUT(ice_base_link_local, offsetof(stun_types_ice_base, link_local) == 20);
STUN_TYPES_LAYOUT(ice_base_reserved, offsetof(stun_types_ice_base, reserved) == 22);
STUN_TYPES_LAYOUT(ice_remote_size, sizeof(stun_types_ice_remote) == 32);
STUN_TYPES_LAYOUT(ice_remote_address, offsetof(stun_types_ice_remote, address) == 0);
STUN_TYPES_LAYOUT(ice_remote_foundation, offsetof(stun_types_ice_remote, foundation) == 20);
STUN_TYPES_LAYOUT(ice_remote_priority, offsetof(stun_types_ice_remote, priority) == 24);
STUN_TYPES_LAYOUT(ice_remote_component, offsetof(stun_types_ice_remote, component) == 28);
STUN_TYPES_LAYOUT(ice_remote_reserved, offsetof(stun_types_ice_remote, reserved) == 30);
STUN_TYPES_LAYOUT(ice_received_size, sizeof(stun_types_ice_received) == 16);
STUN_TYPES_LAYOUT(ice_received_length, offsetof(stun_types_ice_received, length) == 0);
STUN_TYPES_LAYOUT(ice_received_kind, offsetof(stun_types_ice_received, kind) == 8);
STUN_TYPES_LAYOUT(ice_received_component, offsetof(stun_types_ice_received, component) == 12);
STUN_TYPES_LAYOUT(ice_received_reserved, offsetof(stun_types_ice_received, reserved) == 14);
STUN_TYPES_LAYOUT(ice_request_size, sizeof(stun_types_ice_request) == 32);
STUN_TYPES_LAYOUT(ice_request_length, offsetof(stun_types_ice_request, length) == 0);
STUN_TYPES_LAYOUT(ice_request_to, offsetof(stun_types_ice_request, to) == 8);
STUN_TYPES_LAYOUT(ice_request_base, offsetof(stun_types_ice_request, base) == 28);
STUN_TYPES_LAYOUT(ice_path_size, sizeof(stun_types_ice_path) == 24);
STUN_TYPES_LAYOUT(ice_path_to, offsetof(stun_types_ice_path, to) == 0);
STUN_TYPES_LAYOUT(ice_path_base, offsetof(stun_types_ice_path, base) == 20);
STUN_TYPES_LAYOUT(ice_standing_size, sizeof(stun_types_ice_standing) == 40);
STUN_TYPES_LAYOUT(ice_standing_path, offsetof(stun_types_ice_standing, path) == 0);
STUN_TYPES_LAYOUT(ice_standing_progress, offsetof(stun_types_ice_standing, progress) == 24);
STUN_TYPES_LAYOUT(ice_standing_role, offsetof(stun_types_ice_standing, role) == 28);
STUN_TYPES_LAYOUT(ice_standing_pairs, offsetof(stun_types_ice_standing, pairs) == 32);
STUN_TYPES_LAYOUT(ice_checked_size, sizeof(stun_types_ice_checked) == 56);
STUN_TYPES_LAYOUT(ice_checked_until, offsetof(stun_types_ice_checked, until) == 0);
STUN_TYPES_LAYOUT(ice_checked_remote, offsetof(stun_types_ice_checked, remote) == 8);
STUN_TYPES_LAYOUT(ice_checked_base, offsetof(stun_types_ice_checked, base) == 28);
STUN_TYPES_LAYOUT(ice_checked_priority, offsetof(stun_types_ice_checked, priority) == 32);
STUN_TYPES_LAYOUT(ice_checked_remote_priority, offsetof(stun_types_ice_checked, remote_priority) == 36);
STUN_TYPES_LAYOUT(ice_checked_state, offsetof(stun_types_ice_checked, state) == 40);
STUN_TYPES_LAYOUT(ice_checked_component, offsetof(stun_types_ice_checked, component) == 44);
STUN_TYPES_LAYOUT(ice_checked_tries, offsetof(stun_types_ice_checked, tries) == 46);
STUN_TYPES_LAYOUT(ice_checked_triggered, offsetof(stun_types_ice_checked, triggered) == 48);
STUN_TYPES_LAYOUT(ice_checked_nominated, offsetof(stun_types_ice_checked, nominated) == 50);
STUN_TYPES_LAYOUT(ice_change_size, sizeof(stun_types_ice_change) == 40);
STUN_TYPES_LAYOUT(ice_change_address, offsetof(stun_types_ice_change, address) == 0);
STUN_TYPES_LAYOUT(ice_change_base, offsetof(stun_types_ice_change, base) == 20);
STUN_TYPES_LAYOUT(ice_change_kind, offsetof(stun_types_ice_change, kind) == 24);
STUN_TYPES_LAYOUT(ice_change_progress, offsetof(stun_types_ice_change, progress) == 28);
STUN_TYPES_LAYOUT(ice_change_role, offsetof(stun_types_ice_change, role) == 32);
STUN_TYPES_LAYOUT(ice_change_component, offsetof(stun_types_ice_change, component) == 36);
STUN_TYPES_LAYOUT(ice_change_reserved, offsetof(stun_types_ice_change, reserved) == 38);
STUN_TYPES_LAYOUT(ice_lite_size, sizeof(stun_types_ice_lite) == 16);
STUN_TYPES_LAYOUT(ice_lite_at, offsetof(stun_types_ice_lite, at) == 0);
STUN_TYPES_LAYOUT(ice_lite_held, offsetof(stun_types_ice_lite, held) == 8);
STUN_TYPES_LAYOUT(ice_lite_base_size, sizeof(stun_types_ice_lite_base) == 8);
STUN_TYPES_LAYOUT(ice_lite_base_number, offsetof(stun_types_ice_lite_base, number) == 0);
STUN_TYPES_LAYOUT(ice_lite_base_component, offsetof(stun_types_ice_lite_base, component) == 4);
STUN_TYPES_LAYOUT(ice_lite_base_reserved, offsetof(stun_types_ice_lite_base, reserved) == 6);
STUN_TYPES_LAYOUT(ice_lite_settings_size, sizeof(stun_types_ice_lite_settings) == 56);
STUN_TYPES_LAYOUT(ice_lite_settings_ufrag, offsetof(stun_types_ice_lite_settings, ufrag) == 0);
STUN_TYPES_LAYOUT(ice_lite_settings_ufrag_length, offsetof(stun_types_ice_lite_settings, ufrag_length) == 8);
STUN_TYPES_LAYOUT(ice_lite_settings_password, offsetof(stun_types_ice_lite_settings, password) == 16);
STUN_TYPES_LAYOUT(ice_lite_settings_password_length, offsetof(stun_types_ice_lite_settings, password_length) == 24);
STUN_TYPES_LAYOUT(ice_lite_settings_bases, offsetof(stun_types_ice_lite_settings, bases) == 32);
STUN_TYPES_LAYOUT(ice_lite_settings_base_count, offsetof(stun_types_ice_lite_settings, base_count) == 40);
STUN_TYPES_LAYOUT(ice_lite_settings_reserved, offsetof(stun_types_ice_lite_settings, reserved) == 48);
STUN_TYPES_LAYOUT(ice_candidate_size, sizeof(stun_types_ice_candidate) == 88);
STUN_TYPES_LAYOUT(ice_candidate_foundation, offsetof(stun_types_ice_candidate, foundation) == 0);
STUN_TYPES_LAYOUT(ice_candidate_foundation_length, offsetof(stun_types_ice_candidate, foundation_length) == 32);
STUN_TYPES_LAYOUT(ice_candidate_component, offsetof(stun_types_ice_candidate, component) == 34);
STUN_TYPES_LAYOUT(ice_candidate_priority, offsetof(stun_types_ice_candidate, priority) == 36);
STUN_TYPES_LAYOUT(ice_candidate_address, offsetof(stun_types_ice_candidate, address) == 40);
STUN_TYPES_LAYOUT(ice_candidate_related, offsetof(stun_types_ice_candidate, related) == 60);
STUN_TYPES_LAYOUT(ice_candidate_transport, offsetof(stun_types_ice_candidate, transport) == 80);
STUN_TYPES_LAYOUT(ice_candidate_kind, offsetof(stun_types_ice_candidate, kind) == 84);
/* (until here) */
#undef STUN_TYPES_LAYOUT

#ifdef __cplusplus
}
#endif
#endif
