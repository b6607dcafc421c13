/* The attribute types that have a name: what their values are, and of a number how many bytes it has
   and how many ignored ones follow it, 0 of any other value. The last ones end a message.
   .ci/numbers --write makes this of vectors/numbers. */
#ifndef KNOWN_H
#define KNOWN_H

#include <stdint.h>

typedef enum { NOTHING, ENDING, NUMBER, ADDRESS, XOR_ADDRESS, ERROR, ADDRESS_ERROR, TYPES } value_kind;

typedef struct {
    uint16_t type;
    value_kind kind;
    unsigned width, zeros;
} known_type;

static const known_type KNOWN[] = {
    {0x0001, ADDRESS, 0, 0}, /* MAPPED-ADDRESS */
    {0x0003, NUMBER, 4, 0}, /* CHANGE-REQUEST */
    {0x0006, NOTHING, 0, 0}, /* USERNAME */
    {0x0009, ERROR, 0, 0}, /* ERROR-CODE */
    {0x000a, TYPES, 0, 0}, /* UNKNOWN-ATTRIBUTES */
    {0x000c, NUMBER, 2, 2}, /* CHANNEL-NUMBER */
    {0x000d, NUMBER, 4, 0}, /* LIFETIME */
    {0x0012, XOR_ADDRESS, 0, 0}, /* XOR-PEER-ADDRESS */
    {0x0013, NOTHING, 0, 0}, /* DATA */
    {0x0014, NOTHING, 0, 0}, /* REALM */
    {0x0015, NOTHING, 0, 0}, /* NONCE */
    {0x0016, XOR_ADDRESS, 0, 0}, /* XOR-RELAYED-ADDRESS */
    {0x0017, NUMBER, 1, 3}, /* REQUESTED-ADDRESS-FAMILY */
    {0x0018, NUMBER, 1, 0}, /* EVEN-PORT */
    {0x0019, NUMBER, 1, 3}, /* REQUESTED-TRANSPORT */
    {0x001a, NOTHING, 0, 0}, /* DONT-FRAGMENT */
    {0x001b, NOTHING, 0, 0}, /* ACCESS-TOKEN */
    {0x001d, NOTHING, 0, 0}, /* PASSWORD-ALGORITHM */
    {0x001e, NOTHING, 0, 0}, /* USERHASH */
    {0x0020, XOR_ADDRESS, 0, 0}, /* XOR-MAPPED-ADDRESS */
    {0x0022, NUMBER, 8, 0}, /* RESERVATION-TOKEN */
    {0x0024, NUMBER, 4, 0}, /* PRIORITY */
    {0x0025, NOTHING, 0, 0}, /* USE-CANDIDATE */
    {0x0026, NOTHING, 0, 0}, /* PADDING */
    {0x0027, NUMBER, 2, 2}, /* RESPONSE-PORT */
    {0x002a, NUMBER, 4, 0}, /* CONNECTION-ID */
    {0x8000, NUMBER, 1, 3}, /* ADDITIONAL-ADDRESS-FAMILY */
    {0x8001, ADDRESS_ERROR, 0, 0}, /* ADDRESS-ERROR-CODE */
    {0x8002, NOTHING, 0, 0}, /* PASSWORD-ALGORITHMS */
    {0x8003, NOTHING, 0, 0}, /* ALTERNATE-DOMAIN */
    {0x8004, NUMBER, 8, 0}, /* ICMP */
    {0x8022, NOTHING, 0, 0}, /* SOFTWARE */
    {0x8023, ADDRESS, 0, 0}, /* ALTERNATE-SERVER */
    {0x8025, NUMBER, 4, 0}, /* TRANSACTION_TRANSMIT_COUNTER */
    {0x8029, NUMBER, 8, 0}, /* ICE-CONTROLLED */
    {0x802a, NUMBER, 8, 0}, /* ICE-CONTROLLING */
    {0x802b, ADDRESS, 0, 0}, /* RESPONSE-ORIGIN */
    {0x802c, ADDRESS, 0, 0}, /* OTHER-ADDRESS */
    {0x802e, NOTHING, 0, 0}, /* THIRD-PARTY-AUTHORIZATION */
    {0x8030, NOTHING, 0, 0}, /* MOBILITY-TICKET */
    {0x0008, ENDING, 0, 0}, /* MESSAGE-INTEGRITY */
    {0x001c, ENDING, 0, 0}, /* MESSAGE-INTEGRITY-SHA256 */
    {0x8028, ENDING, 0, 0}, /* FINGERPRINT */
};
enum { COUNT_OF_KNOWN = 43, COUNT_OF_PLAIN = 40 };

#endif
