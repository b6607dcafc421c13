/* An ICE agent in C, full or lite: making one and ending it, what its calls refuse, and candidates' texts. What it
 * does then is asked by the rows of vectors/ice-agent and vectors/ice-lite. */
#include <string.h>

#include "check.h"
#include "heap.h"
#include "tests.h"

static const stun_types_address somewhere = {{192, 0, 2, 17}, 49152, 4};
static const stun_types_id id;

#define WRONG PLAIN(STUN_TYPES_BAD_ARGUMENT)
#define INVALID PLAIN(STUN_TYPES_INVALID_DATA)

/* Settings with a fragment, a password and a role. */
static stun_types_ice_settings *good_settings(void) {
    stun_types_ice_settings *it = NEW(stun_types_ice_settings);
    const slice fragment = text("evtj"), password = text("VOkJxbRl1RmTxUk/WvJxBt");
    memset(it, 0, sizeof *it);
    it->ufrag = fragment.bytes;
    it->ufrag_length = fragment.length;
    it->password = password.bytes;
    it->password_length = password.length;
    it->role = STUN_TYPES_ICE_CONTROLLING;
    return it;
}

static stun_types_ice *no_agent(void) {
    static const stun_types_ice none = STUN_TYPES_ICE_INIT;
    return (void *)copy(&none, sizeof none);
}

static stun_types_ice *agent_of(const stun_types_ice_settings *settings) {
    stun_types_ice *agent = no_agent();
    heap_allow(true);
    ANSWERS(stun_types_ice_new(agent, settings), OK_ANSWER);
    return agent;
}

static stun_types_ice_base *good_base(void) {
    stun_types_ice_base *it = NEW(stun_types_ice_base);
    memset(it, 0, sizeof *it);
    it->number = 3;
    it->foundation = 1;
    it->priority = 2130706431;
    it->reflexive_priority = 1862270975;
    it->component = 1;
    it->family = 4;
    return it;
}

static stun_types_ice_remote *good_remote(void) {
    stun_types_ice_remote *it = NEW(stun_types_ice_remote);
    memset(it, 0, sizeof *it);
    it->address = somewhere;
    it->foundation = 1;
    it->priority = 2130706431;
    it->component = 1;
    return it;
}

/* ---- a struct that holds no agent */

static void check_no_agent(const char *name, uint8_t byte) {
    stun_types_ice *agent = NEW(stun_types_ice);
    stun_types_ice_received *received = NEW(stun_types_ice_received);
    stun_types_ice_request *request = NEW(stun_types_ice_request);
    stun_types_ice_path *path = NEW(stun_types_ice_path);
    stun_types_ice_standing *standing = NEW(stun_types_ice_standing);
    stun_types_ice_checked *pair = NEW(stun_types_ice_checked);
    stun_types_ice_change *change = NEW(stun_types_ice_change);
    uint64_t *wake = NEW(uint64_t);
    uint8_t *out = room(64);
    const slice bytes = text("a text of 22 characters");
    row("an ICE agent", name);
    memset(agent, byte, sizeof *agent);
    ANSWERS(stun_types_ice_set_peer(agent, 0, bytes.bytes, 4, bytes.bytes, 22), WRONG);
    ANSWERS(stun_types_ice_add_base(agent, 0, good_base()), WRONG);
    ANSWERS(stun_types_ice_add_remote(agent, 0, good_remote()), WRONG);
    ANSWERS(stun_types_ice_add_address(agent, &somewhere), WRONG);
    ANSWERS(stun_types_ice_end_candidates(agent, 0), WRONG);
    ANSWERS(stun_types_ice_datagram(agent, 0, 3, &somewhere, bytes.bytes, bytes.length, 0, out, 64, received),
            WRONG);
    CHECK(is_untouched(out, 64) && is_zero(received, sizeof *received));
    ANSWERS(stun_types_ice_poll(agent, 0, &id, out, 64, request, wake), WRONG);
    CHECK(is_untouched(out, 64) && is_zero(request, sizeof *request) && is_untouched(wake, sizeof *wake));
    CHECK(!stun_types_ice_route(agent, 0, 1, path) && is_zero(path, sizeof *path));
    CHECK(!stun_types_ice_status(agent, 1, standing) && is_zero(standing, sizeof *standing));
    CHECK(!stun_types_ice_pair(agent, 0, pair) && is_zero(pair, sizeof *pair));
    CHECK(!stun_types_ice_changes(agent, change) && is_zero(change, sizeof *change));
    stun_types_ice_free(agent);
    stun_types_ice_free(NULL);
}

/* ---- what it is made by */

static void check_settings(const char *name, const stun_types_ice_settings *settings,
                           stun_types_answer expected) {
    stun_types_ice *agent = no_agent();
    row("what an ICE agent is made by", name);
    heap_allow(true);
    ANSWERS(stun_types_ice_new(agent, settings), expected);
    CHECK((agent->held != 0) == (expected.code == STUN_TYPES_OK));
    stun_types_ice_free(agent);
    CHECK(is_zero(agent, sizeof *agent));
}

#define WITH(name, field, value, expected) \
    do { \
        stun_types_ice_settings *it = good_settings(); \
        it->field = value; \
        check_settings(name, it, expected); \
    } while (0)

static void check_text(const char *name, const void **text_of, size_t *length_of, slice value,
                       stun_types_ice_settings *it, stun_types_answer expected) {
    *text_of = value.bytes;
    *length_of = value.length;
    check_settings(name, it, expected);
}

static void test_settings(void) {
    stun_types_ice_settings *it;
    WITH("nothing but what is needed", reserved, 0, OK_ANSWER);
    WITH("reserved", reserved, 1, WRONG);
    WITH("no role", role, (stun_types_ice_role)0, WRONG);
    WITH("controlled", role, STUN_TYPES_ICE_CONTROLLED, OK_ANSWER);
    WITH("another role", role, (stun_types_ice_role)3, WRONG);
    WITH("4,096 pairs", pairs, 4096, OK_ANSWER);
    WITH("4,097 pairs", pairs, 4097, WRONG);
    WITH("4,096 candidates", candidates, 4096, OK_ANSWER);
    WITH("4,097 candidates", candidates, 4097, WRONG);
    WITH("4,096 requests", requests, 4096, OK_ANSWER);
    WITH("4,097 requests", requests, 4097, WRONG);
    WITH("32 requests of a check", tries, 32, OK_ANSWER);
    WITH("33 requests of a check", tries, 33, WRONG);
    WITH("the longest Ta", ta, UINT32_MAX, OK_ANSWER);
    WITH("the longest wait", rto, UINT32_MAX, OK_ANSWER);
    WITH("the longest patience", patience, UINT32_MAX, OK_ANSWER);
    WITH("no byte of password", password_length, 0, WRONG);
    WITH("a password of 21 characters", password_length, 21, INVALID);
    WITH("a fragment of 3 characters", ufrag_length, 3, INVALID);
    it = good_settings();
    check_text("a fragment of 256", &it->ufrag, &it->ufrag_length, hex("41*256"), it, OK_ANSWER);
    it = good_settings();
    check_text("a fragment of 257", &it->ufrag, &it->ufrag_length, hex("41*257"), it, INVALID);
    it = good_settings();
    check_text("a fragment that isn't UTF-8", &it->ufrag, &it->ufrag_length, hex("FF*4"), it, INVALID);
    it = good_settings();
    check_text("a password of 256", &it->password, &it->password_length, hex("41*256"), it, OK_ANSWER);
    it = good_settings();
    check_text("a password of other characters", &it->password, &it->password_length, hex("2D*22"), it,
               INVALID);
    it = good_settings();
    check_text("a password that isn't UTF-8", &it->password, &it->password_length, hex("FF*22"), it, INVALID);
    it = good_settings();
    check_text("software", &it->software, &it->software_length, text("an agent"), it, OK_ANSWER);
    it = good_settings();
    check_text("software that isn't UTF-8", &it->software, &it->software_length, hex("FF"), it, INVALID);
    it = good_settings();
    check_text("764 bytes of software", &it->software, &it->software_length, hex("41*764"), it,
               LENGTHS(STUN_TYPES_TOO_LARGE, 763, 764));
}

/* ---- refused calls */

static void test_candidates(void) {
    stun_types_ice_settings *settings;
    stun_types_ice *agent;
    stun_types_ice_base *base;
    stun_types_ice_remote *remote;
    stun_types_address nowhere = somewhere;
    row("an ICE agent", "candidates that are refused");
    settings = good_settings();
    settings->candidates = 2;
    settings->pairs = 3;
    agent = agent_of(settings);
    base = good_base();
    remote = good_remote();
    base->reserved = 1;
    ANSWERS(stun_types_ice_add_base(agent, 0, base), WRONG);
    base->reserved = 0;
    base->family = 1;
    ANSWERS(stun_types_ice_add_base(agent, 0, base), WRONG);
    base->family = 4;
    ANSWERS(stun_types_ice_add_base(agent, 0, base), OK_ANSWER);
    ANSWERS(stun_types_ice_add_base(agent, 0, base), PLAIN(STUN_TYPES_EXISTS));
    base->number = 4;
    ANSWERS(stun_types_ice_add_base(agent, 0, base), OK_ANSWER);
    ANSWERS(stun_types_ice_add_base(agent, 0, base), PLAIN(STUN_TYPES_FULL));
    remote->reserved = 1;
    ANSWERS(stun_types_ice_add_remote(agent, 0, remote), WRONG);
    remote->reserved = 0;
    remote->foundation = 0;
    ANSWERS(stun_types_ice_add_remote(agent, 0, remote), WRONG);
    remote->foundation = 1;
    remote->address.family = 0;
    ANSWERS(stun_types_ice_add_remote(agent, 0, remote), WRONG);
    remote->address.family = 4;
    ANSWERS(stun_types_ice_add_remote(agent, 0, remote), OK_ANSWER);
    ANSWERS(stun_types_ice_add_remote(agent, 0, remote), PLAIN(STUN_TYPES_EXISTS));
    remote->component = 2;
    ANSWERS(stun_types_ice_add_remote(agent, 0, remote), OK_ANSWER);
    ANSWERS(stun_types_ice_add_remote(agent, 0, remote), PLAIN(STUN_TYPES_FULL));
    nowhere.family = 0;
    ANSWERS(stun_types_ice_add_address(agent, &nowhere), WRONG);
    for (nowhere.family = 4; nowhere.port < somewhere.port + 3; nowhere.port++)
        ANSWERS(stun_types_ice_add_address(agent, &nowhere), OK_ANSWER);
    ANSWERS(stun_types_ice_add_address(agent, &nowhere), PLAIN(STUN_TYPES_FULL));
    stun_types_ice_free(agent);
}

/* Credentials of the peer, and messages without room. */
static void check_messages(void) {
    stun_types_ice *agent;
    stun_types_ice_request *request = NEW(stun_types_ice_request);
    stun_types_ice_received *received = NEW(stun_types_ice_received);
    stun_types_ice_checked *pair = NEW(stun_types_ice_checked);
    uint64_t *wake = NEW(uint64_t);
    uint8_t *out = room(88), *small = room(87);
    const slice fragment = text("h6vY"), password = text("KPKLPQPlb6g8DVIXiyRPqZ");
    const slice binding = hex("0001 0000 2112A442 00*12");
    stun_types_address nowhere = somewhere;
    uint8_t whole[28];
    size_t length = 20;
    agent = agent_of(good_settings());
    ANSWERS(stun_types_ice_add_base(agent, 0, good_base()), OK_ANSWER);
    ANSWERS(stun_types_ice_add_remote(agent, 0, good_remote()), OK_ANSWER);
    ANSWERS(stun_types_ice_set_peer(agent, 0, fragment.bytes, 3, password.bytes, password.length), INVALID);
    ANSWERS(stun_types_ice_set_peer(agent, 0, fragment.bytes, 4, password.bytes, 21), INVALID);
    ANSWERS(stun_types_ice_set_peer(agent, 0, fragment.bytes, 4, password.bytes, 0), WRONG);
    ANSWERS(stun_types_ice_poll(agent, 0, &id, out, 88, request, wake), OK_ANSWER);
    CHECK(is_zero(request, sizeof *request) && *wake == UINT64_MAX && is_untouched(out, 88));
    ANSWERS(stun_types_ice_set_peer(agent, 0, fragment.bytes, 4, password.bytes, password.length), OK_ANSWER);
    ANSWERS(stun_types_ice_set_peer(agent, 0, fragment.bytes, 4, password.bytes, password.length),
            PLAIN(STUN_TYPES_EXISTS));
    ANSWERS(stun_types_ice_poll(agent, 0, &id, small, 87, request, wake), LENGTHS(STUN_TYPES_TOO_SMALL, 88, 87));
    CHECK(is_zero(request, sizeof *request) && is_untouched(small, 87) && *wake == 500000000);
    CHECK(stun_types_ice_pair(agent, 0, pair) && pair->tries == 1);
    CHECK(!stun_types_ice_pair(agent, 1, pair) && is_zero(pair, sizeof *pair));
    memcpy(whole, binding.bytes, 20);
    ANSWERS(stun_types_add_fingerprint(whole, sizeof whole, &length), OK_ANSWER);
    ANSWERS(stun_types_ice_datagram(agent, 0, 3, &somewhere, whole, length, 0, small, 40, received),
            LENGTHS(STUN_TYPES_TOO_SMALL, 48, 40));
    CHECK(is_zero(received, sizeof *received) && is_untouched(small, 87));
    ANSWERS(stun_types_ice_datagram(agent, 0, 3, &somewhere, whole, length, 0, out, 88, received), OK_ANSWER);
    CHECK(received->kind == STUN_TYPES_ICE_RESPONSE && received->length == 48);
    nowhere.family = 0;
    ANSWERS(stun_types_ice_datagram(agent, 0, 3, &nowhere, whole, length, 0, out, 88, received), WRONG);
    CHECK(is_zero(received, sizeof *received));
    stun_types_ice_free(agent);
}

/* Polls at a moment, with an ID of its own; the moment of the next poll. */
static uint64_t poll_at(stun_types_ice *agent, uint64_t now, stun_types_answer expected) {
    stun_types_ice_request *request = NEW(stun_types_ice_request);
    stun_types_id *own = NEW(stun_types_id);
    uint64_t *wake = NEW(uint64_t);
    uint8_t *out = room(88);
    const bool is_fine = expected.code == STUN_TYPES_OK;
    memset(own, 0, sizeof *own);
    memcpy(own, &now, sizeof now);
    ANSWERS(stun_types_ice_poll(agent, now, own, out, 88, request, wake), expected);
    CHECK(request->length == (is_fine ? 88 : 0) && (is_fine || is_untouched(out, 88)));
    return *wake;
}

/* A fifth request without a response takes memory. If there is none, it is still due. */
static void check_growth(void) {
    const slice fragment = text("h6vY"), password = text("KPKLPQPlb6g8DVIXiyRPqZ");
    stun_types_ice_checked *pair = NEW(stun_types_ice_checked);
    stun_types_ice *agent = agent_of(good_settings());
    uint64_t now = 0;
    ANSWERS(stun_types_ice_add_base(agent, 0, good_base()), OK_ANSWER);
    ANSWERS(stun_types_ice_add_remote(agent, 0, good_remote()), OK_ANSWER);
    ANSWERS(stun_types_ice_set_peer(agent, 0, fragment.bytes, 4, password.bytes, password.length), OK_ANSWER);
    heap_allow(true);
    for (int i = 0; i < 4; i++) now = poll_at(agent, now, OK_ANSWER);
    CHECK(now == 7500000000 && heap_asked() == 0);
    heap_refuse(1);
    CHECK(poll_at(agent, now, PLAIN(STUN_TYPES_OUT_OF_MEMORY)) == now && heap_refused() == 1);
    CHECK(stun_types_ice_pair(agent, 0, pair) && pair->tries == 4);
    CHECK(poll_at(agent, now, OK_ANSWER) == 15500000000 && heap_asked() == 2);
    CHECK(stun_types_ice_pair(agent, 0, pair) && pair->tries == 5);
    stun_types_ice_free(agent);
}

static void test_messages(void) {
    row("an ICE agent", "messages that are refused");
    check_messages();
    row("an ICE agent", "no memory for a fifth request");
    check_growth();
}

/* ---- candidates' texts */

static void check_line(const char *line, stun_types_answer expected) {
    const slice given_line = text(line);
    stun_types_ice_candidate *candidate = NEW(stun_types_ice_candidate);
    row("lines of candidates", line);
    ANSWERS(stun_types_ice_candidate_read(given_line.bytes, given_line.length, candidate), expected);
    if (expected.code != STUN_TYPES_OK) CHECK(is_untouched(candidate, sizeof *candidate));
}

/* A line is read, and written again, with the room for it and with a byte less. */
static void check_same(const char *line, stun_types_ice_candidate_kind kind, stun_types_transport transport) {
    const slice given_line = text(line);
    stun_types_ice_candidate *candidate = NEW(stun_types_ice_candidate);
    char *out = (void *)room(given_line.length), *small = (void *)room(given_line.length - 1);
    size_t *written = NEW(size_t);
    row("lines of candidates", line);
    ANSWERS(stun_types_ice_candidate_read(given_line.bytes, given_line.length, candidate), OK_ANSWER);
    CHECK(candidate->kind == kind && candidate->transport == transport);
    ANSWERS(stun_types_ice_candidate_write(candidate, out, given_line.length, written), OK_ANSWER);
    CHECK(*written == given_line.length && memcmp(out, line, *written) == 0);
    ANSWERS(stun_types_ice_candidate_write(candidate, small, given_line.length - 1, written),
            LENGTHS(STUN_TYPES_TOO_SMALL, given_line.length, given_line.length - 1));
    CHECK(*written == given_line.length - 1 && memcmp(small, line, *written) == 0);
}

static const stun_types_ice_candidate good_candidate = {
    "1", 1, 1, 2130706431, {{192, 0, 2, 1}, 7, 4}, {{0}, 0, 0}, STUN_TYPES_UDP, STUN_TYPES_ICE_HOST};

#define CANDIDATE_WITH(name, field, value, expected) \
    do { \
        stun_types_ice_candidate *it = (void *)copy(&good_candidate, sizeof good_candidate); \
        char *out = (void *)room(100); \
        size_t *written = NEW(size_t); \
        row("candidates that are written", name); \
        it->field = value; \
        ANSWERS(stun_types_ice_candidate_write(it, out, 100, written), expected); \
        if ((expected).code != 0) CHECK(is_untouched(out, 100) && is_untouched(written, sizeof *written)); \
    } while (0)

static void test_texts(void) {
    stun_types_ice_candidate *candidate;
    slice line;
    check_same("candidate:1 1 UDP 2130706431 192.0.2.1 40000 typ host", STUN_TYPES_ICE_HOST, STUN_TYPES_UDP);
    check_same("candidate:a+/9 256 TCP 1 2001:db8::1 0 typ srflx raddr 192.0.2.1 rport 9",
               STUN_TYPES_ICE_SERVER_REFLEXIVE, STUN_TYPES_TCP);
    check_same("candidate:12345678901234567890123456789012 1 UDP 2147483647 192.0.2.1 65535 typ prflx raddr "
               "2001:db8::1 rport 65535",
               STUN_TYPES_ICE_PEER_REFLEXIVE, STUN_TYPES_UDP);
    check_same("candidate:1 1 UDP 1 192.0.2.1 1 typ relay raddr 192.0.2.2 rport 2", STUN_TYPES_ICE_RELAYED,
               STUN_TYPES_UDP);
    check_line("a=candidate:1 1 udp 1 192.0.2.1 1 typ HOST generation 0", OK_ANSWER);
    check_line("candidate:1 1 UDP 0 192.0.2.1 1 typ host", INVALID);
    check_line("candidate:1 1 UDP 1 192.0.2.1 1 typ", INVALID);
    check_line("candidate:1 1 UDP 1 192.0.2.1 1 typ host generation", INVALID);
    check_line("end-of-candidates", INVALID);
    check_line("", INVALID);
    row("lines of candidates", "another transport and type, and the name of a host");
    line = text("candidate:1 1 sctp 1 f00d.local 7 typ odd raddr name.local rport 9");
    candidate = NEW(stun_types_ice_candidate);
    ANSWERS(stun_types_ice_candidate_read(line.bytes, line.length, candidate), OK_ANSWER);
    CHECK(candidate->transport == 0 && candidate->kind == STUN_TYPES_ICE_OTHER_KIND);
    CHECK(candidate->address.family == 0 && candidate->address.port == 7);
    CHECK(candidate->related.family == 0 && candidate->related.port == 9);
    CHECK(candidate->foundation_length == 1 && candidate->foundation[0] == '1');
    CHECK(is_zero(candidate->foundation + 1, 31));
    row("lines of candidates", "bytes that aren't UTF-8");
    line = hex("FF");
    ANSWERS(stun_types_ice_candidate_read(line.bytes, line.length, candidate), INVALID);
    CANDIDATE_WITH("nothing wrong", kind, STUN_TYPES_ICE_HOST, OK_ANSWER);
    CANDIDATE_WITH("33 letters of foundation", foundation_length, 33, WRONG);
    CANDIDATE_WITH("no letter of foundation", foundation_length, 0, WRONG);
    CANDIDATE_WITH("a zero in the foundation", foundation_length, 2, WRONG);
    CANDIDATE_WITH("another letter in the foundation", foundation[0], ' ', WRONG);
    CANDIDATE_WITH("no letter, but a byte", foundation[0], 0xFF, WRONG);
    CANDIDATE_WITH("component 0", component, 0, WRONG);
    CANDIDATE_WITH("component 257", component, 257, WRONG);
    CANDIDATE_WITH("priority 0", priority, 0, WRONG);
    CANDIDATE_WITH("priority 2^31", priority, 2147483648u, WRONG);
    CANDIDATE_WITH("no family", address.family, 0, WRONG);
    CANDIDATE_WITH("another family of the related address", related.family, 5, WRONG);
    CANDIDATE_WITH("no transport", transport, (stun_types_transport)0, WRONG);
    CANDIDATE_WITH("another transport", transport, (stun_types_transport)3, WRONG);
    CANDIDATE_WITH("another type", kind, STUN_TYPES_ICE_OTHER_KIND, WRONG);
    CANDIDATE_WITH("the type 5", kind, (stun_types_ice_candidate_kind)5, WRONG);
}

/* ---- a lite agent */

static stun_types_ice_lite_settings *good_lite_settings(void) {
    static const stun_types_ice_lite_base bases[] = {{3, 1, 0}, {4, 2, 0}};
    stun_types_ice_lite_settings *it = NEW(stun_types_ice_lite_settings);
    const stun_types_ice_settings *full = good_settings();
    memset(it, 0, sizeof *it);
    it->ufrag = full->ufrag;
    it->ufrag_length = full->ufrag_length;
    it->password = full->password;
    it->password_length = full->password_length;
    it->bases = (const void *)copy(bases, sizeof bases);
    it->base_count = COUNT(bases);
    return it;
}

static void check_lite_settings(const char *name, const stun_types_ice_lite_settings *settings,
                                stun_types_answer expected) {
    static const stun_types_ice_lite none = STUN_TYPES_ICE_LITE_INIT;
    stun_types_ice_lite *agent = (void *)copy(&none, sizeof none);
    row("what a lite ICE agent is made by", name);
    heap_allow(true);
    ANSWERS(stun_types_ice_lite_new(agent, settings), expected);
    CHECK((agent->held != 0) == (expected.code == STUN_TYPES_OK));
    stun_types_ice_lite_free(agent);
    CHECK(is_zero(agent, sizeof *agent));
}

static void test_lite_settings(void) {
    static const stun_types_ice_lite_base reserved[] = {{3, 1, 0}, {4, 2, 1}};
    stun_types_ice_lite_settings *it = good_lite_settings();
    check_lite_settings("nothing wrong", it, OK_ANSWER);
    it->reserved = 1;
    check_lite_settings("reserved", it, WRONG);
    it = good_lite_settings();
    it->bases = (const void *)copy(reserved, sizeof reserved);
    check_lite_settings("a base with reserved", it, WRONG);
    it = good_lite_settings();
    it->bases = NULL;
    it->base_count = 0;
    check_lite_settings("no base", it, OK_ANSWER);
    it = good_lite_settings();
    it->password_length = 0;
    check_lite_settings("no byte of password", it, WRONG);
    it = good_lite_settings();
    it->password_length = 21;
    check_lite_settings("a password of 21 characters", it, INVALID);
    it = good_lite_settings();
    it->ufrag_length = 3;
    check_lite_settings("a fragment of 3 characters", it, INVALID);
}

static void check_no_lite_agent(const char *name, uint8_t byte) {
    stun_types_ice_lite *agent = NEW(stun_types_ice_lite);
    stun_types_ice_received *received = NEW(stun_types_ice_received);
    stun_types_ice_path *path = NEW(stun_types_ice_path);
    uint8_t *out = room(64);
    const slice bytes = text("data");
    row("a lite ICE agent", name);
    memset(agent, byte, sizeof *agent);
    ANSWERS(stun_types_ice_lite_datagram(agent, 0, 3, &somewhere, bytes.bytes, bytes.length, out, 64, received),
            WRONG);
    CHECK(is_untouched(out, 64) && is_zero(received, sizeof *received));
    CHECK(!stun_types_ice_lite_route(agent, 0, 1, path) && is_zero(path, sizeof *path));
    stun_types_ice_lite_free(agent);
    stun_types_ice_lite_free(NULL);
}

/* Messages without room, and from nowhere. */
static void test_lite_messages(void) {
    static const stun_types_ice_lite none = STUN_TYPES_ICE_LITE_INIT;
    stun_types_ice_lite *agent = (void *)copy(&none, sizeof none);
    const stun_types_ice_lite_settings *settings = good_lite_settings();
    stun_types_ice_received *received = NEW(stun_types_ice_received);
    uint8_t *out = room(64);
    const slice binding = hex("0001 0000 2112A442 00*12");
    stun_types_address nowhere = somewhere;
    uint8_t whole[28];
    size_t length = 20;
    row("a lite ICE agent", "messages that are refused");
    heap_allow(true);
    ANSWERS(stun_types_ice_lite_new(agent, settings), OK_ANSWER);
    memcpy(whole, binding.bytes, 20);
    ANSWERS(stun_types_add_fingerprint(whole, sizeof whole, &length), OK_ANSWER);
    ANSWERS(stun_types_ice_lite_datagram(agent, 0, 3, &somewhere, whole, length, out, 40, received),
            LENGTHS(STUN_TYPES_TOO_SMALL, 48, 40));
    CHECK(is_zero(received, sizeof *received) && is_untouched(out, 64));
    ANSWERS(stun_types_ice_lite_datagram(agent, 0, 3, &somewhere, whole, length, out, 64, received), OK_ANSWER);
    CHECK(received->kind == STUN_TYPES_ICE_RESPONSE && received->length == 48);
    nowhere.family = 0;
    ANSWERS(stun_types_ice_lite_datagram(agent, 0, 3, &nowhere, whole, length, out, 64, received), WRONG);
    CHECK(is_zero(received, sizeof *received));
    stun_types_ice_lite_free(agent);
}

static void test_lite(void) {
    check_no_lite_agent("none, of zeros", 0);
    check_no_lite_agent("none, of a repeated byte", FILL);
    check_no_lite_agent("none, of ones", 0xFF);
    row("a lite ICE agent", "STUN_TYPES_ICE_LITE_INIT");
    CHECK(stun_types_ice_lite_none().at == NULL && stun_types_ice_lite_none().held == 0);
    test_lite_settings();
    test_lite_messages();
}

void test_ice(void) {
    check_no_agent("none, of zeros", 0);
    check_no_agent("none, of a repeated byte", FILL);
    check_no_agent("none, of ones", 0xFF);
    row("an ICE agent", "STUN_TYPES_ICE_INIT");
    CHECK(stun_types_ice_none().at == NULL && stun_types_ice_none().held == 0);
    test_settings();
    test_candidates();
    test_messages();
    test_texts();
    test_lite();
}
