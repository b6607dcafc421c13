/* TURN clients that are asked by events, through their calls in C. */
#include <stdio.h>
#include <stdlib.h>
#include <string.h>

#include "../heap.h"
#include "turn.h"
#include "wakes.h"

/* The most peers of a row, and the room for a request: more than any has here. */
enum { MOST_PEERS = 64, REQUEST_ROOM = 1500 };

/* What was reported of a peer. */
typedef struct {
    stun_types_address address;
    uint64_t until, channel_until;
    bool wants, is_over;
} known_peer;

static stun_types_allocation *client;
static uint64_t now, requests;
/* When it wants to be polled, if nothing has come since a poll said it. */
static bool is_awake;
static uint64_t wakes;
static known_peer peers[MOST_PEERS];
static size_t peer_count;

/* ---- words */

static void answer_endpoint(const stun_types_address *address) {
    answer_octets(address->octets, address->family == 4 ? 4 : 16);
    answer_text(":%u", (unsigned)address->port);
}

static void answer_moment(uint64_t moment) {
    char digits[10];
    size_t length = 9;
    uint64_t part = moment % 1000000000;
    answer_text("%llu", (unsigned long long)(moment / 1000000000));
    if (part == 0) return;
    for (; length > 0; part /= 10) digits[--length] = (char)('0' + part % 10);
    for (length = 9; digits[length - 1] == '0';) length--;
    answer_text(".%.*s", (int)length, digits);
}

static void answer_sent(const uint8_t *octets, size_t length) {
    answer_space();
    answer_text("to-server:");
    answer_octets(octets, length);
}

/* ---- the client */

/* The number of an option, after its name and `-`. */
static uint32_t number_after(const char *option, const char *name) {
    const size_t length = strlen(name);
    if (strncmp(option, name, length) != 0 || option[length] != '-') return 0;
    return (uint32_t)strtoul(option + length + 1, NULL, 10);
}

static void set_option(stun_types_allocation_settings *settings, const char *option) {
    if (strcmp(option, "md5") == 0) settings->algorithm = STUN_TYPES_PASSWORD_MD5;
    else if (strcmp(option, "sha256") == 0) settings->algorithm = STUN_TYPES_PASSWORD_SHA256;
    else if (strcmp(option, "even") == 0) settings->port = STUN_TYPES_ALLOCATION_PORT_EVEN;
    else if (strcmp(option, "pair") == 0) settings->port = STUN_TYPES_ALLOCATION_PORT_PAIR;
    else if (strcmp(option, "whole") == 0) settings->dont_fragment = 1;
    else if (strncmp(option, "token-", 6) == 0) {
        settings->port = STUN_TYPES_ALLOCATION_PORT_RESERVED;
        settings->token = strtoull(option + 6, NULL, 16);
    } else if (number_after(option, "peers") != 0) settings->peers = number_after(option, "peers");
    else if (number_after(option, "named") != 0 && number_after(option, "named") <= 16) settings->named = number_after(option, "named");
    else if (number_after(option, "sends") != 0) settings->sends = number_after(option, "sends");
    else if (number_after(option, "retries") != 0) settings->retries = number_after(option, "retries");
    else if (number_after(option, "rto") != 0) settings->rto = number_after(option, "rto");
    else answer_unknown();
}

/* The settings of the first word of a call. */
static stun_types_allocation_settings settings_of(char *word) {
    stun_types_allocation_settings settings;
    char server[] = "cb007101:3478", *part;
    const slice user = text("George"), password = text("secret");
    memset(&settings, 0, sizeof settings);
    settings.server = turn_endpoint(server);
    part = next_part(&word, ':');
    settings.transport = part != NULL && strcmp(part, "tcp") == 0 ? STUN_TYPES_TCP : STUN_TYPES_UDP;
    part = next_part(&word, ':');
    if (part == NULL) answer_unknown();
    else if (strcmp(part, "ipv4") == 0) settings.family = 4;
    else if (strcmp(part, "ipv6") == 0) settings.family = 6;
    part = next_part(&word, ':');
    if (part == NULL) answer_unknown();
    else if (strcmp(part, "-") != 0) settings.lifetime = (uint32_t)strtoul(part, NULL, 10);
    while ((part = next_part(&word, ':')) != NULL) set_option(&settings, part);
    settings.user = user.bytes;
    settings.user_length = user.length;
    settings.password = password.bytes;
    settings.password_length = password.length;
    keep_secret(password);
    return settings;
}

/* ---- what has changed */

static known_peer *peer_of(const stun_types_address *address) {
    size_t at;
    for (at = 0; at < peer_count; at++)
        if (turn_is_same_address(&peers[at].address, address)) return &peers[at];
    if (peer_count == MOST_PEERS) abort();
    memset(&peers[peer_count], 0, sizeof peers[peer_count]);
    peers[peer_count].address = *address;
    return &peers[peer_count++];
}

static void answer_of_peer(const char *name, const stun_types_address *address) {
    answer_space();
    answer_text("%s:", name);
    answer_endpoint(address);
}

/* Appends the word for a peer of which something else holds, if there is one. */
static void answer_peer(const stun_types_allocation_change *it) {
    known_peer *before = peer_of(&it->peer);
    const bool is_over = it->kind == STUN_TYPES_ALLOCATION_PEER_OVER;
    CHECK(it->wants <= 1 && it->violated <= 1 && (it->code == 0 || is_over));
    CHECK(it->channel >= 0x4000 && it->channel <= 0x4FFF);
    if (is_over && !before->is_over) {
        answer_of_peer("over", &it->peer);
        if (it->violated && it->code == 0) answer_text(":integrity");
        else answer_text(":%u", (unsigned)it->code);
    } else if (before->wants && !it->wants) {
        answer_of_peer("no-channel", &it->peer);
    } else if (it->channel_until > before->channel_until) {
        answer_of_peer("bound", &it->peer);
        answer_text(":%04x:", (unsigned)it->channel);
        answer_moment(it->channel_until);
    } else if (it->until > before->until) {
        answer_of_peer("permitted", &it->peer);
        answer_text(":");
        answer_moment(it->until);
    }
    before->until = it->until;
    before->channel_until = it->channel_until;
    before->wants = it->wants != 0;
    before->is_over = is_over;
}

static void answer_end(const stun_types_allocation_change *it) {
    const uint32_t rests = it->code == 437 ? 120 : it->code == 486 || it->code == 508 ? 60 : 0;
    answer_space();
    answer_text("ended:");
    CHECK(it->rest == rests);
    switch (it->why) {
    case STUN_TYPES_ALLOCATION_CLOSED: answer_text("closed"); break;
    case STUN_TYPES_ALLOCATION_SILENT: answer_text("silent"); break;
    case STUN_TYPES_ALLOCATION_REJECTED: answer_text("%u", (unsigned)it->code); break;
    case STUN_TYPES_ALLOCATION_MOVED:
        CHECK(it->code == STUN_TYPES_CODE_TRY_ALTERNATE);
        answer_text("moved:");
        answer_endpoint(&it->server);
        break;
    case STUN_TYPES_ALLOCATION_USELESS: answer_text("useless"); break;
    case STUN_TYPES_ALLOCATION_VIOLATED: answer_text("integrity"); break;
    default: answer_text("!!an end");
    }
}

static void answer_change(const stun_types_allocation_change *it) {
    CHECK(it->reserved == 0);
    switch (it->kind) {
    case STUN_TYPES_ALLOCATION_ALLOCATED:
        answer_space();
        answer_text("allocated:");
        answer_endpoint(&it->relayed);
        answer_text(":");
        answer_endpoint(&it->mapped);
        answer_text(":");
        answer_moment(it->until);
        break;
    case STUN_TYPES_ALLOCATION_REFRESHED:
        answer_space();
        answer_text("refreshed:");
        answer_moment(it->until);
        break;
    case STUN_TYPES_ALLOCATION_ASKED:
    case STUN_TYPES_ALLOCATION_PERMITTED:
    case STUN_TYPES_ALLOCATION_BOUND:
    case STUN_TYPES_ALLOCATION_PEER_OVER: answer_peer(it); break;
    case STUN_TYPES_ALLOCATION_CLOSING:
        answer_space();
        answer_text("closing");
        break;
    case STUN_TYPES_ALLOCATION_OVER: answer_end(it); break;
    default: answer_text("!!a change");
    }
}

static void answer_changes(void) {
    stun_types_allocation_change *change = NEW(stun_types_allocation_change);
    while (stun_types_allocation_changes(client, change)) answer_change(change);
    CHECK(is_zero(change, sizeof *change));
}

/* ---- events */

/* Each of these is false if there was no memory. */
static bool want(stun_types_allocation_wish wish) {
    const bool has_peer = wish != STUN_TYPES_ALLOCATION_ALLOCATE && wish != STUN_TYPES_ALLOCATION_CLOSE;
    stun_types_address peer;
    slice peer_given;
    stun_types_answer answer;
    memset(&peer, 0, sizeof peer);
    if (has_peer) peer = turn_endpoint(call_word());
    peer_given = given(&peer, sizeof peer);
    is_awake = false;
    answer = stun_types_allocation_want(client, now, wish, (const void *)peer_given.bytes);
    if (answer.code == STUN_TYPES_FULL || answer.code == STUN_TYPES_OTHER_FAMILY) {
        answer_space();
        answer_text("refused:%s", answer.code == STUN_TYPES_FULL ? "full" : "family");
        return true;
    }
    return is_taken(answer);
}

static bool send(bool is_whole) {
    static const stun_types_id id;
    const stun_types_address peer = turn_endpoint(call_word());
    const slice data = call_octets(), peer_given = given(&peer, sizeof peer), id_given = given(&id, sizeof id);
    stun_types_allocation_head *around = NEW(stun_types_allocation_head);
    uint8_t *head = room(STUN_TYPES_ALLOCATION_HEAD), *sent;
    if (!is_taken((is_whole ? stun_types_allocation_send_whole : stun_types_allocation_send)(
            client, now, data.length, (const void *)peer_given.bytes, (const void *)id_given.bytes, head,
            STUN_TYPES_ALLOCATION_HEAD, around)))
        return false;
    CHECK(around->sends <= 1);
    if (around->sends == 0) {
        CHECK(is_zero(around, sizeof *around) && is_untouched(head, STUN_TYPES_ALLOCATION_HEAD));
        answer_space();
        answer_text("dropped");
        return true;
    }
    sent = room(around->length + data.length + around->padding);
    memcpy(sent, head + STUN_TYPES_ALLOCATION_HEAD - around->length, around->length);
    if (data.length != 0) memcpy(sent + around->length, data.bytes, data.length);
    memset(sent + around->length + data.length, 0, around->padding);
    CHECK(is_untouched(head, STUN_TYPES_ALLOCATION_HEAD - around->length));
    answer_sent(sent, around->length + data.length + around->padding);
    return true;
}

static bool receive(void) {
    const stun_types_address from = turn_endpoint(call_word());
    const slice datagram = call_octets(), from_given = given(&from, sizeof from);
    stun_types_allocation_data *data = NEW(stun_types_allocation_data);
    is_awake = false;
    if (!is_taken(stun_types_allocation_datagram(client, now, (const void *)from_given.bytes, datagram.bytes,
                                                 datagram.length, data))) {
        CHECK(is_zero(data, sizeof *data));
        return false;
    }
    if (data->shown == 0) {
        CHECK(is_zero(data, sizeof *data));
        return true;
    }
    answer_space();
    if (data->shown == STUN_TYPES_ALLOCATION_TOKEN) {
        answer_text("token:%016llx", (unsigned long long)data->token);
        return true;
    }
    if (data->shown == STUN_TYPES_ALLOCATION_ICMP) {
        answer_text("icmp:");
        answer_endpoint(&data->peer);
        answer_text(":%u:%u:%lu", (unsigned)data->icmp_type, (unsigned)data->icmp_code,
                    (unsigned long)data->icmp_data);
        return true;
    }
    CHECK(data->shown == STUN_TYPES_ALLOCATION_DATA && data->at <= datagram.length);
    CHECK(data->length <= datagram.length - data->at);
    answer_text("data:");
    answer_endpoint(&data->peer);
    answer_text(":");
    answer_octets(datagram.bytes + data->at, data->length);
    return true;
}

/* A poll with this room: *length and *wake are those of the call. */
static stun_types_answer poll_into(uint8_t *out, size_t size, size_t *length, uint64_t *wake) {
    char digits[17];
    stun_types_id id;
    slice id_given;
    snprintf(digits, sizeof digits, "%llx", (unsigned long long)(requests + 1));
    id = id_of(digits);
    id_given = given(&id, sizeof id);
    return stun_types_allocation_poll(client, now, (const void *)id_given.bytes, out, size, length, wake);
}

static bool poll(void) {
    uint8_t *out = room(REQUEST_ROOM);
    size_t *length = NEW(size_t);
    uint64_t *wake = NEW(uint64_t);
    if (!is_taken(poll_into(out, REQUEST_ROOM, length, wake))) {
        CHECK(*length == 0 && is_untouched(out, REQUEST_ROOM));
        return false;
    }
    CHECK(is_untouched(out + *length, REQUEST_ROOM - *length));
    is_awake = true;
    wakes = *wake;
    if (*length == 0) return true;
    answer_sent(out, *length);
    /* (a new request has the new transaction ID) */
    if (*length >= 20 && out[19] == (uint8_t)(requests + 1) && out[18] == (uint8_t)((requests + 1) >> 8))
        requests++;
    return true;
}

/* When the client wants to be polled: now if a poll would write a request. */
static bool wake(void) {
    uint64_t moment = wakes;
    if (!is_awake && !wakes_next(&moment)) {
        const size_t before = answer_count();
        if (!poll()) return false;
        wakes_keep(answer_count() == before ? wakes : now);
        return true;
    }
    answer_space();
    answer_text("wakes:");
    if (moment == UINT64_MAX) answer_text("-");
    else answer_moment(moment);
    return true;
}

static bool event(const char *name) {
    if (strcmp(name, "allocate") == 0) return want(STUN_TYPES_ALLOCATION_ALLOCATE);
    if (strcmp(name, "permit") == 0) return want(STUN_TYPES_ALLOCATION_PERMIT);
    if (strcmp(name, "bind") == 0) return want(STUN_TYPES_ALLOCATION_BIND);
    if (strcmp(name, "close") == 0) return want(STUN_TYPES_ALLOCATION_CLOSE);
    if (strcmp(name, "drop") == 0) return want(STUN_TYPES_ALLOCATION_DROP);
    if (strcmp(name, "send") == 0) return send(false);
    if (strcmp(name, "send-whole") == 0) return send(true);
    if (strcmp(name, "from") == 0) return receive();
    if (strcmp(name, "poll") == 0) return poll();
    if (strcmp(name, "wake") == 0) return wake();
    answer_unknown();
    return true;
}

/* Answers the events that are left; false if there was no memory. */
static bool answer_events(void) {
    char *name;
    while (!wakes_has_ended() && (name = call_word()) != NULL) {
        const size_t before = answer_count();
        if (strcmp(name, "at") == 0) {
            char *moment = call_word();
            if (moment == NULL) answer_unknown();
            else now = turn_moment(moment);
            continue;
        }
        if (!event(name)) return false;
        answer_changes();
        if (answer_count() == before) {
            answer_space();
            answer_text("-");
        }
    }
    return true;
}

static void run_client(void) {
    static stun_types_allocation none = STUN_TYPES_ALLOCATION_INIT;
    const stun_types_allocation_settings settings = settings_of(call_word());
    const slice settings_given = given(&settings, sizeof settings);
    stun_types_answer answer;
    client = (void *)copy(&none, sizeof none);
    now = requests = 0;
    peer_count = 0;
    is_awake = false;
    heap_measure(false);
    answer = stun_types_allocation_new(client, (const void *)settings_given.bytes);
    heap_measure(true);
    if (is_taken(answer)) answer_events();
    stun_types_allocation_free(client);
}

static void answer_client(void) { wakes_run(run_client); }

const verb verbs_of_allocations[] = {{"client", answer_client, true}, {NULL, NULL, false}};
