// Connects two ICE agents in this process, over sockets of the loopback, and passes data each way, as
// ice_connect.c does.
//
//     g++ -std=c++11 -O2 ice_connect.cc $(pkg-config --cflags --libs stun_types) -o ice_connect
//     ./ice_connect [SECONDS [PASSWORD]]
#include <algorithm>
#include <iostream>
#include <sstream>

#include "stun_types.hpp"

static const uint32_t BASE = 0;
static const uint16_t COMPONENT = 1;
static const size_t ROOM = 1500;

// The priority of a candidate whose type has this preference (RFC 8445, section 5.1.2.1).
static uint32_t priority(uint32_t preference) { return (preference << 24) + (65535 << 8) + 256 - COMPONENT; }
static const uint32_t HOST = 126, PEER_REFLEXIVE = 110;

// So many random characters of the alphabet of fragments and passwords (RFC 8839, section 5.4).
static std::string random_text(size_t length) {
    static const char letters[] = "ABCDEFGHIJKLMNOPQRSTUVWXYZabcdefghijklmnopqrstuvwxyz0123456789+/";
    std::string text;
    while (text.size() < length) text += letters[drawn<uint8_t>() % 64];
    return text;
}

// An agent with one socket: its only base, and its only candidate.
class Agent {
public:
    Agent(const std::string &its_name, stun_types_ice_role role) : name(its_name) {
        stun_types_ice_settings settings{};
        settings.ufrag = ufrag.data();
        settings.ufrag_length = ufrag.size();
        settings.password = password.data();
        settings.password_length = password.size();
        settings.tiebreaker = drawn<uint64_t>();
        settings.role = role;
        settings.tries = 3; // to fail sooner
        stun_types_ice_base base{};
        base.number = BASE;
        base.foundation = 1;
        base.priority = priority(HOST);
        base.reflexive_priority = priority(PEER_REFLEXIVE);
        base.component = COMPONENT;
        base.family = socket.own.family;
        check(stun_types_ice_new(&agent, &settings));
        check(stun_types_ice_add_base(&agent, nanoseconds(), &base));
        check(stun_types_ice_add_address(&agent, &socket.own));
    }
    ~Agent() { stun_types_ice_free(&agent); }
    Agent(const Agent &) = delete;
    Agent &operator=(const Agent &) = delete;

    // The lines that the other agent needs.
    std::string description() const {
        stun_types_ice_candidate candidate{{'1'}, 1, COMPONENT, priority(HOST), socket.own, {}, STUN_TYPES_UDP,
                                           STUN_TYPES_ICE_HOST};
        std::string line(200, '\0');
        size_t length;
        check(stun_types_ice_candidate_write(&candidate, &line[0], line.size(), &length));
        return "a=ice-ufrag:" + ufrag + "\na=ice-pwd:" + password + "\na=" + line.substr(0, length) +
               "\na=end-of-candidates\n";
    }

    // Takes the other agent's description, with another password if there is one.
    void take(const std::string &description, const std::string &other_password) {
        std::istringstream lines(description);
        std::string line, name, value, ufrag, password;
        while (std::getline(lines, line)) {
            const size_t colon = std::min(line.find(':'), line.size());
            name = line.substr(0, colon);
            value = line.substr(std::min(colon + 1, line.size()));
            if (name == "a=ice-ufrag") ufrag = value;
            if (name == "a=ice-pwd") password = other_password.empty() ? value : other_password;
            if (name == "a=candidate") take_candidate(line);
        }
        check(stun_types_ice_set_peer(&agent, nanoseconds(), ufrag.data(), ufrag.size(), password.data(),
                                      password.size()));
        check(stun_types_ice_end_candidates(&agent, nanoseconds()));
    }

    // Takes the datagrams that have come: checks, responses and data.
    void receive() {
        std::vector<uint8_t> datagram, out(ROOM);
        stun_types_address from;
        stun_types_ice_received taken;
        while (socket.receive(datagram, ROOM, from)) {
            check(stun_types_ice_datagram(&agent, nanoseconds(), BASE, &from, datagram.data(), datagram.size(),
                                          drawn<uint64_t>(), out.data(), ROOM, &taken));
            if (taken.kind == STUN_TYPES_ICE_RESPONSE) socket.send(from, out.data(), taken.length);
            if (taken.kind != STUN_TYPES_ICE_DATA) continue;
            received.assign(datagram.begin(), datagram.end());
            std::cout << name << " received " << received << '\n';
        }
    }

    // Sends the checks that are due, and acts on what has changed. Returns when to call it again at the latest.
    uint64_t turn() {
        std::vector<uint8_t> out(ROOM);
        stun_types_ice_request request;
        stun_types_ice_change change;
        uint64_t wake;
        do {
            const auto id = drawn<stun_types_id>();
            check(stun_types_ice_poll(&agent, nanoseconds(), &id, out.data(), ROOM, &request, &wake));
            if (request.length > 0) socket.send(request.to, out.data(), request.length);
        } while (request.length > 0);
        while (stun_types_ice_changes(&agent, &change))
            if (change.kind == STUN_TYPES_ICE_PROGRESS) take_progress(change);
        return wake;
    }

    // Prints the role, and how long the peer's consent lasts.
    void report() {
        stun_types_ice_standing standing;
        stun_types_ice_checked pair;
        if (stun_types_ice_status(&agent, COMPONENT, &standing) && stun_types_ice_pair(&agent, 0, &pair) &&
            pair.nominated)
            std::cout << name << " is "
                      << (standing.role == STUN_TYPES_ICE_CONTROLLING ? "controlling" : "controlled")
                      << ", and may send for " << (pair.until - nanoseconds()) / 1000000000 << " s\n";
    }

    bool has_failed = false;
    std::string received;
    const Socket socket{{{127, 0, 0, 1}, 0, 4}};

private:
    void take_candidate(const std::string &line) {
        stun_types_ice_candidate read;
        check(stun_types_ice_candidate_read(line.data(), line.size(), &read));
        if (read.transport != STUN_TYPES_UDP || read.address.family != socket.own.family) return;
        // (Number the foundations of several candidates: equal ones have the same number.)
        const stun_types_ice_remote remote{read.address, 1, read.priority, read.component, 0};
        check(stun_types_ice_add_remote(&agent, nanoseconds(), &remote));
    }

    void take_progress(const stun_types_ice_change &change) {
        if (change.progress == STUN_TYPES_ICE_FAILED) {
            has_failed = true;
            std::cout << name << " failed\n";
        } else if (change.progress == STUN_TYPES_ICE_CONNECTED) {
            std::cout << name << " connected " << socket.own << " to " << change.address << '\n';
            send("data of " + name);
        }
    }

    void send(const std::string &text) {
        stun_types_ice_path path;
        if (stun_types_ice_route(&agent, nanoseconds(), COMPONENT, &path))
            socket.send(path.to, text);
    }

    const std::string name, ufrag = random_text(8), password = random_text(24);
    stun_types_ice agent = STUN_TYPES_ICE_INIT;
};

int main(int count, char **arguments) try {
    const uint64_t seconds = count > 1 ? std::stoul(arguments[1]) : 7;
    const std::string password = count > 2 ? arguments[2] : "";
    Agent left("left", STUN_TYPES_ICE_CONTROLLING), right("right", STUN_TYPES_ICE_CONTROLLED);
    left.take(right.description(), password);
    right.take(left.description(), password);
    for (const uint64_t end = nanoseconds() + seconds * 1000000000;;) {
        const uint64_t wake = std::min({left.turn(), right.turn(), end});
        if (nanoseconds() >= end || (left.has_failed && right.has_failed)) break;
        pollfd sockets[] = {left.socket.opened, right.socket.opened};
        if (poll(sockets, 2, milliseconds_until(wake)) < 0) throw std::runtime_error("poll failed");
        left.receive();
        right.receive();
    }
    left.report();
    right.report();
    return left.received != "data of right" || right.received != "data of left";
} catch (const std::exception &error) {
    std::cerr << error.what() << '\n';
    return 2;
}
