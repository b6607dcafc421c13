// Reads the address in a response, and writes and validates a signed request, as messages.c does.
#include <arpa/inet.h>
#include <cstdio>
#include <stdexcept>
#include <string>
#include <vector>
#include <stun_types.h>

static const std::vector<uint8_t> response{
    0x01, 0x01, 0x00, 0x0c, 0x21, 0x12, 0xa4, 0x42, 0xb7, 0xe7, 0xa7, 0x01, 0xbc, 0x34, 0xd6, 0x86,
    0xfa, 0x87, 0xdf, 0xae, 0x00, 0x20, 0x00, 0x08, 0x00, 0x01, 0xa1, 0x47, 0xe1, 0x12, 0xa6, 0x43};

static void check(stun_types_answer answer) {
    if (answer.code != STUN_TYPES_OK) throw std::runtime_error(stun_types_status_text(answer.code));
}

// The key of a short-term credential. It is freed with the object, and not copied.
struct Key {
    stun_types_key key = STUN_TYPES_KEY_INIT;
    explicit Key(const std::string &password) {
        check(stun_types_key_short_term(&key, password.data(), password.size()));
    }
    ~Key() { stun_types_key_free(&key); }
    Key(const Key &) = delete;
    Key &operator=(const Key &) = delete;
};

static stun_types_address address_in(const std::vector<uint8_t> &message) {
    stun_types_attribute found;
    stun_types_address address;
    const auto bytes = message.data();
    const auto length = message.size();
    check(stun_types_parse(bytes, length));
    if (!stun_types_find(bytes, length, STUN_TYPES_ATTRIBUTE_XOR_MAPPED_ADDRESS, &found))
        throw std::runtime_error("the response reports no address");
    check(stun_types_read_xor_address(bytes, length, &found, &address));
    return address;
}

static std::vector<uint8_t> signed_request(const std::string &user, const Key &key) {
    std::vector<uint8_t> room(200);
    size_t length = 0;
    stun_types_id id{{1, 2, 3, 4, 5, 6, 7, 8, 9, 10, 11, 12}}; // yours is drawn at random
    auto type = stun_types_message_type(STUN_TYPES_CLASS_REQUEST, STUN_TYPES_METHOD_BINDING);
    const auto data = room.data();
    const auto size = room.size();
    check(stun_types_begin(data, size, type, &id, &length));
    check(stun_types_add(data, size, &length, STUN_TYPES_ATTRIBUTE_USERNAME, user.data(),
                         user.size()));
    check(stun_types_add_integrity(data, size, &length, &key.key, STUN_TYPES_INTEGRITY_SHA256));
    check(stun_types_add_fingerprint(data, size, &length));
    room.resize(length);
    return room;
}

// What a server without credentials replies to a datagram from 192.0.2.1:32853; no bytes if nothing.
static std::vector<uint8_t> reply_to(const std::vector<uint8_t> &datagram) {
    const stun_types_address source{{192, 0, 2, 1}, 32853, 4};
    std::vector<uint8_t> room(datagram.size() + 48); // a reply is at most so much longer
    size_t length = 0;
    check(stun_types_binding_reply(datagram.data(), datagram.size(), &source, room.data(), room.size(),
                                   &length));
    room.resize(length);
    return room;
}

static void print_hex(const std::vector<uint8_t> &bytes) {
    for (auto byte : bytes) std::printf("%02x", byte);
    std::printf("\n");
}

int main(int count, char **arguments) try {
    auto address = address_in(response);
    const bool is_six = address.family == 6;
    char ip[INET6_ADDRSTRLEN] = "";
    inet_ntop(is_six ? AF_INET6 : AF_INET, address.octets, ip, sizeof ip);
    std::printf(is_six ? "[%s]:%d\n" : "%s:%d\n", ip, address.port);
    Key key("wonderland");
    auto request = signed_request("alice", key);
    const stun_types_policy both{};
    stun_types_validated validated;
    check(stun_types_validate_by_policy(request.data(), request.size(), &both, &key.key,
                                        &validated));
    print_hex(request);
    const std::string digits = count > 1 ? arguments[1] : "";
    std::vector<uint8_t> datagram;
    for (size_t at = 0; at + 1 < digits.size(); at += 2)
        datagram.push_back(static_cast<uint8_t>(std::stoul(digits.substr(at, 2), nullptr, 16)));
    if (count > 1) print_hex(reply_to(datagram));
} catch (const std::exception &error) {
    std::fprintf(stderr, "%s\n", error.what());
    return 1;
}
