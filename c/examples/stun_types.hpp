// What the examples in C++ share.
#ifndef STUN_TYPES_HPP
#define STUN_TYPES_HPP

#include <ostream>
#include <stdexcept>
#include <string>
#include <vector>

#include "datagrams.h"

inline void check(stun_types_answer answer) {
    if (answer.code != STUN_TYPES_OK) throw std::runtime_error(stun_types_status_text(answer.code));
}

// A value of random bits.
template <typename T> T drawn() {
    T value;
    if (!draw(&value, sizeof value)) throw std::runtime_error("there are no random bytes");
    return value;
}

// Prints an address: 192.0.2.1:32853, or [2001:db8::1]:32853.
inline std::ostream &operator<<(std::ostream &to, const stun_types_address &address) {
    char ip[INET6_ADDRSTRLEN] = "?";
    const bool is_six = address.family == 6;
    inet_ntop(is_six ? AF_INET6 : AF_INET, address.octets, ip, sizeof ip);
    return is_six ? to << '[' << ip << "]:" << address.port : to << ip << ':' << address.port;
}

// A socket for datagrams at an address, whose port the system chooses.
class Socket {
public:
    explicit Socket(stun_types_address address) : own(address) {
        own.port = 0;
        opened = open_socket(&own);
        if (own.family == 0) throw std::runtime_error("there is no socket");
    }
    ~Socket() { close(opened.fd); }
    Socket(const Socket &) = delete;
    Socket &operator=(const Socket &) = delete;

    // Whether a datagram of at most so many bytes has come.
    bool receive(std::vector<uint8_t> &datagram, size_t most, stun_types_address &from) const {
        size_t length = 0;
        datagram.resize(most);
        const bool has_come = receive_datagram(opened.fd, &from, datagram.data(), most, &length);
        if (has_come) datagram.resize(length);
        return has_come;
    }
    void send(const stun_types_address &to, const uint8_t *bytes, size_t length) const {
        send_datagram(opened.fd, &to, bytes, length);
    }
    void send(const stun_types_address &to, const std::string &text) const {
        send(to, reinterpret_cast<const uint8_t *>(text.data()), text.size());
    }

    stun_types_address own;
    pollfd opened;
};

#endif
