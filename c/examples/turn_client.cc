// Gets a relayed address of a TURN server over UDP, and passes data to a peer and back by a channel, as
// turn_client.c does.
//
//     g++ -std=c++11 -O2 turn_client.cc $(pkg-config --cflags --libs stun_types) -o turn_client
//     ./turn_client ADDRESS PORT USER PASSWORD
#include <iostream>

#include "stun_types.hpp"

static const size_t HEAD = STUN_TYPES_ALLOCATION_HEAD, ROOM = 3400;

// A TURN client with its socket, and one peer.
class Client {
public:
    Client(const stun_types_address &its_server, const std::string &user, const std::string &password,
           const stun_types_address &its_peer)
        : server(its_server), peer(its_peer), socket(its_server) {
        stun_types_allocation_settings settings{};
        settings.server = server;
        settings.transport = STUN_TYPES_UDP;
        settings.user = user.data();
        settings.user_length = user.size();
        settings.password = password.data();
        settings.password_length = password.size();
        check(stun_types_allocation_new(&client, &settings));
        want(STUN_TYPES_ALLOCATION_ALLOCATE);
        want(STUN_TYPES_ALLOCATION_BIND);
    }
    ~Client() { stun_types_allocation_free(&client); }
    Client(const Client &) = delete;
    Client &operator=(const Client &) = delete;

    // Takes what has come of the server: responses, or data of the peer, after which the client closes.
    void receive() {
        std::vector<uint8_t> datagram;
        stun_types_address from;
        stun_types_allocation_data data;
        while (socket.receive(datagram, ROOM, from)) {
            check(stun_types_allocation_datagram(&client, nanoseconds(), &from, datagram.data(), datagram.size(),
                                                 &data));
            if (!data.shown) continue;
            const std::string text(reinterpret_cast<const char *>(datagram.data()) + data.at, data.length);
            std::cout << "client received " << text << " from " << data.peer << '\n';
            want(STUN_TYPES_ALLOCATION_CLOSE);
        }
    }

    // Sends the requests that are due, and acts on what has changed. Returns when to call it again at the latest.
    uint64_t turn() {
        std::vector<uint8_t> out(ROOM);
        stun_types_allocation_change change;
        size_t length;
        uint64_t wake;
        do {
            const auto id = drawn<stun_types_id>();
            check(stun_types_allocation_poll(&client, nanoseconds(), &id, out.data(), ROOM, &length, &wake));
            if (length > 0) socket.send(server, out.data(), length);
        } while (length > 0);
        while (stun_types_allocation_changes(&client, &change)) take_change(change);
        return wake;
    }

    const stun_types_address server, peer;
    const Socket socket;
    bool has_ended = false, is_closed = false;

private:
    void want(stun_types_allocation_wish wish) {
        check(stun_types_allocation_want(&client, nanoseconds(), wish, &peer));
    }

    // Sends a text to the peer, if it may be sent.
    void send(const std::string &text) {
        const auto id = drawn<stun_types_id>();
        stun_types_allocation_head around;
        std::vector<uint8_t> room(HEAD);
        check(stun_types_allocation_send(&client, nanoseconds(), text.size(), &peer, &id, room.data(), HEAD,
                                         &around));
        if (!around.sends) return;
        room.insert(room.end(), text.begin(), text.end());
        room.resize(room.size() + around.padding);
        socket.send(server, &room[HEAD - around.length], room.size() - HEAD + around.length);
    }

    void take_change(const stun_types_allocation_change &change) {
        if (change.kind == STUN_TYPES_ALLOCATION_ALLOCATED) {
            std::cout << "allocated " << change.relayed << '\n';
        } else if (change.kind == STUN_TYPES_ALLOCATION_BOUND) {
            std::cout << "bound " << change.peer << " to channel 0x" << std::hex << change.channel << std::dec << '\n';
            send("data of the client");
        } else if (change.kind == STUN_TYPES_ALLOCATION_OVER) {
            has_ended = true;
            is_closed = change.why == STUN_TYPES_ALLOCATION_CLOSED;
            if (is_closed) std::cout << "closed\n";
            else std::cout << "failed, code " << change.code << '\n';
        }
    }

    stun_types_allocation client = STUN_TYPES_ALLOCATION_INIT;
};

// Replies to what has come to the peer's socket: to the relayed address.
static void reply(const Socket &peer) {
    std::vector<uint8_t> datagram;
    stun_types_address from;
    while (peer.receive(datagram, ROOM, from)) {
        std::cout << "peer received " << std::string(datagram.begin(), datagram.end()) << " from " << from << '\n';
        peer.send(from, std::string("data of the peer"));
    }
}

int main(int count, char **arguments) try {
    socket_address at;
    stun_types_address server;
    if (count != 5 || !read_address(arguments[1], arguments[2], SOCK_DGRAM, &at) || !address_of(&at.bytes, &server))
        throw std::runtime_error("usage: turn_client ADDRESS PORT USER PASSWORD");
    const Socket peer(server);
    Client client(server, arguments[3], arguments[4], peer.own);
    for (auto wake = client.turn(); !client.has_ended; wake = client.turn()) {
        pollfd sockets[] = {client.socket.opened, peer.opened};
        if (poll(sockets, 2, milliseconds_until(wake)) < 0) throw std::runtime_error("poll failed");
        client.receive();
        reply(peer);
    }
    return !client.is_closed;
} catch (const std::exception &error) {
    std::cerr << error.what() << '\n';
    return 2;
}
