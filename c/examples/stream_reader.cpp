/* Reads a stream of STUN messages, as a connection over TCP carries them (RFC 8489, section 6.2.2), and
 * prints each, in C++17.
 *
 *     c++ -std=c++17 -O2 -I c c/examples/stream_reader.cpp libstun_types.a -o stream_reader
 *     ./stream_reader [-n BYTES] [PASSWORD] < STREAM
 *
 * The stream is the standard input, read in pieces of at most so many bytes, 4096 unless -n says
 * otherwise. With a password each line says whether the message is authentic under it.
 *
 * Status 0: the stream ended behind a message. 1: it broke off within one. 2: the arguments are wrong,
 * or memory is refused. 3: no message begins where one had to; standard error has the offset. */
#include <cstdio>
#include <cstdlib>
#include <cstring>
#include <optional>
#include <string>
#include <string_view>
#include <vector>

#include <unistd.h>

#include "stun_types.h"

namespace {

/* A key that is freed with its owner. */
class Key {
public:
    explicit Key(std::string_view password) {
        made_ = stun_types_key_short_term(&key_, password.data(), password.size());
    }
    ~Key() { stun_types_key_free(&key_); }
    Key(const Key &) = delete;
    Key &operator=(const Key &) = delete;

    bool is_made() const { return made_.code == STUN_TYPES_OK; }
    const stun_types_key *get() const { return &key_; }

private:
    stun_types_key key_ = STUN_TYPES_KEY_INIT;
    stun_types_answer made_{};
};

/* Some bytes of a buffer. */
struct Bytes {
    const std::uint8_t *at;
    std::size_t length;
};

/* Gathers the messages of a stream. */
class Reader {
public:
    Reader() : gathered_(STUN_TYPES_GREATEST_MESSAGE) {}

    /* Takes a piece, and hands each message that it makes whole to `take`. False: no message begins
       where one had to. */
    template <typename Take> bool push(Bytes piece, Take take) {
        while (piece.length > 0) {
            std::size_t taken = 0;
            error_ = stun_types_stream_push(&stream_, gathered_.data(), gathered_.size(), piece.at,
                                            piece.length, &taken);
            if (error_.code != STUN_TYPES_OK) return false;
            piece = {piece.at + taken, piece.length - taken};
            if (stream_.message > 0) take(Bytes{gathered_.data(), stream_.message});
        }
        return true;
    }

    bool is_between_messages() const { return stream_.pending == 0; }
    std::uint64_t offset() const { return stream_.offset; }
    const char *why() const { return stun_types_status_text(error_.code); }

private:
    stun_types_stream stream_{};
    std::vector<std::uint8_t> gathered_;
    stun_types_answer error_{};
};

/* The text of a message, or why it is none. */
std::string text_of(Bytes message) {
    std::string text(200, '\0');
    std::size_t written = 0;
    stun_types_answer answer =
        stun_types_print(message.at, message.length, text.data(), text.size(), &written);
    if (answer.code == STUN_TYPES_TOO_SMALL) {
        text.resize(static_cast<std::size_t>(answer.expected));
        answer = stun_types_print(message.at, message.length, text.data(), text.size(), &written);
    }
    if (answer.code != STUN_TYPES_OK) return stun_types_status_text(answer.code);
    text.resize(written);
    return text;
}

/* What a validation with the key says. */
std::string verdict_of(Bytes message, const Key &key) {
    const stun_types_policy strict{};
    stun_types_validated validated;
    stun_types_answer answer =
        stun_types_validate_by_policy(message.at, message.length, &strict, key.get(), &validated);
    if (answer.code != STUN_TYPES_OK) return stun_types_status_text(answer.code);
    return validated.algorithm == STUN_TYPES_INTEGRITY_SHA256 ? "authentic by SHA-256" : "authentic by SHA-1";
}

int read_stream(std::size_t most, const std::optional<std::string_view> &password) {
    std::optional<Key> key;
    if (password) key.emplace(*password);
    if (key && !key->is_made()) return 2;
    Reader reader;
    std::vector<std::uint8_t> piece(most);
    ssize_t length;
    while ((length = read(STDIN_FILENO, piece.data(), piece.size())) > 0) {
        bool goes_on = reader.push({piece.data(), static_cast<std::size_t>(length)}, [&](Bytes message) {
            std::string line = text_of(message) + (key ? ": " + verdict_of(message, *key) : "");
            std::printf("%s\n", line.c_str());
        });
        if (goes_on) continue;
        std::fprintf(stderr, "at %llu: %s\n", static_cast<unsigned long long>(reader.offset()),
                     reader.why());
        return 3;
    }
    return reader.is_between_messages() ? 0 : 1;
}

} // namespace

int main(int count, char **arguments) {
    std::size_t most = 4096;
    int option;
    while ((option = getopt(count, arguments, "n:")) != -1) {
        if (option == 'n') most = static_cast<std::size_t>(std::strtoul(optarg, nullptr, 10));
        else most = 0;
    }
    if (most == 0 || most > 1 << 20 || count - optind > 1) {
        std::fprintf(stderr, "usage: stream_reader [-n BYTES] [PASSWORD] < STREAM\n");
        return 2;
    }
    return read_stream(most, optind < count ? std::optional<std::string_view>(arguments[optind])
                                            : std::nullopt);
}
