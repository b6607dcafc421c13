/* An ICE agent that answers connectivity checks (RFC 8445, section 7.3), and prints what it has
 * learned from each. What it answers is decided in ice_agent.h. HMACs are the library's, but hmac_nettle.c and
 * hmac_openssl.c have commands that build it with others.
 *
 *     cc -O2 -I c c/examples/ice_responder.c libstun_types.a -o ice_responder
 *     ./ice_responder ADDRESS PORT UFRAG PASSWORD TIEBREAKER
 *
 * UFRAG and PASSWORD are its own, as its peer knows them. It begins in the controlled role, with this
 * tiebreaker. With port 0 the system chooses one. It ends when its standard input does. */
#define _POSIX_C_SOURCE 200809L
#define _DEFAULT_SOURCE
#include <poll.h>
#include <stdlib.h>
#include <unistd.h>

#include "addresses.h"
#include "ice_agent.h"

/* Prints what became of a check that gets a reply. */
static void tell(const ice_answer *answer, const stun_types_address *source) {
    if (answer->code != 0) {
        printf("refused %lu\n", (unsigned long)answer->code);
        return;
    }
    printf("check from ");
    print_address(stdout, source);
    printf(" priority %lu%s\n", (unsigned long)answer->priority, answer->nominates ? " nominated" : "");
}

/* Receives checks and answers them, until the standard input ends. */
static void serve(int socket, ice_agent *agent) {
    static uint8_t check[ICE_ROOM];
    static ice_answer answer;
    struct pollfd waited[2] = {{socket, POLLIN, 0}, {STDIN_FILENO, POLLIN, 0}};
    while (poll(waited, 2, -1) > 0 && waited[1].revents == 0) {
        socket_address from = {.length = sizeof from.bytes};
        stun_types_address source;
        bool was_controlling = agent->is_controlling;
        ssize_t length = recvfrom(socket, check, sizeof check, 0, (struct sockaddr *)&from.bytes,
                                  &from.length);
        if (length < 0 || !address_of(&from.bytes, &source)) continue;
        ice_take(agent, check, (size_t)length, &source, &answer);
        if (answer.length == 0) continue;
        if (agent->is_controlling != was_controlling) {
            printf("switches to %s\n", agent->is_controlling ? "controlling" : "controlled");
        }
        tell(&answer, &source);
        fflush(stdout);
        sendto(socket, answer.reply, answer.length, 0, (struct sockaddr *)&from.bytes, from.length);
    }
}

int main(int count, char **arguments) {
    socket_address own;
    stun_types_address bound;
    ice_agent agent = {.is_controlling = false};
    if (count != 6 || !read_address(arguments[1], arguments[2], SOCK_DGRAM, &own)) {
        fprintf(stderr, "usage: ice_responder ADDRESS PORT UFRAG PASSWORD TIEBREAKER\n");
        return 2;
    }
    agent.ufrag = arguments[3];
    agent.tiebreaker = strtoull(arguments[5], NULL, 10);
    int listening = socket(own.bytes.ss_family, SOCK_DGRAM, 0);
    if (listening < 0 || bind(listening, (struct sockaddr *)&own.bytes, own.length) != 0 ||
        getsockname(listening, (struct sockaddr *)&own.bytes, &own.length) != 0 ||
        !address_of(&own.bytes, &bound)) {
        perror("ice_responder");
        return 2;
    }
    if (!ice_make_key(&agent.key, arguments[4])) {
        fprintf(stderr, "ice_responder: the key can't be made\n");
        return 2;
    }
    printf("listening on ");
    print_address(stdout, &bound);
    printf("\n");
    fflush(stdout);
    serve(listening, &agent);
    ice_free_key(&agent.key);
    return 0;
}
