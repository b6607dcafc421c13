/* stun-client: asks a STUN server for the address that this machine's requests come from, and prints
 * it as 192.0.2.1:32853 or [2001:db8::1]:32853. stun-client.1 says how it is used. */
#include "program.h"

static const char help[] =
    "usage: stun-client [OPTION].. HOST[:PORT]\n"
    "\n"
    "Prints the address that a STUN server sees. HOST is a name, an IPv4 address, or an IPv6\n"
    "address, which needs brackets before a port: [2001:db8::1]:3478. PORT is 3478 unless given.\n"
    "\n"
    "  -4, -6                    ask over IPv4, or over IPv6, alone\n"
    "  -t, --tcp                 ask over TCP\n"
    "  -u, --user NAME           use long-term credentials, if the server asks for them\n"
    "  -s, --short-term          use short-term credentials, of --user, in the first request\n"
    "  -f, --password-file FILE  read the password from the first line of FILE, - for standard\n"
    "                            input; otherwise it is in the variable STUN_PASSWORD\n"
    "  -w, --wait SECONDS        wait so long for a response, 1 to 3600; otherwise 39.5 s\n"
    "  -v, --verbose             print each message to standard error\n"
    "  -h, --help; -V, --version\n"
    "\n"
    "Status 0: the address was printed. 1: the server refused. 2: wrong arguments. 3: it can't read\n"
    "or write, or has no memory. 4: no response in time, or none that is authentic.\n";

static const struct option words[] = {
    COMMON_WORDS, {"short-term", no_argument, NULL, 's'}, {NULL, 0, NULL, 0}};

static int usage(void) {
    fprintf(stderr, "usage: stun-client [OPTION].. HOST[:PORT]\n"
                    "stun-client --help lists the options\n");
    return STATUS_MISUSED;
}

static int tell_address(void) {
    stun_types_address address;
    if (!find_address(STUN_TYPES_ATTRIBUTE_XOR_MAPPED_ADDRESS, &address)) {
        return say(STATUS_REFUSED, "the response has no address");
    }
    print_address(stdout, &address);
    putchar('\n');
    return end_output();
}

static int run(void) {
    int status = read_password();
    if (status == STATUS_DONE) status = open_server();
    if (status == STATUS_DONE) status = ask();
    if (status == STATUS_DONE) status = tell_address();
    close_server();
    explicit_bzero(asked.password, sizeof asked.password);
    return status;
}

int main(int count, char **arguments) {
    int letter;
    asked.program = "stun-client";
    while ((letter = getopt_long(count, arguments, COMMON_LETTERS "s", words, NULL)) != -1) {
        if (letter == 'h') return print_text(help);
        if (letter == 'V') {
            return print_text("stun-client of stun_types " STUN_TYPES_VERSION_TEXT "\n");
        }
        if (letter == 's') asked.short_term = true;
        else if (!take_option(letter, optarg)) return usage();
    }
    if (count - optind != 1 || !read_target(arguments[optind], &asked.server)) return usage();
    if (asked.user == NULL && (asked.short_term || asked.password_file != NULL)) return usage();
    return run();
}
