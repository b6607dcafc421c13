/* What makes the nonces: a secret of this server, or one that several servers share in a file; and the time that
 * the nonces count. A nonce of one such server is valid at each of them, as long as it lasts. */
#include "server.h"

#include <sys/random.h>

enum { SECRET_LENGTH = 32, SECRET_LEAST = 16, SECRET_MOST = 256 };

static struct {
    uint8_t secret[SECRET_MOST];
    size_t length;
    uint64_t ahead; /* how many nanoseconds the time of the nonces is ahead of the clock */
} nonces;

/* Reads the only line of a file that is neither empty nor a comment. Returns the number of the first line that
 * is wrong, or 0; -1: the file can't be read. */
static int read_secret(FILE *from) {
    char line[SECRET_MOST + 3];
    int number = 0;
    while (fgets(line, sizeof line, from) != NULL) {
        number++;
        bool is_whole = strchr(line, '\n') != NULL || feof(from) != 0;
        size_t length = strcspn(line, "\r\n");
        if (is_whole && (length == 0 || *line == '#')) continue;
        bool is_one = nonces.length == 0;
        if (!is_one) fault_is("a secret too many; one is right");
        else if (length < SECRET_LEAST || length > SECRET_MOST || !is_whole) {
            fault_is("%d to %d characters are right, as `openssl rand -hex 32` makes", SECRET_LEAST, SECRET_MOST);
        } else {
            memcpy(nonces.secret, line, nonces.length = length);
            continue;
        }
        return number;
    }
    if (ferror(from) != 0) fault_is("%s", strerror(errno));
    else if (nonces.length == 0) fault_is("no secret; a line is right, as `openssl rand -hex 32` makes");
    return ferror(from) != 0 || nonces.length == 0 ? -1 : 0;
}

static bool read_shared(const char *path) {
    FILE *from = fopen(path, "re");
    if (from == NULL) fault_is("%s", strerror(errno));
    int wrong = from == NULL ? -1 : read_secret(from);
    if (from != NULL) fclose(from);
    return wrong == 0 || refuse_file(path, wrong);
}

/* Servers count the time that their clocks agree on. It goes on evenly from the start, also if a clock is set. */
static void share_time(void) {
    struct timespec now = {0, 0};
    clock_gettime(CLOCK_REALTIME, &now);
    nonces.ahead = (uint64_t)now.tv_sec * 1000000000 + (uint64_t)now.tv_nsec - nanoseconds();
}

bool prepare_nonces(void) {
    const char *path = file_setting(NONCE_SECRET);
    if (path != NULL) share_time();
    if (path != NULL) return read_shared(path);
    nonces.length = SECRET_LENGTH;
    return getrandom(nonces.secret, SECRET_LENGTH, 0) == SECRET_LENGTH || cannot("no random numbers");
}

bool make_nonce_key(stun_types_key *made) {
    stun_types_answer answer = stun_types_key_from_bytes(made, nonces.secret, nonces.length,
                                                         STUN_TYPES_INTEGRITY_ANY);
    return answer.code == STUN_TYPES_OK || complain(stun_types_status_text(answer.code));
}

void forget_nonce_secret(void) { memset(nonces.secret, 0, sizeof nonces.secret); }

uint64_t nonce_time(uint64_t now) { return now + nonces.ahead; }
