/* The users of TURN, and the secrets by which a service makes names and passwords that are valid for a
 * time. A worker can't read the files. So they are in memory that all processes share,
 * twice: the next lists are written beside those that are in use, and then are the ones in use. */
#include "server.h"

#include <sys/mman.h>

enum {
    MOST_USERS = 1 << 18,
    MOST_SECRETS = 4,
    SECRET_ROOM = 256,
    LINE_ROOM = 2048,
    MD5_LENGTH = 16,
    SHA256_LENGTH = 32
};

/* A user, by the hash of name and realm. A key of zeros is none. */
typedef struct {
    stun_types_hash hash;
    uint8_t md5[MD5_LENGTH], sha256[SHA256_LENGTH];
    bool has_md5, has_sha256;
    uint32_t line;
} user;

typedef struct {
    size_t users_count, secrets_count;
    size_t secret_lengths[MOST_SECRETS];
    uint8_t secrets[MOST_SECRETS][SECRET_ROOM];
    user users[MOST_USERS];
} user_lists;

/* Those in use are lists[turn % 2]. */
typedef struct {
    _Atomic uint32_t turn;
    user_lists lists[2];
} shared_users;

static shared_users *shared;

/* ---- Reading --------------------------------------------------------------------------------- */

static int digit_of(char character) {
    if (character >= '0' && character <= '9') return character - '0';
    if (character >= 'a' && character <= 'f') return character - 'a' + 10;
    return character >= 'A' && character <= 'F' ? character - 'A' + 10 : -1;
}

/* Reads bytes in hexadecimal, no fewer and no more. */
static bool read_hex(const char *text, uint8_t *bytes, size_t length) {
    if (strlen(text) != 2 * length) return false;
    for (size_t i = 0; i < length; i++) {
        int high = digit_of(text[2 * i]), low = digit_of(text[2 * i + 1]);
        if (high < 0 || low < 0) return false;
        bytes[i] = (uint8_t)(high * 16 + low);
    }
    return true;
}

/* The bytes of the key that a password makes. */
static bool make_key(const char *name, const char *password, stun_types_password algorithm,
                     uint8_t *bytes, size_t length) {
    const char *realm = text_setting(REALM, 0);
    stun_types_key key = STUN_TYPES_KEY_INIT;
    stun_types_integrity of;
    size_t written = 0;
    stun_types_answer answer =
        stun_types_key_long_term(&key, name, strlen(name), realm, strlen(realm), password,
                                 strlen(password), algorithm);
    if (answer.code == STUN_TYPES_OK) answer = stun_types_key_bytes(&key, bytes, length, &written, &of);
    stun_types_key_free(&key);
    return answer.code == STUN_TYPES_OK && written == length;
}

/* Reads a key after the name of its algorithm. */
static bool read_key(const char *text, const char *algorithm, uint8_t *bytes, size_t length) {
    return read_hex(text, bytes, length) ||
           fault_is("%s with %zu characters; %zu hexadecimal digits are right", algorithm, strlen(text),
                    2 * length);
}

/* Reads a password, or a key. */
static bool read_password(const char *name, const char *password, user *of) {
    if (strncmp(password, "md5:", 4) == 0) {
        return of->has_md5 = read_key(password + 4, "md5:", of->md5, MD5_LENGTH);
    }
    if (strncmp(password, "sha256:", 7) == 0) {
        return of->has_sha256 = read_key(password + 7, "sha256:", of->sha256, SHA256_LENGTH);
    }
    of->has_md5 = make_key(name, password, STUN_TYPES_PASSWORD_MD5, of->md5, MD5_LENGTH);
    of->has_sha256 = make_key(name, password, STUN_TYPES_PASSWORD_SHA256, of->sha256, SHA256_LENGTH);
    return (of->has_md5 && of->has_sha256) || fault_is("the password isn't UTF-8, or too long");
}

static bool hash_name(const void *name, size_t length, stun_types_hash *hash) {
    const char *realm = text_setting(REALM, 0);
    return stun_types_userhash(name, length, realm, strlen(realm), hash).code == STUN_TYPES_OK;
}

/* Takes a line NAME PASSWORD; the password ends with the line. */
static bool add_user(user_lists *to, char *line, uint32_t number) {
    static const char blanks[] = " \t";
    size_t length = strcspn(line, blanks);
    char *password = line + length + strspn(line + length, blanks);
    if (length == 0 || *password == 0) {
        return fault_is("a user without a password; NAME PASSWORD, NAME md5:KEY or NAME sha256:KEY is right");
    }
    if (to->users_count == MOST_USERS) return fault_is("a user too many; %d are right", MOST_USERS);
    line[length] = 0;
    user *added = &to->users[to->users_count];
    memset(added, 0, sizeof *added);
    added->line = number;
    if (!hash_name(line, length, &added->hash)) return fault_is("the name isn't UTF-8, or too long");
    if (!read_password(line, password, added)) return false;
    to->users_count++;
    return true;
}

static bool add_secret(user_lists *to, char *line, uint32_t number) {
    size_t length = strlen(line);
    (void)number;
    if (length > SECRET_ROOM) return fault_is("%zu characters; at most %d are right", length, SECRET_ROOM);
    if (to->secrets_count == MOST_SECRETS) return fault_is("a secret too many; %d are right", MOST_SECRETS);
    memcpy(to->secrets[to->secrets_count], line, length);
    to->secret_lengths[to->secrets_count++] = length;
    return true;
}

/* Takes each line of a file but empty ones and comments. Returns the number of the first that is wrong,
 * or 0; -1: the file can't be read. */
static int read_file(const char *path, user_lists *to,
                     bool (*add)(user_lists *to, char *line, uint32_t number)) {
    static char line[LINE_ROOM];
    int number = 0, wrong = 0;
    FILE *from = fopen(path, "re");
    if (from == NULL) {
        fault_is("%s", strerror(errno));
        return -1;
    }
    while (wrong == 0 && fgets(line, sizeof line, from) != NULL) {
        bool is_whole = strchr(line, '\n') != NULL || strlen(line) + 1 < sizeof line;
        number++;
        line[strcspn(line, "\r\n")] = 0;
        if (*line == 0 || *line == '#') continue;
        if (!is_whole) fault_is("a line of more than %d bytes", LINE_ROOM - 2);
        if (!is_whole || !add(to, line, (uint32_t)number)) wrong = number;
    }
    if (ferror(from) != 0) {
        fault_is("%s", strerror(errno));
        wrong = -1;
    }
    fclose(from);
    memset(line, 0, sizeof line);
    return wrong;
}

static int compare_users(const void *a, const void *b) {
    const user *first = a, *second = b;
    int order = memcmp(first->hash.bytes, second->hash.bytes, sizeof first->hash.bytes);
    return order != 0 ? order : (first->line > second->line) - (first->line < second->line);
}

/* Puts the two keys of a user who has a line for each together. False: one was there already. */
static bool join(user *to, const user *more) {
    if ((to->has_md5 && more->has_md5) || (to->has_sha256 && more->has_sha256)) return false;
    if (more->has_md5) memcpy(to->md5, more->md5, sizeof to->md5);
    if (more->has_sha256) memcpy(to->sha256, more->sha256, sizeof to->sha256);
    to->has_md5 = to->has_sha256 = true;
    return true;
}

/* Sorts the users. Returns the line of one who is there twice, or 0. */
static int sort_users(user_lists *in) {
    size_t kept = 0;
    qsort(in->users, in->users_count, sizeof *in->users, compare_users);
    for (size_t i = 0; i < in->users_count; i++) {
        user *last = kept > 0 ? &in->users[kept - 1] : NULL, *next = &in->users[i];
        bool is_new = last == NULL ||
                      memcmp(last->hash.bytes, next->hash.bytes, sizeof last->hash.bytes) != 0;
        if (is_new) in->users[kept++] = *next;
        else if (!join(last, next)) {
            fault_is("this user is in line %u too; one line is right, or one with md5: and one with sha256:",
                     (unsigned)last->line);
            return (int)next->line;
        }
    }
    in->users_count = kept;
    return 0;
}

/* Reads both files. Returns the number of the first line that is wrong, or 0; -1: a file can't be read.
 * *which: the file. */
static int read_files(user_lists *into, int *which) {
    const char *users = file_setting(USERS), *secrets = file_setting(SECRET);
    int wrong = 0;
    into->users_count = into->secrets_count = 0;
    *which = USERS;
    if (users != NULL) wrong = read_file(users, into, add_user);
    if (wrong == 0) wrong = sort_users(into);
    if (wrong != 0 || secrets == NULL) return wrong;
    *which = SECRET;
    return read_file(secrets, into, add_secret);
}

static user_lists *unused_lists(void) {
    return &shared->lists[(atomic_load_explicit(&shared->turn, memory_order_relaxed) + 1) % 2];
}

static void use_lists(void) {
    atomic_fetch_add_explicit(&shared->turn, 1, memory_order_release);
}

void read_users(users_report *report) {
    user_lists *into = unused_lists();
    memset(report, 0, sizeof *report);
    report->wrong = read_files(into, &report->which);
    report->error = report->wrong < 0 ? errno : 0;
    report->users = into->users_count;
    report->secrets = into->secrets_count;
    if (report->wrong != 0) snprintf(report->reason, sizeof report->reason, "%s", fault_text());
}

bool make_users(void) {
    users_report report;
    shared = shared_memory(sizeof *shared);
    if (shared == NULL) return false;
    read_users(&report);
    if (report.wrong != 0) return refuse_file(file_setting(report.which), report.wrong);
    use_lists();
    return true;
}

size_t count_users(void) {
    if (shared == NULL) return 0;
    return shared->lists[atomic_load_explicit(&shared->turn, memory_order_relaxed) % 2].users_count;
}

void use_users(const users_report *report) {
    if (report->wrong == 0) {
        use_lists();
        say(NEWS, "event=users-read users=%zu secrets=%zu\n", report->users, report->secrets);
        return;
    }
    (void)fault_is("%s", report->reason);
    say(FAILURE, "event=users-refused file=%s line=%d error=%d reason=%s\n", file_setting(report->which),
        report->wrong > 0 ? report->wrong : 0, report->error, fault_word());
}

/* A worker only reads them, and one that serves nobody has none. */
void protect_users(bool is_needed) {
    if (shared == NULL) return;
    if (is_needed) (void)mprotect(shared, sizeof *shared, PROT_READ);
    else (void)munmap(shared, sizeof *shared);
}

/* ---- Looking up ------------------------------------------------------------------------------ */

static int compare_hash(const void *hash, const void *of) {
    return memcmp(hash, ((const user *)of)->hash.bytes, sizeof((const user *)of)->hash.bytes);
}

/* Makes a key of bytes, or leaves none. */
static bool set_key(stun_types_key *key, const uint8_t *bytes, size_t length) {
    stun_types_answer answer = stun_types_key_from_bytes(key, bytes, length, STUN_TYPES_INTEGRITY_ANY);
    return answer.code == STUN_TYPES_OK;
}

/* Copies a user of the lists in use. False: there is none. */
static bool copy_user(const stun_types_hash *hash, user *copy) {
    for (;;) {
        uint32_t turn = atomic_load_explicit(&shared->turn, memory_order_acquire);
        const user_lists *in = &shared->lists[turn % 2];
        size_t most = in->users_count < MOST_USERS ? in->users_count : MOST_USERS;
        const user *found = bsearch(hash->bytes, in->users, most, sizeof *in->users, compare_hash);
        if (found != NULL) *copy = *found;
        atomic_thread_fence(memory_order_acquire);
        if (atomic_load_explicit(&shared->turn, memory_order_relaxed) == turn) return found != NULL;
    }
}

bool is_listed_user(const stun_types_hash *hash) {
    user found;
    return copy_user(hash, &found);
}

bool have_users_changed(void) {
    static uint32_t seen;
    uint32_t turn = atomic_load_explicit(&shared->turn, memory_order_acquire);
    bool is_new = seen != 0 && turn != seen;
    seen = turn;
    return is_new;
}

/* Copies a secret. Returns its length, 0: there is none. */
static size_t copy_secret(unsigned which, uint8_t secret[SECRET_ROOM]) {
    for (;;) {
        uint32_t turn = atomic_load_explicit(&shared->turn, memory_order_acquire);
        const user_lists *in = &shared->lists[turn % 2];
        size_t length = which < MOST_SECRETS && which < in->secrets_count ? in->secret_lengths[which] : 0;
        if (length > SECRET_ROOM) length = SECRET_ROOM;
        if (length > 0) memcpy(secret, in->secrets[which], length);
        atomic_thread_fence(memory_order_acquire);
        if (atomic_load_explicit(&shared->turn, memory_order_relaxed) == turn) return length;
    }
}

/* Whether a name says until when it is valid, EXPIRY or EXPIRY:NAME in seconds of UNIX time, and that time
 * isn't over. Who has an allocation keeps it: only an Allocate request asks for the time. */
static bool is_in_time(const uint8_t *name, size_t length, const uint8_t *request) {
    enum { ALLOCATE_REQUEST = 0x0003 };
    uint64_t until = 0;
    size_t digits = 0;
    for (; digits < length && digits < 18 && name[digits] >= '0' && name[digits] <= '9'; digits++) {
        until = until * 10 + (uint64_t)(name[digits] - '0');
    }
    if (digits == 0 || (digits < length && name[digits] != ':')) return false;
    struct timespec now = {0, 0};
    clock_gettime(CLOCK_REALTIME, &now);
    return (request[0] << 8 | request[1]) != ALLOCATE_REQUEST || until > (uint64_t)now.tv_sec;
}

/* A password: the HMAC of the name, in base64. */
enum { PASSWORD_LENGTH = 28 };
static void make_password(const uint8_t hmac[SHA1_LENGTH], char password[PASSWORD_LENGTH]) {
    static const char digits[] = "ABCDEFGHIJKLMNOPQRSTUVWXYZabcdefghijklmnopqrstuvwxyz0123456789+/";
    uint8_t padded[SHA1_LENGTH + 1];
    memcpy(padded, hmac, SHA1_LENGTH);
    padded[SHA1_LENGTH] = 0;
    for (size_t i = 0; i < PASSWORD_LENGTH / 4; i++) {
        const uint8_t *at = padded + 3 * i;
        uint32_t three = (uint32_t)at[0] << 16 | (uint32_t)at[1] << 8 | at[2];
        for (size_t j = 0; j < 4; j++) password[4 * i + j] = digits[three >> (18 - 6 * j) & 63];
    }
    password[PASSWORD_LENGTH - 1] = '=';
}

/* The keys of a name that is valid for a time, by a secret. */
static bool make_keys(const uint8_t *name, size_t length, unsigned which, user_keys *made) {
    const char *realm = text_setting(REALM, 0);
    uint8_t secret[SECRET_ROOM], hmac[SHA1_LENGTH];
    char password[PASSWORD_LENGTH];
    size_t secret_length = copy_secret(which, secret);
    if (secret_length == 0) return false;
    hmac_sha1(secret, secret_length, name, length, hmac);
    make_password(hmac, password);
    return stun_types_key_long_term(&made->md5, name, length, realm, strlen(realm), password,
                                    PASSWORD_LENGTH, STUN_TYPES_PASSWORD_MD5).code == STUN_TYPES_OK &&
           stun_types_key_long_term(&made->sha256, name, length, realm, strlen(realm), password,
                                    PASSWORD_LENGTH, STUN_TYPES_PASSWORD_SHA256).code == STUN_TYPES_OK;
}

/* The hash of the user whom a request names, by USERNAME or by USERHASH, and where the name is. */
static bool find_hash(const uint8_t *request, size_t length, stun_types_hash *hash,
                      stun_types_attribute *name) {
    if (stun_types_find(request, length, STUN_TYPES_ATTRIBUTE_USERNAME, name)) {
        return hash_name(request + name->value_at, name->length, hash);
    }
    if (!stun_types_find(request, length, STUN_TYPES_ATTRIBUTE_USERHASH, name)) return false;
    if (name->length != sizeof hash->bytes) return false;
    memcpy(hash->bytes, request + name->value_at, sizeof hash->bytes);
    return true;
}

static void keep_name(const uint8_t *bytes, const stun_types_attribute *of, user_name *kept) {
    kept->is_hash = of->type == STUN_TYPES_ATTRIBUTE_USERHASH;
    kept->is_cut = of->length > sizeof kept->bytes;
    kept->length = kept->is_cut ? sizeof kept->bytes : of->length;
    memcpy(kept->bytes, bytes, kept->length);
}

bool find_user(const uint8_t *request, size_t length, unsigned attempt, user_keys *found) {
    stun_types_hash hash;
    stun_types_attribute name;
    user known;
    found->name.length = 0;
    if (!find_hash(request, length, &hash, &name)) return false;
    keep_name(request + name.value_at, &name, &found->name);
    memcpy(&found->user, hash.bytes, sizeof found->user);
    found->user |= 1;
    found->hash = hash;
    found->is_listed = copy_user(&hash, &known);
    if (found->is_listed) {
        return attempt == 0 && (!known.has_md5 || set_key(&found->md5, known.md5, MD5_LENGTH)) &&
               (!known.has_sha256 || set_key(&found->sha256, known.sha256, SHA256_LENGTH));
    }
    return name.type == STUN_TYPES_ATTRIBUTE_USERNAME &&
           is_in_time(request + name.value_at, name.length, request) &&
           make_keys(request + name.value_at, name.length, attempt, found);
}
