/* Descriptions: this program's candidates as lines (RFC 8839, section 5), and the peer's. */
#include "ice.h"

#include <fcntl.h>
#include <sys/stat.h>

static char lines[MOST_CANDIDATES][LINE_ROOM];
static size_t line_count;
static bool is_ended;

uint32_t priority_of(candidate_kind kind, size_t base) {
    static const uint32_t preferences[] = {126, 100, 110, 0};
    return preferences[kind] << 24 | (uint32_t)(UINT16_MAX - base) << 8 | 255;
}

/* ---- This program's --------------------------------------------------------------------------- */

/* Calls a function for each line. */
static void each_line(void (*use)(const char *line, void *with), void *with) {
    char line[LINE_ROOM];
    snprintf(line, sizeof line, "a=ice-ufrag:%s", own_fragment());
    use(line, with);
    snprintf(line, sizeof line, "a=ice-pwd:%s", own_password());
    use(line, with);
    use("a=ice-options:trickle", with);
    if (ice.lite) use("a=ice-lite", with);
    for (size_t i = 0; i < line_count; i++) use(lines[i], with);
    if (is_ended) use("a=end-of-candidates", with);
}

static void write_line(const char *line, void *to) {
    fprintf(to, "%s\n", line);
}

/* Adds a line to the one for copying. */
static void join(const char *line, void *to) {
    char *text = to;
    size_t length = strlen(text);
    snprintf(text + length, DESCRIPTION_ROOM - length, "%s%s", length > 0 ? ";" : "", line);
}

/* Writes the file, all of it at once, for readers. */
static void write_file(void) {
    char path[4096];
    if (ice.own_file == NULL) return;
    int length = snprintf(path, sizeof path, "%s.new", ice.own_file);
    int made = length < (int)sizeof path ? open(path, O_WRONLY | O_CREAT | O_TRUNC | O_CLOEXEC, 0600) : -1;
    FILE *to = made >= 0 ? fdopen(made, "w") : NULL;
    if (to == NULL) {
        say(STATUS_BROKEN, "%s: %s", path, strerror(errno));
        if (made >= 0) close(made);
        return;
    }
    each_line(write_line, to);
    bool failed = ferror(to) != 0;
    if (fclose(to) != 0 || failed || rename(path, ice.own_file) != 0) {
        say(STATUS_BROKEN, "%s: %s", ice.own_file, strerror(errno));
    }
}

void remove_description(void) {
    if (ice.own_file != NULL) unlink(ice.own_file);
}

static void print_line(const char *line, void *event) {
    report_line(event, line);
}

/* Prints the whole description as one line. */
static void print_joined(void) {
    static char text[DESCRIPTION_ROOM];
    text[0] = 0;
    each_line(join, text);
    report_line("description", text);
}

void print_description(void) {
    char event[] = "line";
    each_line(print_line, event);
    if (is_ended) print_joined();
    write_file();
}

/* Writes the number of a candidate's foundation: another one for each kind and base (RFC 8445, section 5.1.1.3). */
static uint16_t write_foundation(candidate_kind kind, size_t number, uint8_t foundation[32]) {
    char text[32] = "";
    int length = snprintf(text, sizeof text, "%u", (unsigned)kind * 100 + (unsigned)number + 1);
    memcpy(foundation, text, sizeof text);
    return (uint16_t)length;
}

/* Writes a candidate's line. */
static bool write_candidate(candidate_kind kind, size_t number, const stun_types_address *address,
                            const stun_types_address *base, char line[LINE_ROOM]) {
    static const stun_types_ice_candidate_kind kinds[] = {STUN_TYPES_ICE_HOST, STUN_TYPES_ICE_SERVER_REFLEXIVE,
                                                          STUN_TYPES_ICE_PEER_REFLEXIVE, STUN_TYPES_ICE_RELAYED};
    stun_types_ice_candidate written;
    size_t length = 0;
    memset(&written, 0, sizeof written);
    written.foundation_length = write_foundation(kind, number, written.foundation);
    written.component = 1;
    written.priority = priority_of(kind, number);
    written.address = *address;
    if (base != NULL) written.related = *base;
    written.transport = STUN_TYPES_UDP;
    written.kind = kinds[kind];
    memcpy(line, "a=", 2);
    if (!is_fine(stun_types_ice_candidate_write(&written, line + 2, LINE_ROOM - 3, &length))) return false;
    line[2 + length] = 0;
    return true;
}

void describe(candidate_kind kind, size_t number, const stun_types_address *address,
              const stun_types_address *base) {
    char *line = lines[line_count];
    if (line_count == MOST_CANDIDATES || (kind == SERVER_REFLEXIVE && is_same(address, base)) ||
        !write_candidate(kind, number, address, base, line)) {
        return;
    }
    line_count++;
    add_address(address);
    report_line("candidate", line);
    write_file();
}

bool is_description_ended(void) {
    return is_ended;
}

void end_description(void) {
    is_ended = true;
    report_line("candidate", "a=end-of-candidates");
    print_joined();
    write_file();
}

/* ---- The peer's ------------------------------------------------------------------------------- */

/* Whether a line begins with a word, with or without a= before it; what follows. */
static const char *after(const char *line, const char *word) {
    if (strncmp(line, "a=", 2) == 0) line += 2;
    size_t length = strlen(word);
    return strncmp(line, word, length) == 0 ? line + length : NULL;
}

static void take_candidate_line(const char *line) {
    stun_types_ice_candidate read;
    if (!is_fine(stun_types_ice_candidate_read(line, strlen(line), &read)) || read.transport != STUN_TYPES_UDP ||
        read.component != 1) {
        skip_candidate(false);
    } else if (read.address.family != 4 && read.address.family != 6) {
        skip_candidate(true);
    } else {
        take_candidate(&read.address, (const char *)read.foundation, read.foundation_length, read.priority);
    }
}

/* Takes what has to be known before the password. */
static void take_fragment_line(const char *line) {
    const char *rest;
    if ((rest = after(line, "ice-ufrag:")) != NULL) take_fragment(rest, strlen(rest));
    else if ((rest = after(line, "ice-lite")) != NULL && *rest == 0) take_lite();
}

static void take_password_line(const char *line) {
    const char *password = after(line, "ice-pwd:");
    if (password != NULL) take_password(password, strlen(password));
}

/* Takes an attribute about candidates; other lines of SDP count for nothing. */
static void take_attribute(const char *line) {
    const char *rest;
    if (after(line, "candidate:") != NULL) take_candidate_line(line);
    else if ((rest = after(line, "end-of-candidates")) != NULL && *rest == 0) end_candidates();
}

/* Passes each attribute of a line to a function. */
static void take_line_by(void (*take)(const char *line), const char *line, size_t length) {
    for (size_t at = 0, end; at < length; at = end + 1) {
        char text[LINE_ROOM];
        for (end = at; end < length && line[end] != ';';) end++;
        while (at < end && line[at] == ' ') at++;
        size_t kept = end - at;
        while (kept > 0 && (line[at + kept - 1] == '\r' || line[at + kept - 1] == ' ')) kept--;
        if (kept >= sizeof text) continue;
        memcpy(text, line + at, kept);
        text[kept] = 0;
        take(text);
    }
}

static void take_any(const char *line) {
    take_fragment_line(line);
    take_password_line(line);
    take_attribute(line);
}

void take_line(const char *line, size_t length) {
    take_line_by(take_any, line, length);
}

static void take_lines_by(void (*take)(const char *line), const char *text, size_t length) {
    for (size_t at = 0, end; at < length; at = end + 1) {
        for (end = at; end < length && text[end] != '\n';) end++;
        take_line_by(take, text + at, end - at);
    }
}

/* What the file was when it was read, and when it was looked at last. */
static struct stat seen, looked_at;

static bool is_same_file(const struct stat *file, const struct stat *other) {
    return file->st_ino == other->st_ino && file->st_size == other->st_size &&
           file->st_mtim.tv_sec == other->st_mtim.tv_sec && file->st_mtim.tv_nsec == other->st_mtim.tv_nsec;
}

/* Whether the file is another one than that which was read, and no longer being written. */
static bool has_changed(void) {
    struct stat found;
    if (stat(ice.peer_file, &found) != 0) return false;
    bool is_still = is_same_file(&found, &looked_at);
    looked_at = found;
    if (!is_still || is_same_file(&found, &seen)) return false;
    seen = found;
    return true;
}

void read_peer_file(void) {
    static char text[DESCRIPTION_ROOM];
    FILE *from = has_changed() ? fopen(ice.peer_file, "re") : NULL;
    if (from == NULL) return;
    size_t length = fread(text, 1, sizeof text, from);
    fclose(from);
    take_lines_by(take_fragment_line, text, length); /* (in SDP the attributes have any order) */
    take_lines_by(take_password_line, text, length);
    take_lines_by(take_attribute, text, length);
}
