/* What stun-ice prints about its own state: words for people, or a JSON object a line. */
#include "ice.h"

#include <stdarg.h>

const char *text_of(const stun_types_address *address, char text[ADDRESS_ROOM]) {
    char octets[INET6_ADDRSTRLEN] = "?";
    bool six = address->family == 6;
    inet_ntop(six ? AF_INET6 : AF_INET, address->octets, octets, sizeof octets);
    snprintf(text, ADDRESS_ROOM, six ? "[%s]:%u" : "%s:%u", octets, (unsigned)address->port);
    return text;
}

/* Prints a text as JSON has it. */
static void print_json(const char *text) {
    fputc('"', stderr);
    for (; *text != 0; text++) {
        unsigned char byte = (unsigned char)*text;
        if (byte == '"' || byte == '\\') fprintf(stderr, "\\%c", byte);
        else if (byte < 0x20 || byte >= 0x7F) fprintf(stderr, "\\u%04x", byte);
        else fputc(byte, stderr);
    }
    fputc('"', stderr);
}

void report(const char *event, ...) {
    va_list values;
    const char *name;
    if (ice.json) fputs("{\"event\": ", stderr);
    if (ice.json) print_json(event);
    else fputs(event, stderr);
    va_start(values, event);
    while ((name = va_arg(values, const char *)) != NULL) {
        const char *value = va_arg(values, const char *);
        fputs(ice.json ? ", " : " ", stderr);
        if (ice.json) print_json(name);
        if (ice.json) fputs(": ", stderr);
        if (ice.json) print_json(value);
        else fputs(value, stderr);
    }
    va_end(values);
    fputs(ice.json ? "}\n" : "\n", stderr);
}

void report_line(const char *event, const char *line) {
    if (ice.json) report(event, "line", line, NULL);
    else fprintf(stderr, "%s\n", line);
}

int fail(int status, const char *format, ...) {
    char reason[256];
    va_list values;
    va_start(values, format);
    vsnprintf(reason, sizeof reason, format, values);
    va_end(values);
    if (!ice.json) return say(status, "%s", reason);
    report("failed", "reason", reason, NULL);
    return status;
}
