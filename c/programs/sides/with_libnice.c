/* An agent of libnice that sends back what it receives: with_libnice ROLE [NOMINATION].
 * It prints its description, up to a=end-of-candidates, and reads the other's likewise from standard input. A second
 * one restarts ICE: it prints its own new one. At the line "restart" it does so first. */
#include <agent.h>
#include <stdio.h>
#include <stdlib.h>
#include <string.h>

enum { ROOM = 65536 };

typedef struct {
    NiceAgent *agent;
    guint stream;
    gboolean is_answered; /* the other side's description belongs to the one that was printed last */
    char text[ROOM];      /* of the other side's description, as far as it is read */
} side;

static void fail(const char *why) {
    fprintf(stderr, "%s\n", why);
    exit(1);
}

static void received(NiceAgent *agent, guint stream, guint component, guint length, gchar *data, gpointer given) {
    (void)given;
    if (length > 0) (void)nice_agent_send(agent, stream, component, length, data);
}

static void describe(side *own) {
    gchar *plain = nice_agent_generate_local_sdp(own->agent);
    printf("%sa=end-of-candidates\n", plain);
    fflush(stdout);
    g_free(plain);
    own->is_answered = FALSE;
    strcpy(own->text, "m=application 9 ICE/SDP\nc=IN IP4 0.0.0.0\n");
}

static void gathered(NiceAgent *agent, guint stream, gpointer given) {
    (void)agent, (void)stream;
    describe(given);
}

static void restart(side *own) {
    if (!nice_agent_restart(own->agent)) fail("ICE can't be restarted");
    describe(own);
}

static void take_line(side *own, const char *line) {
    if (strcmp(line, "restart\n") == 0) restart(own);
    else if (strncmp(line, "a=end-of-candidates", 19) == 0) {
        char *text = g_strdup(own->text);
        if (own->is_answered) restart(own);
        if (nice_agent_parse_remote_sdp(own->agent, text) <= 0) fail("the other side has no candidates");
        own->is_answered = TRUE;
        strcpy(own->text, "m=application 9 ICE/SDP\nc=IN IP4 0.0.0.0\n");
        g_free(text);
    } else if (strncmp(line, "a=ice-options", 13) != 0) {
        strncat(own->text, line, sizeof own->text - strlen(own->text) - 1);
    }
}

static gboolean take_lines(GIOChannel *from, GIOCondition condition, gpointer given) {
    gchar *line;
    (void)condition;
    GIOStatus status = g_io_channel_read_line(from, &line, NULL, NULL, NULL);
    if (status == G_IO_STATUS_NORMAL) take_line(given, line), g_free(line);
    return status == G_IO_STATUS_NORMAL || status == G_IO_STATUS_AGAIN;
}

static void changed(NiceAgent *agent, guint stream, guint component, guint state, gpointer given) {
    (void)agent, (void)stream, (void)component, (void)given;
    fprintf(stderr, "%s\n", nice_component_state_to_string(state));
}

int main(int count, char **words) {
    if (count < 2) return 2;
    GMainLoop *loop = g_main_loop_new(NULL, FALSE);
    GMainContext *context = g_main_loop_get_context(loop);
    NiceAgentOption options = count > 2 && strcmp(words[2], "regular") == 0 ? NICE_AGENT_OPTION_REGULAR_NOMINATION : 0;
    options |= NICE_AGENT_OPTION_CONSENT_FRESHNESS;
    NiceAgent *agent = nice_agent_new_full(context, NICE_COMPATIBILITY_RFC5245, options);
    static side own;
    own.agent = agent;
    gboolean controls = strcmp(words[1], "controlling") == 0;
    g_object_set(agent, "controlling-mode", controls, "upnp", FALSE, "ice-tcp", FALSE, NULL);
    g_signal_connect(agent, "candidate-gathering-done", G_CALLBACK(gathered), &own);
    g_signal_connect(agent, "component-state-changed", G_CALLBACK(changed), &own);
    own.stream = nice_agent_add_stream(agent, 1);
    nice_agent_set_stream_name(agent, own.stream, "application");
    if (!nice_agent_attach_recv(agent, own.stream, 1, context, received, &own) ||
        !nice_agent_gather_candidates(agent, own.stream)) {
        fail("candidates can't be gathered");
    }
    g_io_add_watch(g_io_channel_unix_new(0), G_IO_IN | G_IO_HUP, take_lines, &own);
    g_main_loop_run(loop);
    return 0;
}
