/* One side of a session of libnice, relayed: see session.py. It ignores SPEED.
 * The side that answers sends a word once it is connected, since the other may be connected earlier. */
#include <agent.h>
#include <stdio.h>
#include <stdlib.h>
#include <string.h>

enum {
    PATIENCE = 30, /* seconds */
    NUMBER = 8,    /* bytes of a message's number */
    MOST = 1000,   /* of what comes after it */
    LINE = 16384
};

static const char READY[] = "ready", END[] = "end";

typedef struct {
    NiceAgent *agent;
    GMainLoop *loop;
    guint stream;
    gboolean offers, connected, greeted, ended;
    gint64 end, heard;              /* when the last message is sent, and when something came, in us */
    guint64 count;                  /* messages that came back */
    guint8 message[NUMBER + MOST];  /* what is to come back */
    guint length;
} side;

static void fail(const char *why) {
    fprintf(stderr, "%s\n", why);
    exit(1);
}

static gboolean is_text(const void *data, guint length, const char *text) {
    return length == strlen(text) && memcmp(data, text, length) == 0;
}

static void send_message(side *own, const void *data, guint length) {
    if (nice_agent_send(own->agent, own->stream, 1, length, data) != (gint)length) {
        fail("a message isn't sent");
    }
}

/* Sends the next message, or the end. */
static gboolean send_next(gpointer given) {
    side *own = given;
    own->ended = g_get_monotonic_time() >= own->end;
    if (own->ended) {
        own->length = sizeof END - 1;
        memcpy(own->message, END, own->length);
    } else {
        own->length = NUMBER + (guint)(own->count % MOST);
        memcpy(own->message, &own->count, NUMBER);
        for (guint at = NUMBER; at < own->length; at++) own->message[at] = (guint8)g_random_int();
    }
    send_message(own, own->message, own->length);
    return G_SOURCE_REMOVE;
}

static void begin(side *own) {
    if (own->connected && own->greeted) g_idle_add(send_next, own);
}

static void closed(GObject *agent, GAsyncResult *result, gpointer loop) {
    (void)agent, (void)result;
    g_main_loop_quit(loop);
}

/* Ends the allocation, and then the loop. */
static gboolean leave(gpointer given) {
    side *own = given;
    nice_agent_close_async(own->agent, closed, own->loop);
    return G_SOURCE_REMOVE;
}

static void came_back(side *own, const char *data, guint length) {
    if (length != own->length || memcmp(data, own->message, length) != 0) {
        fail("a message came back as another");
    }
    if (own->ended) {
        g_idle_add(leave, own);
    } else {
        own->count++;
        g_timeout_add(10, send_next, own);
    }
}

static void received(NiceAgent *agent, guint stream, guint component, guint length, gchar *data,
                     gpointer given) {
    side *own = given;
    (void)agent, (void)stream, (void)component;
    own->heard = g_get_monotonic_time();
    if (!own->offers) {
        send_message(own, data, length);
        if (is_text(data, length, END)) g_timeout_add(1000, leave, own);
    } else if (!own->greeted) {
        own->greeted = is_text(data, length, READY);
        begin(own);
    } else {
        came_back(own, data, length);
    }
}

static gboolean watch(gpointer given) {
    side *own = given;
    if (g_get_monotonic_time() - own->heard > (gint64)PATIENCE * G_USEC_PER_SEC) {
        fail(own->connected ? "nothing comes any more" : "there is no connection");
    }
    return G_SOURCE_CONTINUE;
}

/* Prints this side's description as base64, and reads the other's. */
static void gathered(NiceAgent *agent, guint stream, gpointer given) {
    side *own = given;
    char line[LINE];
    gsize length;
    (void)stream;
    gchar *plain = nice_agent_generate_local_sdp(agent);
    gchar *coded = g_base64_encode((guchar *)plain, strlen(plain));
    puts(coded);
    fflush(stdout);
    g_free(plain);
    g_free(coded);
    if (!fgets(line, sizeof line, stdin)) fail("the other side has no description");
    guchar *read = g_base64_decode(line, &length);
    plain = g_strndup((gchar *)read, length);
    if (nice_agent_parse_remote_sdp(agent, plain) <= 0) fail("the other side has no candidates");
    g_free(read);
    g_free(plain);
    own->heard = g_get_monotonic_time();
}

static void changed(NiceAgent *agent, guint stream, guint component, guint state, gpointer given) {
    side *own = given;
    NiceCandidate *near, *far;
    if (state == NICE_COMPONENT_STATE_FAILED) fail("the connection failed");
    if (state != NICE_COMPONENT_STATE_READY || own->connected) return;
    if (!nice_agent_get_selected_pair(agent, stream, component, &near, &far)
        || near->type != NICE_CANDIDATE_TYPE_RELAYED) {
        fail("the connection isn't relayed");
    }
    own->connected = TRUE;
    if (own->offers) {
        begin(own);
    } else {
        send_message(own, READY, sizeof READY - 1);
    }
}

int main(int count, char **words) {
    if (count < 8) return 2;
    GMainLoop *loop = g_main_loop_new(NULL, FALSE);
    GMainContext *context = g_main_loop_get_context(loop);
    NiceAgent *agent = nice_agent_new(context, NICE_COMPATIBILITY_RFC5245);
    side own = {.agent = agent, .loop = loop, .offers = strcmp(words[1], "offers") == 0};
    own.heard = g_get_monotonic_time();
    own.end = own.heard + atoi(words[7]) * (gint64)G_USEC_PER_SEC;
    g_object_set(agent, "controlling-mode", own.offers, "force-relay", TRUE, "upnp", FALSE, "ice-tcp",
                 FALSE, NULL);
    g_signal_connect(agent, "candidate-gathering-done", G_CALLBACK(gathered), &own);
    g_signal_connect(agent, "component-state-changed", G_CALLBACK(changed), &own);
    own.stream = nice_agent_add_stream(agent, 1);
    nice_agent_set_stream_name(agent, own.stream, "application");
    gboolean tcp = strcmp(words[4], "tcp") == 0;
    if (!nice_agent_set_relay_info(agent, own.stream, 1, words[2], (guint)atoi(words[3]), words[5],
                                   words[6], tcp ? NICE_RELAY_TYPE_TURN_TCP : NICE_RELAY_TYPE_TURN_UDP)
        || !nice_agent_attach_recv(agent, own.stream, 1, context, received, &own)
        || !nice_agent_gather_candidates(agent, own.stream)) {
        fail("candidates can't be gathered");
    }
    g_timeout_add_seconds(1, watch, &own);
    g_main_loop_run(loop);
    if (own.offers) printf("%llu messages came back\n", (unsigned long long)own.count);
    g_object_unref(agent);
    g_main_loop_unref(loop);
    return 0;
}
