/* Agents of libnice for bench/connections/measure, in one main loop: measured.h says how it is called. They nominate
 * as RFC 8445 says (regular nomination), and keep consent (RFC 7675); with $AGGRESSIVE as RFC 5245 allowed. */
#include "measured.h"

#include <agent.h>

typedef struct {
    NiceAgent *agent;
    guint stream;
    bool is_described, is_connected;
} side;

static GMainContext *context;

static void received(NiceAgent *agent, guint stream, guint component, guint length, gchar *bytes, gpointer given) {
    (void)agent, (void)stream, (void)component, (void)length, (void)bytes, (void)given;
}

static void gathered(NiceAgent *agent, guint stream, gpointer given) {
    (void)agent, (void)stream;
    ((side *)given)->is_described = true;
}

static void changed(NiceAgent *agent, guint stream, guint component, guint state, gpointer given) {
    (void)agent, (void)stream, (void)component;
    ((side *)given)->is_connected = state == NICE_COMPONENT_STATE_CONNECTED || state == NICE_COMPONENT_STATE_READY;
}

static void open_side(side *of, const char *address, const place *in, bool controls) {
    NiceAddress own;
    NiceAgentOption options = getenv("AGGRESSIVE") != NULL ? 0 : NICE_AGENT_OPTION_REGULAR_NOMINATION;
    memset(of, 0, sizeof *of);
    of->agent = nice_agent_new_full(context, NICE_COMPATIBILITY_RFC5245, options | NICE_AGENT_OPTION_CONSENT_FRESHNESS);
    g_object_set(of->agent, "controlling-mode", controls, "upnp", FALSE, "ice-tcp", FALSE, NULL);
    if (in != NULL && in->stun_address != NULL) {
        g_object_set(of->agent, "stun-server", in->stun_address, "stun-server-port", atoi(in->stun_port), NULL);
    }
    g_signal_connect(of->agent, "candidate-gathering-done", G_CALLBACK(gathered), of);
    g_signal_connect(of->agent, "component-state-changed", G_CALLBACK(changed), of);
    nice_address_init(&own);
    if (!nice_address_set_from_string(&own, address) || !nice_agent_add_local_address(of->agent, &own)) fail(address);
    of->stream = nice_agent_add_stream(of->agent, 1);
    if (!nice_agent_attach_recv(of->agent, of->stream, 1, context, received, of) ||
        !nice_agent_gather_candidates(of->agent, of->stream)) {
        fail("candidates");
    }
    while (!of->is_described) g_main_context_iteration(context, TRUE);
}

/* Gives an agent the other one's description. */
static void describe(side *to, const side *other) {
    gchar *fragment, *password;
    if (!nice_agent_get_local_credentials(other->agent, other->stream, &fragment, &password)) fail("credentials");
    GSList *candidates = nice_agent_get_local_candidates(other->agent, other->stream, 1);
    if (!nice_agent_set_remote_credentials(to->agent, to->stream, fragment, password) ||
        nice_agent_set_remote_candidates(to->agent, to->stream, 1, candidates) <= 0) {
        fail("the other side's candidates");
    }
    nice_agent_peer_candidate_gathering_done(to->agent, to->stream);
    g_slist_free_full(candidates, (GDestroyNotify)nice_candidate_free);
    g_free(fragment);
    g_free(password);
}

static void connect_all(const side *all, size_t count) {
    for (size_t connected = 0; connected < count;) {
        if (all[connected].is_connected) connected++;
        else g_main_context_iteration(context, TRUE);
    }
}

static void connect_pair(const place *in) {
    side both[2];
    for (int i = 0; i < 2; i++) {
        enter(in->network[i]);
        open_side(&both[i], in->address[i], in, i == 0);
    }
    unsigned long before = sent_in(in);
    uint64_t began = nanoseconds();
    for (int i = 0; i < 2; i++) describe(&both[i], &both[!i]);
    connect_all(both, 2);
    uint64_t took = nanoseconds() - began;
    printf("%.0f %lu\n", (double)took / 1000, sent_in(in) - before);
    fflush(stdout);
    for (int i = 0; i < 2; i++) g_object_unref(both[i].agent);
    while (g_main_context_iteration(context, FALSE)) continue;
}

static gboolean ends(gpointer given) {
    *(bool *)given = true;
    return G_SOURCE_REMOVE;
}

static void hold(size_t count, unsigned seconds) {
    side *all = calloc(count, sizeof *all);
    uint64_t before = resident();
    if (all == NULL) fail("memory");
    for (size_t i = 0; i < count; i++) open_side(&all[i], "127.0.0.1", NULL, i % 2 == 0);
    for (size_t i = 0; i < count; i++) describe(&all[i], &all[i ^ 1]);
    connect_all(all, count);
    printf("%.0f\n", (double)(resident() - before) / (double)count);
    for (int i = 0; i < 2; i++) {
        bool is_over = false;
        uint64_t taken = processor();
        g_timeout_add(seconds * 1000, ends, &is_over);
        while (!is_over) g_main_context_iteration(context, TRUE);
        printf("%.0f\n", (double)(processor() - taken) / seconds);
        fflush(stdout);
    }
    for (size_t i = 0; i < count; i++) {
        if (!all[i].is_connected) fail("a connection");
    }
}

int main(int count, char **words) {
    place in;
    make_room();
    context = g_main_context_default();
    if (count == 4 && strcmp(words[1], "hold") == 0) {
        hold((size_t)atoi(words[2]), (unsigned)atoi(words[3]));
    } else {
        for (int left = read_place(count, words, &in); left > 0; left--) connect_pair(&in);
    }
    return 0;
}
