/* Graphs of sockets in each other's queues, with no descriptor left for any of them: which files
 * are freed?
 *
 * Each message carries a socket and a file. A line of output names how a socket is reached (by the
 * other end of its pair, or by a client of a listener), its type, and the graph, and says how many
 * of the files are freed. With "peers open" the other ends are closed after a first look, and then
 * the files are counted again.
 *
 *     Linux 6.18.44          all files, but none of the last graph
 *     gVisor 0.0~20221219    those that hang on no cycle, once the peers are closed
 *
 * A kernel that keeps the last graph has six of it more after each run: they outlive the probe. */
#include "sockets.h"

enum { MOST = 8 };
enum form { PAIRS, LISTENERS };

/* Socket `from[k]` lies in the queue of socket `into[k]`. The edges are sent in this order. */
static const struct graph {
    const char *name;
    int sockets, edges, from[MOST], into[MOST];
} GRAPHS[] = {
    {"chain", 3, 2, {0, 1}, {1, 2}},
    {"itself", 1, 1, {0}, {0}},
    {"two", 2, 2, {0, 1}, {1, 0}},
    {"triangle", 3, 3, {0, 1, 2}, {1, 2, 0}},
    {"cross edge", 4, 5, {0, 1, 2, 1, 3}, {1, 2, 0, 3, 2}},
    {"backtrack from a component", 5, 5, {0, 0, 1, 2, 3}, {1, 4, 2, 3, 1}},
    {"group of three", 3, 4, {0, 1, 2, 1}, {1, 2, 1, 0}},
};

/* Makes a socket that receives, and the end that sends to it. */
static void make(enum form form, int type, int *receiver, int *sender) {
    int ends[2];
    char name[40];
    if (form == PAIRS) {
        new_pair(type, ends);
        *receiver = ends[0];
        *sender = ends[1];
    } else {
        *receiver = new_listener(type, 4, name);
        *sender = new_socket(type);
        MUST(connect_name(*sender, name) == 0);
    }
}

/* Linux looks for garbage when some socket is closed. */
static void close_a_pair(void) {
    int ends[2];
    new_pair(SOCK_STREAM, ends);
    close(ends[0]);
    close(ends[1]);
}

/* Waits for about a second at most. */
static int count_freed(const int *readers, int count) {
    int freed = 0;
    for (int k = 0; k < count; k++)
        freed += is_freed(readers[k], k == 0 ? 1000 : 20);
    return freed;
}

static void close_all(const int *fds, int count) {
    for (int k = 0; k < count; k++)
        close(fds[k]);
}

static void play(const struct graph *graph, enum form form, int type, bool peers_open) {
    int receivers[MOST], senders[MOST], readers[MOST];
    for (int k = 0; k < graph->sockets; k++)
        make(form, type, &receivers[k], &senders[k]);
    for (int k = 0; k < graph->edges; k++) {
        int files[2] = {receivers[graph->from[k]], new_file(&readers[k])};
        MUST(send_text(senders[graph->into[k]], "a", files, 2) == 1);
        close(files[1]);
    }
    close_all(receivers, graph->sockets);
    if (!peers_open)
        close_all(senders, graph->sockets);
    close_a_pair();
    printf("%-9s %-9s %-26s %s", form == PAIRS ? "pairs" : "listeners", type_name(type),
        graph->name, peers_open ? "peers open:" : "all closed:");
    printf(" %d of %d freed", count_freed(readers, graph->edges), graph->edges);
    if (peers_open) {
        close_all(senders, graph->sockets);
        printf(", then closed: %d", count_freed(readers, graph->edges));
    }
    printf("\n");
    close_all(readers, graph->edges);
}

int main(void) {
    setvbuf(stdout, NULL, _IOLBF, 0);
    for (int form = PAIRS; form <= LISTENERS; form++)
        for (size_t type = 0; type < 2; type++)
            for (size_t k = 0; k < sizeof GRAPHS / sizeof *GRAPHS; k++)
                play(&GRAPHS[k], (enum form)form, TYPES[type], false);
    for (int form = PAIRS; form <= LISTENERS; form++)
        for (size_t k = 0; k < sizeof GRAPHS / sizeof *GRAPHS; k++)
            play(&GRAPHS[k], (enum form)form, SOCK_SEQPACKET, true);
    return 0;
}
