/* A sandbox in small: a server that listens, a client that hands it files, and a collector that
 * runs between their steps.
 *
 * The server accepts a connection and reads requests. The client, which is held to few descriptors,
 * sends it a file with each request, and the server keeps what it gets. Then the client is at
 * fault: it makes sockets that hold only each other, each in the other's queue, and closes them. No
 * close(2) frees those: a pass of the collector does, in slices of a few files, and the server
 * works between two slices. */
#include <jaywardrobe.h>
#include <inttypes.h>
#include <stdio.h>
#include <stdlib.h>
#include <string.h>

enum { ROUNDS = 3, CYCLES = 4, BUDGET = 3 };

/* The answer, or the end of the program with the name of the error. */
static int64_t must(const char *what, int64_t answer) {
    if (answer < 0) {
        fprintf(stderr, "%s: %s\n", what, jw_strerror(answer));
        exit(1);
    }
    return answer;
}

static uint64_t counted(int64_t (*count)(const jw_engine *, uint64_t *), const jw_engine *engine) {
    uint64_t n = 0;
    must("count", count(engine, &n));
    return n;
}

static void show(const char *when, const jw_engine *engine) {
    printf("%-24s live %" PRIu64 ", in flight %" PRIu64 "\n", when, counted(jw_live, engine), counted(jw_total, engine));
}

/* The server's socket, which listens under this name. */
static uint32_t listener(jw_engine *engine, uint32_t server, const char *name) {
    uint32_t fd = (uint32_t)must("socket", jw_socket(engine, server, JW_SEQPACKET));
    must("bind", jw_bind(engine, server, fd, name, strlen(name)));
    must("listen", jw_listen(engine, server, fd, 8));
    return fd;
}

/* The client's socket, connected to that name. */
static uint32_t connected(jw_engine *engine, uint32_t client, const char *name) {
    uint32_t fd = (uint32_t)must("socket", jw_socket(engine, client, JW_SEQPACKET));
    must("connect", jw_connect(engine, client, fd, name, strlen(name)));
    return fd;
}

/* The client opens a file, sends it with a request, and closes its own descriptor: the file lives on
 * in the message. */
static void request(jw_engine *engine, uint32_t client, uint32_t fd, const char *text) {
    uint32_t file = (uint32_t)must("open", jw_open(engine, client));
    must("send", jw_send(engine, client, fd, text, strlen(text), &file, 1));
    must("close", jw_close(engine, client, file));
}

/* The server looks whether a request waits, and then receives it, and has its file. */
static void serve(jw_engine *engine, uint32_t server, uint32_t fd) {
    uint8_t text[32];
    uint32_t files[4];
    struct jw_received got;
    if (must("peek", jw_peek(engine, server, fd, text, sizeof text, files, 0, &got)) == 0) {
        printf("server: the client is gone\n");
        return;
    }
    int64_t length = must("recv", jw_recv(engine, server, fd, text, sizeof text, files, 4, &got));
    printf("server: \"%.*s\", file at %" PRIu32 "\n", (int)length, (const char *)text, files[0]);
}

/* Two sockets, each in the other's queue, and no descriptor for either. */
static void leak_a_cycle(jw_engine *engine, uint32_t pid) {
    struct jw_pair pair;
    must("pair", jw_pair(engine, pid, JW_STREAM, &pair));
    must("send", jw_send(engine, pid, pair.first, "me", 2, &pair.first, 1));
    must("send", jw_send(engine, pid, pair.second, "me", 2, &pair.second, 1));
    must("close", jw_close(engine, pid, pair.first));
    must("close", jw_close(engine, pid, pair.second));
}

/* A pass in slices, with a request between two of them. */
static void collect(jw_engine *engine, uint32_t client, uint32_t out, uint32_t server, uint32_t in) {
    struct jw_finished finished = {0, 0};
    uint64_t pass = 0;
    int slices = 1;
    must("begin", jw_begin(engine, &pass));
    while (must("slice", jw_slice(engine, BUDGET, &finished)) == 1) {
        if (slices++ == 2) {
            request(engine, client, out, "between slices");
            serve(engine, server, in);
        }
    }
    printf("pass %" PRIu64 ": %s, reclaimed %" PRIu64 "\n", finished.pass, slices > 2 ? "several slices" : "few slices",
           finished.reclaimed);
}

int main(void) {
    jw_engine engine = JW_ENGINE_INIT;
    struct jw_checked checked;

    must("engine", jw_engine_new(&engine));
    uint32_t server = (uint32_t)must("spawn", jw_spawn(&engine, 1, 64, false));
    uint32_t client = (uint32_t)must("spawn", jw_spawn(&engine, 2, 64, false));
    uint32_t waits = listener(&engine, server, "files");
    uint32_t out = connected(&engine, client, "files");
    uint32_t in = (uint32_t)must("accept", jw_accept(&engine, server, waits));
    must("limit", jw_limit(&engine, client, 16));
    show("connected", &engine);

    for (int round = 0; round < ROUNDS; round++)
        request(&engine, client, out, "keep this");
    show("three requests sent", &engine);
    for (int round = 0; round < ROUNDS; round++)
        serve(&engine, server, in);
    show("three requests served", &engine);

    for (int cycle = 0; cycle < CYCLES; cycle++)
        leak_a_cycle(&engine, client);
    show("four cycles leaked", &engine);
    must("check", jw_check(&engine, &checked));
    printf("check: %" PRIu64 " live, %" PRIu64 " of them garbage\n", checked.live, checked.garbage);
    collect(&engine, client, out, server, in);
    show("collected", &engine);

    must("exit", jw_exit(&engine, client));
    serve(&engine, server, in);
    must("exit", jw_exit(&engine, server));
    show("all processes gone", &engine);
    jw_engine_free(&engine);
    return 0;
}
