/* A file that stands for a descriptor of the host: here the writing end of a pipe.
 *
 * A parent passes the file to its child. The child sends it on, together with the socket that is to
 * receive it, and exits. That socket is then in its own queue, beside the file, and no table
 * refers to either. A pass of the collector frees both, in slices. The program closes the writing
 * end when jw_released names the file. */
#include <jaywardrobe.h>
#include <inttypes.h>
#include <poll.h>
#include <stdio.h>
#include <stdlib.h>
#include <unistd.h>

/* This program makes fewer files than FILES. */
enum { FILES = 8, BUDGET = 1 };

/* The host's descriptor behind each file, by inode number; 0 where there is none. */
static int host[FILES];

/* The answer, or the end of the program with the name of the error. */
static int64_t must(const char *what, int64_t answer) {
    if (answer < 0) {
        fprintf(stderr, "%s: %s\n", what, jw_strerror(answer));
        exit(1);
    }
    return answer;
}

/* Closes the host's descriptors whose files were freed. */
static void close_released(jw_engine *engine) {
    uint64_t inos[FILES];
    int64_t count = must("released", jw_released(engine, inos, FILES));
    for (int64_t i = 0; i < count; i++)
        if (host[inos[i]] > 0)
            close(host[inos[i]]);
    must("clear", jw_clear_told(engine));
}

/* Prints how many files are live, and whether the writing end is open. */
static void show(const char *when, jw_engine *engine, int reading_end) {
    struct pollfd ask = {reading_end, 0, 0};
    uint64_t live = 0;
    must("live", jw_live(engine, &live));
    const char *state = poll(&ask, 1, 0) == 1 && (ask.revents & POLLHUP) ? "closed" : "open";
    printf("%-20s %" PRIu64 " files live, host descriptor %s\n", when, live, state);
}

/* Opens a file with a host descriptor behind it. */
static uint32_t open_owned(jw_engine *engine, uint32_t pid, int descriptor) {
    uint64_t ino;
    uint32_t file = (uint32_t)must("open", jw_open(engine, pid));
    must("ino", jw_ino(engine, pid, file, &ino));
    host[ino] = descriptor;
    return file;
}

/* Makes a whole pass by slices, and closes what each of them frees. */
static void collect(jw_engine *engine) {
    struct jw_finished finished;
    uint64_t pass;
    int64_t runs;
    must("begin", jw_begin(engine, &pass));
    do {
        runs = must("slice", jw_slice(engine, BUDGET, &finished));
        close_released(engine);
    } while (runs == 1);
}

int main(void) {
    jw_engine engine = JW_ENGINE_INIT;
    struct jw_pair pair;
    struct jw_received got;
    uint32_t fds[2];
    uint8_t text[16] = "take this";
    int ends[2];

    if (pipe(ends) < 0)
        return 1;
    must("engine", jw_engine_new(&engine));
    must("tell", jw_tell_released(&engine));
    uint32_t parent = (uint32_t)must("spawn", jw_spawn(&engine, 1000, 64, false));
    must("pair", jw_pair(&engine, parent, JW_SEQPACKET, &pair));
    uint32_t child = (uint32_t)must("fork", jw_fork(&engine, parent));

    uint32_t file = open_owned(&engine, parent, ends[1]);
    show("opened", &engine, ends[0]);

    must("send", jw_send(&engine, parent, pair.first, text, 9, &file, 1));
    must("exit", jw_exit(&engine, parent));
    close_released(&engine);
    show("in flight", &engine, ends[0]);
    must("recv", jw_recv(&engine, child, pair.second, text, sizeof text, fds, 1, &got));
    show("received", &engine, ends[0]);

    /* The receiving socket is sent into its own queue. */
    fds[1] = pair.second;
    must("send", jw_send(&engine, child, pair.first, text, 9, fds, 2));
    must("exit", jw_exit(&engine, child));
    close_released(&engine);
    show("lost in a cycle", &engine, ends[0]);

    collect(&engine);
    show("collected", &engine, ends[0]);

    jw_engine_free(&engine);
    close(ends[0]);
    return 0;
}
