/* Want of memory: every allocation fails in turn, most of them while a pass marks. Each call is
 * then refused by JW_ENOMEM and leaves the engine as it was, or is done; asked again it is done; and
 * the calls that never need memory ask for none. Link with -Wl,--wrap=malloc,--wrap=realloc.
 * The status is 0 where all of that holds. */
#include <jaywardrobe.h>
#include <stdio.h>
#include <stdlib.h>
#include <string.h>

void *__real_malloc(size_t size);
void *__real_realloc(void *old, size_t size);
void *__wrap_malloc(size_t size);
void *__wrap_realloc(void *old, size_t size);

/* How many allocations there may be before one fails. Below 0 none does. */
static long left = -1;
/* How many were asked for. */
static long asked;

static bool fails(void) {
    asked++;
    return left >= 0 && left-- == 0;
}

void *__wrap_malloc(size_t size) {
    return fails() ? NULL : __real_malloc(size);
}

void *__wrap_realloc(void *old, size_t size) {
    return fails() ? NULL : __real_realloc(old, size);
}

static jw_engine engine = JW_ENGINE_INIT;
static int failures, refusals;

/* What can be seen of the engine in short. */
struct view {
    int64_t next_pid;
    uint64_t live, total, refs;
};

static struct view look(void) {
    struct view view = {jw_next_pid(&engine), 0, 0, 0};
    uint64_t ino = 0, count;
    jw_live(&engine, &view.live);
    jw_total(&engine, &view.total);
    while (jw_next_after(&engine, ino, &ino) == 0 && ino != 0) {
        jw_refs(&engine, ino, &count);
        view.refs += count;
    }
    return view;
}

static bool same(struct view a, struct view b) {
    return a.next_pid == b.next_pid && a.live == b.live && a.total == b.total && a.refs == b.refs;
}

/* A call, which is made again where it found no memory. It is to answer `wanted` then. */
#define DONE(call, wanted) \
    do { \
        struct view before = look(); \
        int64_t answer = (call); \
        if (answer == -JW_ENOMEM) { \
            refusals++; \
            if (!same(before, look())) \
                failures++, fprintf(stderr, "line %d: changed\n", __LINE__); \
            answer = (call); \
        } \
        if (answer != (wanted)) \
            failures++, fprintf(stderr, "line %d: %s\n", __LINE__, jw_strerror(answer)); \
    } while (0)

/* A call that asks for no memory at all, so that no refusal falls into it. */
#define FREE(call, wanted) \
    do { \
        long before = asked; \
        if ((call) != (wanted) || asked != before) \
            failures++, fprintf(stderr, "line %d\n", __LINE__); \
    } while (0)

/* Both lists, of a file that is opened and closed. */
static void lists(void) {
    uint64_t inos[16];

    DONE(jw_spawn(&engine, 7, 64, false), 1);
    DONE(jw_open(&engine, 1), 0);
    DONE(jw_tell_released(&engine), 0);
    DONE(jw_tell_changed(&engine), 0);
    FREE(jw_close(&engine, 1, 0), 0);
    FREE(jw_released(&engine, inos, 16) == 1 && inos[0] == 1, true);
    FREE(jw_changed(&engine, inos, 16), 0);
    FREE(jw_clear_told(&engine), 0);
}

/* A message with two files, while a pass marks: refused, peeked at, received. */
static void message(void) {
    struct jw_pair pair = {0, 0};
    struct jw_received got = {0, false, false};
    struct jw_finished finished = {0, 0};
    uint8_t bytes[8];
    uint32_t fds[8] = {2, 0};

    DONE(jw_pair(&engine, 1, JW_STREAM, &pair), 0);
    DONE(jw_open(&engine, 1), 2);
    DONE(jw_dup(&engine, 1, 2), 3);
    DONE(jw_dup2(&engine, 1, 2, 40), 40);
    DONE(jw_send(&engine, 1, 1, "hello", 5, fds, 2), 5);
    FREE(jw_begin(&engine, &finished.pass), 0);
    FREE(jw_slice(&engine, 1, &finished), 1);
    FREE(jw_send(&engine, 1, 1, "hello", 0, fds, 2), -JW_EINVAL);
    FREE(jw_send(&engine, 1, 2, "hello", 5, fds, 2), -JW_ENOTSOCK);
    DONE(jw_peek(&engine, 1, 0, bytes, 8, fds, 8, &got), 5);
    FREE(got.fds == 2 && memcmp(bytes, "hello", 5) == 0, true);
    FREE(jw_close(&engine, 1, fds[0]), 0);
    FREE(jw_close(&engine, 1, fds[1]), 0);
    DONE(jw_recv(&engine, 1, 0, bytes, 8, fds, 8, &got), 5);
    FREE(got.fds == 2 && memcmp(bytes, "hello", 5) == 0, true);
    FREE(jw_limit(&engine, 1, 128), 0);
}

/* A child, and a listener with a connection, whose client is sent through it and then shut out. */
static void listener(void) {
    const uint32_t client = 7;

    DONE(jw_fork(&engine, 1), 2);
    /* The child has room below its highest descriptor, as its table was cut there. */
    FREE(jw_dup(&engine, 2, 2), 6);
    FREE(jw_dup2(&engine, 2, 2, 39), 39);
    DONE(jw_socket(&engine, 1, JW_SEQPACKET), 6);
    DONE(jw_bind(&engine, 1, 6, "name", 4), 0);
    DONE(jw_listen(&engine, 1, 6, 2), 0);
    DONE(jw_socket(&engine, 1, JW_SEQPACKET), 7);
    DONE(jw_connect(&engine, 1, 7, "name", 4), 0);
    DONE(jw_accept(&engine, 1, 6), 8);
    DONE(jw_send(&engine, 1, client, "me", 2, &client, 1), 2);
    FREE(jw_shutdown(&engine, 1, 8, JW_SHUT_RD), 0);
    FREE(jw_send(&engine, 1, client, "me", 2, &client, 1), -JW_EPIPE);
    FREE(jw_shutdown(&engine, 1, 6, JW_SHUT_RDWR), 0);
    FREE(jw_shutdown(&engine, 1, 2, JW_SHUT_WR), -JW_ENOTSOCK);
}

/* A datagram socket with a message, whose target is another one, then none. */
static void datagrams(void) {
    struct jw_pair pair;

    DONE(jw_pair(&engine, 1, JW_DGRAM, &pair), 0);
    DONE(jw_bind(&engine, 1, pair.first, "mail", 4), 0);
    DONE(jw_send(&engine, 1, pair.first, "me", 2, &pair.first, 1), 2);
    FREE(jw_unconnect(&engine, 1, pair.first), 0);
    FREE(jw_connect(&engine, 1, pair.first, "mail", 4), 0);
    DONE(jw_send(&engine, 1, pair.first, "me", 2, &pair.second, 1), 2);
    FREE(jw_unconnect(&engine, 1, pair.first), 0);
    DONE(jw_send(&engine, 1, pair.second, "me", 2, NULL, 0), 2);
    FREE(jw_unconnect(&engine, 1, pair.second), 0);
    FREE(jw_unconnect(&engine, 1, 0), -JW_EINVAL);
}

/* Views and reports. */
static void reports(void) {
    struct jw_checked checked = {0, 0};
    struct jw_ready ready;
    uint8_t bytes[8];
    uint64_t ino;

    DONE(jw_check(&engine, &checked), 0);
    /* The picture is longer than the place, and has the same length each time. */
    int64_t length = jw_graph(&engine, bytes, 0);
    if (length == -JW_ENOMEM)
        refusals++, length = jw_graph(&engine, bytes, 0);
    DONE(jw_graph(&engine, bytes, sizeof bytes), length);
    FREE(length > 500 && memcmp(bytes, "digraph ", 8) == 0, true);
    FREE(jw_poll(&engine, 1, 6, &ready), 0);
    FREE(jw_next_fd(&engine, 1, 0, &ino), 0);
    FREE(jw_ino(&engine, 1, 0, &ino), 0);
}

static void life(void) {
    struct jw_finished finished = {0, 0};
    uint64_t live = 1, inos[16];

    lists();
    message();
    listener();
    datagrams();
    reports();
    FREE(jw_exit(&engine, 2), 0);
    FREE(jw_close(&engine, 1, 40), 0);
    FREE(jw_exit(&engine, 1), 0);
    FREE(jw_slice(&engine, 65536, &finished), 0);
    FREE(jw_pass(&engine, &finished), 0);
    FREE(jw_live(&engine, &live) == 0 && live == 0, true);
    FREE(jw_released(&engine, inos, 16), 8);
    FREE(jw_changed(&engine, inos, 16), 0);
    FREE(jw_clear_told(&engine), 0);
    FREE(jw_released(&engine, inos, 16), 0);
}

/* Two sockets are in each other's queues, one beside a plain file. The exit of their process and
 * the pass that frees them ask for no memory. */
static void down_without_memory(void) {
    struct jw_pair pair;
    struct jw_finished finished = {0, 0};
    const uint32_t first[] = {2, 4}, second[] = {0};
    uint64_t live = 1;

    DONE(jw_spawn(&engine, 1000, 16, false), 1);
    DONE(jw_pair(&engine, 1, JW_SEQPACKET, &pair), 0);
    DONE(jw_pair(&engine, 1, JW_SEQPACKET, &pair), 0);
    DONE(jw_open(&engine, 1), 4);
    DONE(jw_send(&engine, 1, 1, "a", 1, first, 2), 1);
    DONE(jw_send(&engine, 1, 3, "b", 1, second, 1), 1);
    FREE(jw_exit(&engine, 1), 0);
    FREE(jw_pass(&engine, &finished), 0);
    FREE(finished.pass == 1 && finished.reclaimed == 2, true);
    FREE(jw_live(&engine, &live) == 0 && live == 0, true);
}

/* Runs a trial again and again, each time with another allocation refused, up to a run that is
 * refused none. Returns whether more than ten were refused. */
static bool with_each_refused(void (*trial)(void)) {
    refusals = 0;
    for (long nth = 0; nth < 200; nth++) {
        left = nth;
        if (jw_engine_new(&engine) == -JW_ENOMEM) {
            refusals++;
            if (engine.at != NULL || jw_engine_new(&engine) != 0)
                return false;
        }
        trial();
        jw_engine_free(&engine);
        if (left >= 0)
            break;
    }
    return left >= 0 && refusals > 10;
}

int main(void) {
    bool is_refused = with_each_refused(life) && with_each_refused(down_without_memory);
    return failures == 0 && is_refused ? 0 : 1;
}
