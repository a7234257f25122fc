/* Bad numbers of every kind: each call is refused by the error that is named here, writes nothing, and
 * leaves the engine as it was; and a buffer that is too small. The status is 0 where all of that holds. */
#include <jaywardrobe.h>
#include <inttypes.h>
#include <stdio.h>
#include <string.h>

enum { FILES = 32 };

/* What can be seen of an engine. */
struct view {
    int64_t next_pid;
    uint64_t live, total, charged, count;
    struct {
        uint64_t ino, refs, inflight;
        struct jw_file file;
    } files[FILES];
};

/* Places that a call may write, and must not. */
struct places {
    struct jw_pair pair;
    struct jw_received received;
    struct jw_finished finished;
    struct jw_ready ready;
    struct jw_file file;
    struct jw_checked checked;
    uint64_t number;
    uint8_t bytes[8];
    uint32_t fds[4];
    uint64_t inos[4];
};

static jw_engine engine = JW_ENGINE_INIT;
static struct places places, untouched;
static uint8_t big[JW_MAX_BYTES + 1];
static uint32_t many[JW_MAX_FD + 1];
static int failures;

/* What can be seen of the engine. */
static void look(struct view *view) {
    uint64_t ino = 0;
    memset(view, 0, sizeof *view);
    view->next_pid = jw_next_pid(&engine);
    jw_live(&engine, &view->live);
    jw_total(&engine, &view->total);
    jw_charged(&engine, 7, &view->charged);
    while (jw_next_after(&engine, ino, &ino) == 0 && ino != 0 && view->count < FILES) {
        uint64_t i = view->count++;
        view->files[i].ino = ino;
        jw_refs(&engine, ino, &view->files[i].refs);
        jw_inflight(&engine, ino, &view->files[i].inflight);
        jw_file(&engine, ino, &view->files[i].file);
    }
}

/* The call was refused by this error, and changed nothing. */
static void refused(int line, const struct view *before, int64_t answer, enum jw_error error) {
    struct view after;
    look(&after);
    if (answer != -(int64_t)error || memcmp(before, &after, sizeof after) != 0 || memcmp(&places, &untouched, sizeof places) != 0) {
        fprintf(stderr, "line %d: %s, and not %s\n", line, jw_strerror(answer), jw_strerror(-(int64_t)error));
        failures++;
    }
}

#define REFUSED(call, error) \
    do { \
        struct view before; \
        look(&before); \
        refused(__LINE__, &before, (call), (error)); \
    } while (0)

/* A check that must hold for the others to mean something. */
#define MUST(condition) \
    do { \
        if (!(condition)) { \
            fprintf(stderr, "line %d: %s\n", __LINE__, #condition); \
            return 1; \
        } \
    } while (0)

static const uint32_t STRANGER = 99, NO_PID = 0, LAST = UINT32_MAX;

static int64_t send(uint32_t pid, uint32_t fd, size_t len, const uint32_t *fds, size_t nfds) {
    return jw_send(&engine, pid, fd, big, len, fds, nfds);
}

static int64_t receive(uint32_t pid, uint32_t fd, size_t len) {
    return jw_recv(&engine, pid, fd, len > sizeof places.bytes ? big : places.bytes, len, places.fds, 4, &places.received);
}

static int64_t peek(uint32_t pid, uint32_t fd, size_t len) {
    return jw_peek(&engine, pid, fd, len > sizeof places.bytes ? big : places.bytes, len, places.fds, 4, &places.received);
}

/* Each call by a pid that is none. */
static void by_strangers(uint32_t pid) {
    REFUSED(jw_open(&engine, pid), JW_ESRCH);
    REFUSED(jw_dup(&engine, pid, 0), JW_ESRCH);
    REFUSED(jw_dup2(&engine, pid, 0, 1), JW_ESRCH);
    REFUSED(jw_close(&engine, pid, 0), JW_ESRCH);
    REFUSED(jw_fork(&engine, pid), JW_ESRCH);
    REFUSED(jw_limit(&engine, pid, 8), JW_ESRCH);
    REFUSED(jw_limit(&engine, pid, LAST), JW_ESRCH);
    REFUSED(jw_exit(&engine, pid), JW_ESRCH);
    REFUSED(jw_next_fd(&engine, pid, 0, &places.number), JW_EBADF);
    REFUSED(jw_poll(&engine, pid, 0, &places.ready), JW_ESRCH);
    REFUSED(jw_poll(&engine, pid, LAST, &places.ready), JW_ESRCH);
    REFUSED(jw_pair(&engine, pid, JW_STREAM, &places.pair), JW_ESRCH);
    REFUSED(jw_socket(&engine, pid, JW_STREAM), JW_ESRCH);
    REFUSED(jw_bind(&engine, pid, 0, "name", 4), JW_ESRCH);
    REFUSED(jw_listen(&engine, pid, 0, 1), JW_ESRCH);
    REFUSED(jw_connect(&engine, pid, 0, "name", 4), JW_ESRCH);
    REFUSED(jw_accept(&engine, pid, 0), JW_ESRCH);
    REFUSED(jw_shutdown(&engine, pid, 0, JW_SHUT_RDWR), JW_ESRCH);
    REFUSED(jw_shutdown(&engine, pid, LAST, JW_SHUT_RD), JW_ESRCH);
    REFUSED(jw_unconnect(&engine, pid, 0), JW_ESRCH);
    REFUSED(send(pid, 0, 1, many, 0), JW_ESRCH);
    REFUSED(send(pid, 0, 0, many, JW_MAX_FD + 1), JW_ESRCH);
    REFUSED(receive(pid, 0, 8), JW_ESRCH);
    REFUSED(peek(pid, 0, 8), JW_ESRCH);
}

/* Each call at a descriptor that is not open. */
static void at_closed(uint32_t fd) {
    REFUSED(jw_dup(&engine, 1, fd), JW_EBADF);
    REFUSED(jw_dup2(&engine, 1, fd, 1), JW_EBADF);
    REFUSED(jw_dup2(&engine, 1, 0, LAST), JW_EBADF);
    REFUSED(jw_close(&engine, 1, fd), JW_EBADF);
    REFUSED(jw_bind(&engine, 1, fd, "name", 4), JW_EBADF);
    REFUSED(jw_listen(&engine, 1, fd, 1), JW_EBADF);
    REFUSED(jw_connect(&engine, 1, fd, "name", 4), JW_EBADF);
    REFUSED(jw_accept(&engine, 1, fd), JW_EBADF);
    REFUSED(jw_shutdown(&engine, 1, fd, JW_SHUT_WR), JW_EBADF);
    REFUSED(jw_unconnect(&engine, 1, fd), JW_EBADF);
    REFUSED(send(1, fd, 1, many, 0), JW_EBADF);
    REFUSED(send(1, fd, 0, many, JW_MAX_FD + 1), JW_EBADF);
    REFUSED(send(1, 0, 1, &fd, 1), JW_EBADF);
    REFUSED(receive(1, fd, 8), JW_EBADF);
    REFUSED(peek(1, fd, 8), JW_EBADF);
}

/* Lengths and numbers out of range. Descriptor 0 is a socket with something to receive, 2 a plain
 * file, 3 a socket alone, 4 a listener that has the name "taken". */
static void out_of_range(void) {
    REFUSED(send(1, 0, 0, many, 0), JW_EINVAL);
    REFUSED(send(1, 0, JW_MAX_BYTES + 1, many, 0), JW_EMSGSIZE);
    REFUSED(send(1, 0, 1, many, JW_MAX_FD + 1), JW_EINVAL);
    REFUSED(receive(1, 0, 0), JW_EINVAL);
    REFUSED(peek(1, 0, 0), JW_EINVAL);
    REFUSED(send(1, 2, 1, many, 0), JW_ENOTSOCK);
    REFUSED(receive(1, 2, 8), JW_ENOTSOCK);
    REFUSED(peek(1, 2, 8), JW_ENOTSOCK);
    REFUSED(send(1, 3, 1, many, 0), JW_ENOTCONN);
    REFUSED(receive(1, 3, 8), JW_ENOTCONN);
    REFUSED(peek(1, 3, 8), JW_ENOTCONN);
    REFUSED(receive(1, 1, 8), JW_EAGAIN);
    REFUSED(peek(1, 1, 8), JW_EAGAIN);
    REFUSED(jw_spawn(&engine, 7, JW_MAX_NOFILE + 1, false), JW_ERANGE);
    REFUSED(jw_spawn(&engine, 7, LAST, true), JW_ERANGE);
    REFUSED(jw_limit(&engine, 1, JW_MAX_NOFILE + 1), JW_ERANGE);
    REFUSED(jw_limit(&engine, 1, LAST), JW_ERANGE);
    REFUSED(jw_bind(&engine, 1, 3, "x", 0), JW_EINVAL);
    REFUSED(jw_bind(&engine, 1, 3, big, JW_MAX_NAME + 1), JW_EINVAL);
    REFUSED(jw_bind(&engine, 1, 3, "a b", 3), JW_EINVAL);
    REFUSED(jw_bind(&engine, 1, 3, "taken", 5), JW_EADDRINUSE);
    REFUSED(jw_listen(&engine, 1, 3, 1), JW_EINVAL);
    REFUSED(jw_listen(&engine, 1, 4, LAST), JW_EINVAL);
    REFUSED(jw_connect(&engine, 1, 3, "nobody", 6), JW_ECONNREFUSED);
    REFUSED(jw_connect(&engine, 1, 3, "x", 0), JW_ECONNREFUSED);
    REFUSED(jw_connect(&engine, 1, 3, big, JW_MAX_BYTES), JW_ECONNREFUSED);
    REFUSED(jw_connect(&engine, 1, 3, "taken", 5), JW_EPROTOTYPE);
    REFUSED(jw_connect(&engine, 1, 0, "taken", 5), JW_EISCONN);
    REFUSED(jw_accept(&engine, 1, 3), JW_EINVAL);
    REFUSED(jw_accept(&engine, 1, 4), JW_EAGAIN);
    REFUSED(jw_pair(&engine, 1, 0, &places.pair), JW_EINVAL);
    REFUSED(jw_pair(&engine, STRANGER, LAST, &places.pair), JW_EINVAL);
    REFUSED(jw_socket(&engine, 1, 3), JW_EINVAL);
    REFUSED(jw_socket(&engine, 1, LAST), JW_EINVAL);
    REFUSED(jw_shutdown(&engine, 1, 2, JW_SHUT_RD), JW_ENOTSOCK);
    REFUSED(jw_shutdown(&engine, 1, 0, JW_SHUT_RDWR + 1), JW_EINVAL);
    REFUSED(jw_shutdown(&engine, STRANGER, LAST, LAST), JW_EINVAL);
}

/* The collector's calls, where they do not fit. */
static int passes(void) {
    uint64_t pass = 0;
    struct jw_finished finished;
    REFUSED(jw_slice(&engine, 1, &places.finished), JW_EIDLE);
    REFUSED(jw_slice(&engine, 0, &places.finished), JW_EIDLE);
    MUST(jw_begin(&engine, &pass) == 0 && pass == 1);
    REFUSED(jw_begin(&engine, &places.number), JW_EBUSY);
    REFUSED(jw_pass(&engine, &places.finished), JW_EBUSY);
    REFUSED(jw_slice(&engine, 0, &places.finished), JW_EINVAL);
    REFUSED(jw_slice(&engine, JW_MAX_BUDGET + 1, &places.finished), JW_EINVAL);
    REFUSED(jw_slice(&engine, LAST, &places.finished), JW_EINVAL);
    MUST(jw_slice(&engine, JW_MAX_BUDGET, &finished) == 0 && finished.pass == 1 && finished.reclaimed == 0);
    return 0;
}

/* Each call on a handle without an engine. */
static void events_without_an_engine(void) {
    REFUSED(jw_spawn(&engine, 7, 1, false), JW_ENOENGINE);
    REFUSED(jw_open(&engine, 1), JW_ENOENGINE);
    REFUSED(jw_dup(&engine, 1, 0), JW_ENOENGINE);
    REFUSED(jw_dup2(&engine, 1, 0, 1), JW_ENOENGINE);
    REFUSED(jw_close(&engine, 1, 0), JW_ENOENGINE);
    REFUSED(jw_fork(&engine, 1), JW_ENOENGINE);
    REFUSED(jw_limit(&engine, 1, 8), JW_ENOENGINE);
    REFUSED(jw_exit(&engine, 1), JW_ENOENGINE);
    REFUSED(jw_pair(&engine, 1, JW_STREAM, &places.pair), JW_ENOENGINE);
    REFUSED(jw_socket(&engine, 1, JW_STREAM), JW_ENOENGINE);
    REFUSED(jw_bind(&engine, 1, 0, "name", 4), JW_ENOENGINE);
    REFUSED(jw_listen(&engine, 1, 0, 1), JW_ENOENGINE);
    REFUSED(jw_connect(&engine, 1, 0, "name", 4), JW_ENOENGINE);
    REFUSED(jw_accept(&engine, 1, 0), JW_ENOENGINE);
    REFUSED(jw_unconnect(&engine, 1, 0), JW_ENOENGINE);
    REFUSED(jw_shutdown(&engine, 1, 0, JW_SHUT_RDWR), JW_ENOENGINE);
    REFUSED(jw_shutdown(&engine, 1, 0, JW_SHUT_RDWR + 1), JW_EINVAL);
    REFUSED(send(1, 0, 1, many, 0), JW_ENOENGINE);
    REFUSED(receive(1, 0, 8), JW_ENOENGINE);
    REFUSED(peek(1, 0, 8), JW_ENOENGINE);
    REFUSED(jw_begin(&engine, &places.number), JW_ENOENGINE);
    REFUSED(jw_slice(&engine, 1, &places.finished), JW_ENOENGINE);
    REFUSED(jw_pass(&engine, &places.finished), JW_ENOENGINE);
}

static void views_without_an_engine(void) {
    REFUSED(jw_refs(&engine, 1, &places.number), JW_ENOENGINE);
    REFUSED(jw_inflight(&engine, 1, &places.number), JW_ENOENGINE);
    REFUSED(jw_charged(&engine, 7, &places.number), JW_ENOENGINE);
    REFUSED(jw_total(&engine, &places.number), JW_ENOENGINE);
    REFUSED(jw_live(&engine, &places.number), JW_ENOENGINE);
    REFUSED(jw_next_after(&engine, 0, &places.number), JW_ENOENGINE);
    REFUSED(jw_next_pid(&engine), JW_ENOENGINE);
    REFUSED(jw_file(&engine, 1, &places.file), JW_ENOENGINE);
    REFUSED(jw_ino(&engine, 1, 0, &places.number), JW_ENOENGINE);
    REFUSED(jw_next_fd(&engine, 1, 0, &places.number), JW_ENOENGINE);
    REFUSED(jw_poll(&engine, 1, 0, &places.ready), JW_ENOENGINE);
    REFUSED(jw_name(&engine, 1, places.bytes, sizeof places.bytes), JW_ENOENGINE);
    REFUSED(jw_graph(&engine, places.bytes, sizeof places.bytes), JW_ENOENGINE);
    REFUSED(jw_check(&engine, &places.checked), JW_ENOENGINE);
    REFUSED(jw_tell_released(&engine), JW_ENOENGINE);
    REFUSED(jw_tell_changed(&engine), JW_ENOENGINE);
    REFUSED(jw_released(&engine, places.inos, 4), JW_ENOENGINE);
    REFUSED(jw_released(&engine, places.inos, 0), JW_ENOENGINE);
    REFUSED(jw_changed(&engine, places.inos, 4), JW_ENOENGINE);
    REFUSED(jw_changed(&engine, places.inos, 0), JW_ENOENGINE);
    REFUSED(jw_clear_told(&engine), JW_ENOENGINE);
}

static void without_an_engine(void) {
    events_without_an_engine();
    views_without_an_engine();
}

/* Under a limit of 0 what is open stays open, and no other number can be had. */
static int limited(void) {
    MUST(jw_limit(&engine, 1, 0) == 0);
    REFUSED(jw_open(&engine, 1), JW_EMFILE);
    REFUSED(jw_dup(&engine, 1, 2), JW_EMFILE);
    REFUSED(jw_dup2(&engine, 1, 2, 3), JW_EBADF);
    MUST(jw_dup2(&engine, 1, 2, 2) == 2);
    MUST(jw_limit(&engine, 1, 8) == 0);
    return 0;
}

/* What a stranger's number shows: nothing. */
static int strangers(void) {
    uint64_t count = 9;
    struct jw_file file;
    MUST(jw_refs(&engine, UINT64_MAX, &count) == 0 && count == 0);
    MUST(jw_inflight(&engine, 0, &count) == 0 && count == 0);
    MUST(jw_charged(&engine, LAST, &count) == 0 && count == 0);
    MUST(jw_next_after(&engine, UINT64_MAX, &count) == 0 && count == 0);
    MUST(jw_file(&engine, UINT64_MAX, &file) == 0 && file.kind == JW_NO_FILE);
    MUST(jw_ino(&engine, STRANGER, 0, &count) == 0 && count == 0);
    MUST(jw_ino(&engine, 1, LAST, &count) == 0 && count == 0);
    REFUSED(jw_next_fd(&engine, 1, LAST, &places.number), JW_EBADF);
    REFUSED(jw_poll(&engine, 1, LAST, &places.ready), JW_EBADF);
    return 0;
}

/* A walk over the table of process 1 finds just the descriptors that refer to a file, and each can be
 * polled. */
static int tables(void) {
    uint32_t from = 0;
    for (uint32_t fd = 0; fd < JW_MAX_NOFILE; fd++) {
        uint64_t ino = 9, next = 9;
        struct jw_ready ready;
        MUST(jw_ino(&engine, 1, fd, &ino) == 0);
        if (ino == 0) {
            REFUSED(jw_poll(&engine, 1, fd, &places.ready), JW_EBADF);
            continue;
        }
        MUST(jw_next_fd(&engine, 1, from, &next) == fd && next == ino);
        MUST(jw_poll(&engine, 1, fd, &ready) == 0);
        from = fd + 1;
    }
    REFUSED(jw_next_fd(&engine, 1, from, &places.number), JW_EBADF);
    return 0;
}

/* What the ends of a pair are ready for: empty, with a message, and after the other end is closed; and a
 * listener before a connection, with one, and after the accept. */
static int polled(void) {
    struct jw_ready ready;
    struct jw_pair pair;
    MUST(jw_engine_new(&engine) == 0 && jw_spawn(&engine, 7, 16, false) == 1);
    MUST(jw_open(&engine, 1) == 0 && jw_poll(&engine, 1, 0, &ready) == 0);
    MUST(ready.readable && ready.writable && !ready.hung_up);
    MUST(jw_pair(&engine, 1, JW_STREAM, &pair) == 0);
    MUST(jw_poll(&engine, 1, pair.first, &ready) == 0 && !ready.readable && ready.writable && !ready.hung_up);
    for (int i = 0; i < JW_MAX_MESSAGES; i++) {
        MUST(jw_send(&engine, 1, pair.second, "a", 1, many, 0) == 1);
    }
    MUST(jw_poll(&engine, 1, pair.first, &ready) == 0 && ready.readable && ready.writable);
    MUST(jw_poll(&engine, 1, pair.second, &ready) == 0 && !ready.readable && !ready.writable);
    MUST(jw_close(&engine, 1, pair.second) == 0);
    MUST(jw_poll(&engine, 1, pair.first, &ready) == 0 && ready.readable && !ready.writable && ready.hung_up);
    int64_t listener = jw_socket(&engine, 1, JW_STREAM), client = jw_socket(&engine, 1, JW_STREAM);
    MUST(jw_poll(&engine, 1, (uint32_t)client, &ready) == 0 && !ready.readable && !ready.writable && !ready.hung_up);
    MUST(jw_bind(&engine, 1, (uint32_t)listener, "here", 4) == 0 && jw_listen(&engine, 1, (uint32_t)listener, 1) == 0);
    MUST(jw_poll(&engine, 1, (uint32_t)listener, &ready) == 0 && !ready.readable && !ready.writable);
    MUST(jw_connect(&engine, 1, (uint32_t)client, "here", 4) == 0);
    MUST(jw_poll(&engine, 1, (uint32_t)listener, &ready) == 0 && ready.readable && !ready.writable);
    MUST(jw_poll(&engine, 1, (uint32_t)client, &ready) == 0 && !ready.readable && ready.writable);
    MUST(jw_accept(&engine, 1, (uint32_t)listener) >= 0);
    MUST(jw_poll(&engine, 1, (uint32_t)listener, &ready) == 0 && !ready.readable);
    return 0;
}

/* Returns whether a descriptor of process 1 is ready for just these. */
static bool is_ready(uint32_t fd, bool readable, bool writable, bool hung_up) {
    struct jw_ready ready;
    return jw_poll(&engine, 1, fd, &ready) == 0 && ready.readable == readable &&
           ready.writable == writable && ready.hung_up == hung_up;
}

/* Each end of a pair is closed: what waits comes first, then the end. A send is refused, with a
 * descriptor too. */
static int shut_pair(void) {
    struct jw_pair pair;
    struct jw_received got;
    MUST(jw_engine_new(&engine) == 0 && jw_spawn(&engine, 7, 16, false) == 1);
    MUST(jw_pair(&engine, 1, JW_STREAM, &pair) == 0);
    MUST(jw_send(&engine, 1, pair.first, "a", 1, many, 0) == 1);
    MUST(jw_shutdown(&engine, 1, pair.first, JW_SHUT_WR) == 0);
    MUST(is_ready(pair.first, false, false, false) && is_ready(pair.second, true, true, false));
    REFUSED(send(1, pair.first, 1, &pair.first, 1), JW_EPIPE);
    MUST(jw_recv(&engine, 1, pair.second, big, 8, NULL, 0, &got) == 1);
    MUST(jw_recv(&engine, 1, pair.second, big, 8, NULL, 0, &got) == 0);
    MUST(jw_shutdown(&engine, 1, pair.first, JW_SHUT_RD) == 0);
    MUST(jw_shutdown(&engine, 1, pair.first, JW_SHUT_RD) == 0);
    MUST(is_ready(pair.first, true, false, true) && is_ready(pair.second, true, false, true));
    REFUSED(send(1, pair.second, 1, many, 0), JW_EPIPE);
    return 0;
}

/* A socket that was shut before stays so when it is connected, and its embryo's ends are open. A
 * shut listener refuses connections, but gives those that wait. */
static int shut_before(void) {
    enum { LISTENER = 0, CLIENT = 1, LATE = 2 };
    MUST(jw_engine_new(&engine) == 0 && jw_spawn(&engine, 7, 16, false) == 1);
    for (int fd = 0; fd <= LATE; fd++)
        MUST(jw_socket(&engine, 1, JW_STREAM) == fd);
    MUST(jw_bind(&engine, 1, LISTENER, "here", 4) == 0 && jw_listen(&engine, 1, LISTENER, 1) == 0);
    MUST(jw_shutdown(&engine, 1, CLIENT, JW_SHUT_RD) == 0);
    MUST(jw_connect(&engine, 1, CLIENT, "here", 4) == 0);
    MUST(jw_shutdown(&engine, 1, LISTENER, JW_SHUT_RDWR) == 0);
    MUST(is_ready(LISTENER, true, false, true));
    uint32_t server = (uint32_t)jw_accept(&engine, 1, LISTENER);
    REFUSED(jw_connect(&engine, 1, LATE, "here", 4), JW_ECONNREFUSED);
    REFUSED(jw_accept(&engine, 1, LISTENER), JW_EAGAIN);
    REFUSED(send(1, server, 1, many, 0), JW_EPIPE);
    MUST(is_ready(CLIENT, true, true, false) && is_ready(server, false, false, false));
    MUST(jw_send(&engine, 1, CLIENT, "a", 1, many, 0) == 1);
    MUST(is_ready(server, true, false, false));
    return 0;
}

/* A datagram socket sends to a name until it is freed, or to none. What waits at one that had
 * another target is lost. A target that sends to another takes from that one alone. */
static int aimed(void) {
    enum { LOG = 0, HERE = 1, THERE = 2, STREAM = 3, PLAIN = 4 };
    struct jw_received got;
    struct jw_file file;
    uint64_t log, here;
    MUST(jw_engine_new(&engine) == 0 && jw_spawn(&engine, 7, 16, false) == 1);
    for (int fd = 0; fd <= THERE; fd++)
        MUST(jw_socket(&engine, 1, JW_DGRAM) == fd);
    MUST(jw_socket(&engine, 1, JW_STREAM) == STREAM && jw_open(&engine, 1) == PLAIN);
    REFUSED(jw_unconnect(&engine, 1, STREAM), JW_EINVAL);
    REFUSED(jw_unconnect(&engine, 1, PLAIN), JW_ENOTSOCK);
    MUST(jw_bind(&engine, 1, LOG, "log", 3) == 0 && jw_bind(&engine, 1, THERE, "there", 5) == 0);
    REFUSED(jw_listen(&engine, 1, LOG, 1), JW_EOPNOTSUPP);
    REFUSED(jw_accept(&engine, 1, LOG), JW_EOPNOTSUPP);
    REFUSED(send(1, HERE, 1, many, 0), JW_ENOTCONN);
    REFUSED(receive(1, HERE, 8), JW_EAGAIN);
    MUST(is_ready(HERE, false, true, false));
    MUST(jw_connect(&engine, 1, HERE, "log", 3) == 0 && jw_ino(&engine, 1, LOG, &log) == 0);
    MUST(jw_ino(&engine, 1, HERE, &here) == 0 && jw_file(&engine, here, &file) == 0);
    MUST(file.kind == JW_DGRAM && file.state == JW_CONNECTED && file.peer == log);
    MUST(jw_send(&engine, 1, HERE, "abc", 3, many, 0) == 3 && is_ready(LOG, true, true, false));
    MUST(jw_recv(&engine, 1, LOG, big, 2, NULL, 0, &got) == 2 && got.trunc);
    MUST(jw_connect(&engine, 1, LOG, "there", 5) == 0);
    REFUSED(send(1, HERE, 1, many, 0), JW_EPERM);
    REFUSED(jw_connect(&engine, 1, HERE, "log", 3), JW_EPERM);
    MUST(jw_connect(&engine, 1, THERE, "log", 3) == 0);
    MUST(jw_send(&engine, 1, THERE, "a", 1, many, 0) == 1);
    MUST(jw_unconnect(&engine, 1, LOG) == 0 && is_ready(LOG, false, true, false));
    MUST(jw_send(&engine, 1, HERE, "a", 1, many, 0) == 1 && jw_close(&engine, 1, LOG) == 0);
    REFUSED(send(1, HERE, 1, many, 0), JW_ECONNREFUSED);
    REFUSED(jw_connect(&engine, 1, HERE, "log", 3), JW_ECONNREFUSED);
    MUST(is_ready(HERE, false, true, false) && jw_file(&engine, here, &file) == 0);
    MUST(file.state == JW_CONNECTED && file.peer == log && jw_unconnect(&engine, 1, HERE) == 0);
    MUST(jw_unconnect(&engine, 1, HERE) == 0 && jw_file(&engine, here, &file) == 0);
    MUST(file.state == JW_IDLE && file.peer == 0);
    return 0;
}

/* A name and a picture are written as far as there is room, and the answer is the whole length. */
static int texts(void) {
    uint64_t ino = 0;
    uint8_t name[8], small[4] = {0};
    MUST(jw_ino(&engine, 1, 4, &ino) == 0 && jw_name(&engine, ino, name, sizeof name) == 5 && memcmp(name, "taken", 5) == 0);
    MUST(jw_name(&engine, ino, small, 2) == 5 && memcmp(small, "ta\0\0", 4) == 0);
    MUST(jw_name(&engine, UINT64_MAX, name, sizeof name) == 0 && memcmp(name, "taken", 5) == 0);
    MUST(jw_ino(&engine, 1, 3, &ino) == 0 && jw_name(&engine, ino, name, sizeof name) == 0);
    int64_t length = jw_graph(&engine, big, 0);
    MUST(length > 0 && big[0] == 'a' && jw_graph(&engine, big, sizeof big) == length);
    MUST(memcmp(big, "digraph world {", 15) == 0 && big[length - 2] == '}' && big[length] == 'a');
    memset(big, 'a', sizeof big);
    return 0;
}

/* A call that writes a list. */
typedef int64_t lister(const jw_engine *engine, uint64_t *inos, size_t ninos);

/* Returns whether the list has these two numbers, in either order. The call writes nothing without
 * room, the first number with room for one, and both with room for four. It answers 2 each time. */
static bool has_two(lister *list, uint64_t a, uint64_t b) {
    uint64_t inos[4] = {91, 92, 93, 94};
    if (list(&engine, inos, 0) != 2 || inos[0] != 91)
        return false;
    if (list(&engine, inos, 1) != 2 || inos[1] != 92)
        return false;
    uint64_t first = inos[0];
    return list(&engine, inos, 4) == 2 && inos[0] == first && inos[2] == 93 && inos[3] == 94
        && ((inos[0] == a && inos[1] == b) || (inos[0] == b && inos[1] == a));
}

/* Returns whether the list is empty. The call answers 0 then, and writes nothing. */
static bool is_empty(lister *list) {
    uint64_t inos[2] = {91, 92};
    return list(&engine, inos, 2) == 0 && inos[0] == 91 && inos[1] == 92;
}

/* Both lists are empty before a program asks for them. Then they have each freed file and each
 * socket whose readiness may have changed, until they are emptied. A refused call adds nothing. */
static int told(void) {
    struct jw_pair pair;
    uint64_t first, second;
    MUST(jw_engine_new(&engine) == 0 && jw_spawn(&engine, 7, 8, false) == 1);
    MUST(jw_pair(&engine, 1, JW_SEQPACKET, &pair) == 0);
    MUST(jw_open(&engine, 1) == 2 && jw_open(&engine, 1) == 3);
    MUST(jw_ino(&engine, 1, pair.first, &first) == 0);
    MUST(jw_ino(&engine, 1, pair.second, &second) == 0);
    MUST(jw_clear_told(&engine) == 0 && jw_close(&engine, 1, 3) == 0);
    MUST(is_empty(jw_released) && is_empty(jw_changed));

    MUST(jw_tell_released(&engine) == 0);
    MUST(jw_send(&engine, 1, pair.first, "a", 1, many, 0) == 1);
    MUST(jw_open(&engine, 1) == 3 && is_empty(jw_released) && is_empty(jw_changed));
    uint64_t plain[2];
    MUST(jw_ino(&engine, 1, 2, &plain[0]) == 0 && jw_ino(&engine, 1, 3, &plain[1]) == 0);
    MUST(jw_close(&engine, 1, 2) == 0 && jw_close(&engine, 1, 3) == 0);
    REFUSED(jw_close(&engine, 1, 3), JW_EBADF);
    MUST(has_two(jw_released, plain[0], plain[1]) && is_empty(jw_changed));

    MUST(jw_tell_changed(&engine) == 0 && is_empty(jw_released) && is_empty(jw_changed));
    REFUSED(receive(1, pair.first, 8), JW_EAGAIN);
    MUST(jw_open(&engine, 1) == 2 && is_empty(jw_changed));
    MUST(jw_send(&engine, 1, pair.first, "a", 1, many, 0) == 1);
    MUST(jw_send(&engine, 1, pair.second, "b", 1, many, 0) == 1);
    MUST(jw_send(&engine, 1, pair.second, "c", 1, many, 0) == 1);
    MUST(has_two(jw_changed, first, second) && is_empty(jw_released));

    MUST(jw_clear_told(&engine) == 0 && is_empty(jw_released) && is_empty(jw_changed));
    MUST(jw_exit(&engine, 1) == 0 && is_empty(jw_changed));
    MUST(jw_released(&engine, plain, 2) == 3);
    MUST(jw_clear_told(&engine) == 0 && is_empty(jw_released));
    return 0;
}

/* A slice that empties a garbage socket, which another one still holds, changes its readiness. The
 * first socket's queue holds that socket; the second one's queue holds both. */
static int emptied(void) {
    struct jw_pair first, second;
    struct jw_finished finished;
    struct jw_file file;
    uint64_t ino, changed[4];
    bool was_emptied = false;
    MUST(jw_engine_new(&engine) == 0 && jw_spawn(&engine, 7, 8, false) == 1);
    MUST(jw_pair(&engine, 1, JW_SEQPACKET, &first) == 0);
    MUST(jw_pair(&engine, 1, JW_SEQPACKET, &second) == 0);
    MUST(jw_ino(&engine, 1, first.first, &ino) == 0);
    const uint32_t both[2] = {first.first, second.first};
    MUST(jw_send(&engine, 1, first.second, "a", 1, both, 1) == 1);
    MUST(jw_send(&engine, 1, second.second, "a", 1, both, 2) == 1);
    MUST(jw_close(&engine, 1, first.first) == 0 && jw_close(&engine, 1, second.first) == 0);

    MUST(jw_tell_changed(&engine) == 0 && jw_begin(&engine, &finished.pass) == 0);
    while (jw_slice(&engine, 1, &finished) == 1) {
        MUST(jw_file(&engine, ino, &file) == 0);
        if (file.kind != JW_NO_FILE && file.messages == 0) {
            was_emptied = true;
            MUST(jw_changed(&engine, changed, 4) == 1 && changed[0] == ino);
        }
    }
    MUST(was_emptied && finished.reclaimed == 2);
    return 0;
}

/* A null pointer with length 0 is a place of length 0, and no engine is freed where there is no
 * handle. Descriptor 4 has the name "taken". */
static int nulls(void) {
    uint64_t ino = 0;
    struct jw_received got;
    REFUSED(jw_send(&engine, 1, 0, NULL, 0, NULL, 0), JW_EINVAL);
    REFUSED(jw_recv(&engine, 1, 0, NULL, 0, NULL, 0, &places.received), JW_EINVAL);
    REFUSED(jw_peek(&engine, 1, 0, NULL, 0, NULL, 0, &places.received), JW_EINVAL);
    REFUSED(jw_bind(&engine, 1, 3, NULL, 0), JW_EINVAL);
    REFUSED(jw_connect(&engine, 1, 3, NULL, 0), JW_ECONNREFUSED);
    MUST(jw_ino(&engine, 1, 4, &ino) == 0 && jw_name(&engine, ino, NULL, 0) == 5);
    MUST(jw_graph(&engine, NULL, 0) == jw_graph(&engine, big, sizeof big));
    memset(big, 'a', sizeof big);
    MUST(jw_released(&engine, NULL, 0) == 0 && jw_changed(&engine, NULL, 0) == 0);
    MUST(jw_send(&engine, 1, 0, "to", 2, NULL, 0) == 2);
    MUST(jw_recv(&engine, 1, 1, places.bytes, 8, NULL, 0, &got) == 2);
    MUST(got.fds == 0 && !got.ctrunc);
    memcpy(&places, &untouched, sizeof places);
    jw_engine_free(NULL);
    return 0;
}

/* A peek into more room than a message can fill gets the message. */
static int roomy(void) {
    struct jw_received got;
    MUST(jw_peek(&engine, 1, 0, big, sizeof big, places.fds, 0, &got) == 2);
    MUST(got.fds == 0 && !got.trunc && got.ctrunc);
    MUST(big[0] == 'h' && big[1] == 'i' && big[2] == 'a');
    memset(big, 'a', sizeof big);
    return 0;
}

/* The numbers of errno(3) for errors, and for what is none; and the version. */
static int numbers(void) {
    MUST(jw_errno(0) == 0 && jw_errno(JW_EBADF) == 0 && jw_errno(INT64_MAX) == 0);
    MUST(jw_errno(-JW_EBADF) == EBADF && jw_errno(-JW_EAGAIN) == EAGAIN);
    MUST(jw_errno(-JW_ETOOMANYREFS) == ETOOMANYREFS && jw_errno(-JW_ERANGE) == ERANGE);
    MUST(jw_errno(-JW_EIDLE) == EINVAL && jw_errno(-JW_ENOENGINE) == ENXIO);
    MUST(jw_errno(-JW_EDIFFERS) == EIO && jw_errno(-99) == EIO && jw_errno(INT64_MIN) == EIO);
    MUST(jw_version() == JW_VERSION);
    return 0;
}

/* A peek and a receive into less room than the message needs write no more than there is room for. The
 * peek leaves the message whole; what does not fit into the receive is gone. */
static int cut(void) {
    struct jw_received got;
    MUST(jw_peek(&engine, 1, 0, places.bytes, 1, places.fds, 0, &got) == 1);
    MUST(got.fds == 0 && got.trunc && got.ctrunc && places.bytes[0] == 'h');
    places.bytes[0] = untouched.bytes[0];
    MUST(memcmp(&places, &untouched, sizeof places) == 0);
    MUST(jw_recv(&engine, 1, 0, places.bytes, 1, places.fds, 0, &got) == 1);
    MUST(got.fds == 0 && got.trunc && got.ctrunc && places.bytes[0] == 'h');
    places.bytes[0] = untouched.bytes[0];
    MUST(memcmp(&places, &untouched, sizeof places) == 0);
    return 0;
}

/* Makes an engine with a process, a pair, a file, and two sockets of which one listens. A message
 * with a file waits. */
static int start(void) {
    struct jw_pair pair;
    const uint8_t hi[2] = {'h', 'i'};

    MUST(jw_engine_new(&engine) == 0);
    MUST(jw_spawn(&engine, 7, 8, false) == 1);
    MUST(jw_pair(&engine, 1, JW_SEQPACKET, &pair) == 0 && pair.first == 0 && pair.second == 1);
    MUST(jw_open(&engine, 1) == 2);
    MUST(jw_socket(&engine, 1, JW_STREAM) == 3);
    MUST(jw_socket(&engine, 1, JW_SEQPACKET) == 4);
    MUST(jw_bind(&engine, 1, 4, "taken", 5) == 0);
    MUST(jw_listen(&engine, 1, 4, 1) == 0);
    MUST(jw_send(&engine, 1, 1, hi, 2, &pair.first, 1) == 2);
    return 0;
}

/* Calls what the first engine has to refuse or to answer. */
static int first_engine(void) {
    struct jw_checked checked;

    if (start() != 0)
        return 1;
    by_strangers(STRANGER);
    by_strangers(NO_PID);
    by_strangers(LAST);
    at_closed(5);
    at_closed(LAST);
    out_of_range();
    if (passes() != 0 || limited() != 0 || strangers() != 0)
        return 1;
    MUST(jw_check(&engine, &checked) == 0 && checked.live == 5 && checked.garbage == 0);
    if (tables() != 0 || texts() != 0 || nulls() != 0 || roomy() != 0 || numbers() != 0)
        return 1;
    return cut();
}

int main(void) {
    memset(big, 'a', sizeof big);
    memset(&places, 0xa5, sizeof places);
    memcpy(&untouched, &places, sizeof places);
    without_an_engine();
    if (first_engine() != 0)
        return 1;

    jw_engine_free(&engine);
    jw_engine_free(&engine);
    without_an_engine();
    MUST(jw_engine_new(&engine) == 0);
    MUST(jw_engine_new(&engine) == 0);
    MUST(jw_next_pid(&engine) == 1);
    if (polled() != 0 || shut_pair() != 0 || shut_before() != 0 || aimed() != 0)
        return 1;
    if (told() != 0 || emptied() != 0)
        return 1;
    jw_engine_free(&engine);
    return failures == 0 ? 0 : 1;
}
