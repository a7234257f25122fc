/* A program that owns 1,000 pipes: the writing end of each stands behind a plain file.
 *
 * It plays 100,000 events from a fixed seed, with a few processes. After each event it closes the
 * writing ends whose files jw_released names, and empties the list. A pipe whose file was freed is
 * made anew for a later open. The reading ends say which writing ends are closed (poll(2),
 * POLLHUP).
 *
 * A writing end must be closed exactly when no table, queue or backlog refers to its file:
 *
 * - After each event, no named file is live or was named before. The files that were made and not
 *   named are as many as the live ones, so each freed file is named. The reading ends of the pipes
 *   that the event opens or closes are asked.
 * - Every STRIDE events, and at the end, all reading ends are compared with a recount: the arrows
 *   of the picture that jw_graph draws. jw_check recounts too. What each descriptor is ready for is
 *   compared with its file's state, and with the ends that the program has shut. After each send
 *   and receive, its answer is compared with these ends.
 * - At the end all processes exit, and passes free the rest. All writing ends are closed then.
 *
 * The status is 0 if all of that holds. */
#define _XOPEN_SOURCE 700
#include <jaywardrobe.h>
#include <inttypes.h>
#include <poll.h>
#include <stdio.h>
#include <stdlib.h>
#include <string.h>
#include <sys/resource.h>
#include <unistd.h>

enum { PIPES = 1000, EVENTS = 100000, STRIDE = 250, PROCESSES = 8, NOFILE = 96, USERS = 3 };
enum { NAMES = 6, MOST_BYTES = 48, MOST_FDS = 5, MOST_BUDGET = 40, DRAWS = 8, LAST_PASSES = 3 };
/* An event makes at most two files, so inode numbers are smaller than that. */
enum { INOS = 2 * EVENTS + 1, TEXT = 1 << 20 };
enum { INPUT = 1, OUTPUT = 2 }; /* Ends of a socket. */

/* A pipe, and the file that its writing end stood behind last. */
struct conduit {
    int reads, writes; /* Its ends. The writing end is -1 once it is closed. */
    uint64_t ino;      /* The file; 0 where there was none. */
};

/* A kind of event: how often it is drawn, how often it was done, and how many writing ends were
 * closed after it. */
struct event {
    const char *name;
    uint32_t weight;
    int64_t (*play)(uint32_t pid);
    bool frees; /* Whether some such event must free a plain file. */
    uint64_t done, closed;
};

static jw_engine engine = JW_ENGINE_INIT;
static struct conduit pipes[PIPES];
static struct conduit *owner[INOS]; /* The pipe of a plain file, also of one that was freed. */
static bool was_named[INOS];        /* Whether jw_released named the file. */
static int shut[INOS];              /* Which ends of a socket are shut. */
static uint32_t next_pipe;          /* Where the search for an unowned pipe begins. */
static uint32_t pids[PROCESSES], running;
static uint64_t made, named, opened, closed, places[INOS], released[INOS];
static uint8_t picture[TEXT + 1];
static const char *played = "start";
static long number;

#define MUST(condition) \
    do { \
        if (!(condition)) { \
            fprintf(stderr, "pipes: line %d, event %ld, %s: ", __LINE__, number, played); \
            fprintf(stderr, "not so: %s\n", #condition); \
            exit(1); \
        } \
    } while (0)

/* Draws a number below `bound` (xorshift). */
static uint32_t below(uint32_t bound) {
    static uint64_t state = 20260731;
    state ^= state << 13;
    state ^= state >> 7;
    state ^= state << 17;
    return (uint32_t)((state >> 16) % bound);
}

static uint64_t refs(uint64_t ino) {
    uint64_t count;
    MUST(jw_refs(&engine, ino, &count) == 0);
    return count;
}

/* ---- Pipes ---- */

static void make(struct conduit *it) {
    int ends[2];
    MUST(pipe(ends) == 0);
    it->reads = ends[0];
    it->writes = ends[1];
}

/* Returns whether the writing end is closed, as the reading end tells. */
static bool is_hung_up(const struct conduit *it) {
    struct pollfd ask = {it->reads, 0, 0};
    MUST(poll(&ask, 1, 0) >= 0);
    return ask.revents & POLLHUP;
}

/* Returns the next pipe that stands behind no live file; NULL where there is none. */
static struct conduit *unowned(void) {
    for (uint32_t i = 0; i < PIPES; i++) {
        struct conduit *it = &pipes[(next_pipe + i) % PIPES];
        if (it->ino == 0 || it->writes < 0)
            return it;
    }
    return NULL;
}

/* Puts the writing end of a pipe behind a new file. */
static void own(uint64_t ino, struct conduit *it) {
    MUST(ino > 0 && ino <= made && owner[ino] == NULL);
    if (it->writes < 0) {
        MUST(is_hung_up(it) && close(it->reads) == 0);
        make(it);
    }
    it->ino = ino;
    owner[ino] = it;
    next_pipe = (uint32_t)(it - pipes + 1) % PIPES;
    opened++;
    MUST(!is_hung_up(it));
}

/* Closes the writing ends whose files are named. The named files are exactly those that were freed.
 * Returns how many writing ends were closed. */
static uint64_t close_released(void) {
    uint64_t live, before = closed;
    int64_t count = jw_released(&engine, released, INOS);
    MUST(count >= 0 && count < INOS);
    for (int64_t i = 0; i < count; i++) {
        uint64_t ino = released[i];
        MUST(ino > 0 && ino <= made && refs(ino) == 0 && !was_named[ino]);
        was_named[ino] = true;
        named++;
        if (owner[ino] != NULL) {
            MUST(owner[ino]->ino == ino && !is_hung_up(owner[ino]));
            MUST(close(owner[ino]->writes) == 0);
            owner[ino]->writes = -1;
            closed++;
        }
    }
    for (int64_t i = 0; i < count; i++)
        MUST(owner[released[i]] == NULL || is_hung_up(owner[released[i]]));
    MUST(jw_live(&engine, &live) == 0 && live == made - named);
    MUST(jw_clear_told(&engine) == 0);
    return closed - before;
}

/* Counts the places that hold each file: the arrows to it, but for the dotted ones, which are a
 * peer's. */
static void recount(void) {
    int64_t length = jw_graph(&engine, picture, TEXT);
    MUST(length > 0 && length <= TEXT);
    picture[length] = '\0';
    memset(places, 0, (made + 1) * sizeof *places);
    for (char *line = strtok((char *)picture, "\n"); line != NULL; line = strtok(NULL, "\n")) {
        const char *arrow = strstr(line, " -> f");
        if (arrow != NULL && strstr(line, "style=dotted") == NULL) {
            uint64_t ino = strtoull(arrow + 5, NULL, 10);
            MUST(ino > 0 && ino <= made);
            places[ino]++;
        }
    }
}

/* Checks that a reading end is hung up exactly if its file was freed, by the recount. Returns how
 * many are hung up. */
static uint64_t compare_pipes(void) {
    static struct pollfd asks[PIPES];
    struct jw_checked checked;
    uint64_t hung_up = 0;
    recount();
    for (int i = 0; i < PIPES; i++)
        asks[i] = (struct pollfd){pipes[i].reads, 0, 0};
    MUST(poll(asks, PIPES, 0) >= 0);
    for (int i = 0; i < PIPES; i++) {
        bool is_hung = asks[i].revents & POLLHUP;
        MUST(is_hung == (pipes[i].ino != 0 && places[pipes[i].ino] == 0));
        hung_up += is_hung;
    }
    for (uint64_t ino = 1; ino <= made; ino++)
        MUST(owner[ino] == NULL || places[ino] == refs(ino));
    MUST(jw_check(&engine, &checked) == 0);
    return hung_up;
}

/* ---- Ends of sockets ---- */

/* A file as the engine shows it, and which ends of it and of its peer are shut. */
struct seen {
    uint64_t ino;
    struct jw_file file, peer;
    int shut, peer_shut;
};

static struct seen see(uint32_t pid, uint32_t fd) {
    struct seen it;
    MUST(jw_ino(&engine, pid, fd, &it.ino) == 0 && jw_file(&engine, it.ino, &it.file) == 0);
    MUST(jw_file(&engine, it.file.peer, &it.peer) == 0);
    it.shut = shut[it.ino];
    it.peer_shut = shut[it.file.peer];
    return it;
}

/* Whether it is a socket that has a peer and ends of connections. */
static bool is_connective(const struct seen *it) {
    return it->file.kind == JW_STREAM || it->file.kind == JW_SEQPACKET;
}

/* Checks what a descriptor is ready for. */
static void compare_readiness(uint32_t pid, uint32_t fd) {
    struct seen it = see(pid, fd);
    struct jw_ready ready;
    bool is_connected = it.file.state == JW_CONNECTED, is_hung_up = it.file.state == JW_HUNG_UP;
    bool has_end = is_hung_up || (is_connected && (it.shut & INPUT));
    bool is_open = is_connected && !(it.shut & OUTPUT) && !(it.peer_shut & INPUT);
    MUST(jw_poll(&engine, pid, fd, &ready) == 0);
    if (!is_connective(&it))
        return;
    MUST(ready.readable == (it.file.messages + it.file.embryos > 0 || has_end));
    MUST(ready.writable == (is_open && it.peer.messages < JW_MAX_MESSAGES));
    MUST(ready.hung_up == (is_hung_up || it.shut == (INPUT | OUTPUT)));
}

static void compare_all(void) {
    uint64_t ino;
    compare_pipes();
    for (uint32_t i = 0; i < running; i++)
        for (int64_t fd = 0; (fd = jw_next_fd(&engine, pids[i], (uint32_t)fd, &ino)) >= 0; fd++)
            compare_readiness(pids[i], (uint32_t)fd);
}

/* Checks what a send has answered: EPIPE where an end is shut, but for errors that come first. */
static int64_t sent(const struct seen *it, int64_t answer) {
    bool is_closed = (it->shut & OUTPUT) || (it->peer_shut & INPUT);
    bool is_late = !(it->shut & OUTPUT) && (answer == -JW_ETOOMANYREFS || answer == -JW_ENOBUFS);
    if (!is_connective(it) || it->file.state != JW_CONNECTED || answer == -JW_EBADF || is_late)
        return answer;
    MUST((answer == -JW_EPIPE) == is_closed);
    return answer;
}

/* Checks what a receive has answered: the end where nothing is left and the input is shut. */
static int64_t received(const struct seen *it, int64_t answer) {
    if (is_connective(it) && it->file.state == JW_CONNECTED && it->file.messages == 0)
        MUST(answer == (it->shut & INPUT ? 0 : -JW_EAGAIN));
    return answer;
}

/* ---- Events ---- */

/* Draws a descriptor, most often one that is open. */
static uint32_t any_fd(uint32_t pid) {
    uint64_t ino;
    int64_t fd = jw_next_fd(&engine, pid, below(NOFILE), &ino);
    if (fd < 0)
        fd = jw_next_fd(&engine, pid, 0, &ino);
    return fd < 0 || below(20) == 0 ? below(NOFILE) : (uint32_t)fd;
}

/* Draws a descriptor, most often that of a socket in this state. */
static uint32_t any_socket(uint32_t pid, enum jw_state state) {
    uint32_t fd = any_fd(pid);
    for (int i = 0; i < DRAWS; i++) {
        uint64_t ino;
        struct jw_file file;
        MUST(jw_ino(&engine, pid, fd, &ino) == 0 && jw_file(&engine, ino, &file) == 0);
        if (file.kind != JW_NO_FILE && file.kind != JW_PLAIN && file.state == (uint32_t)state)
            break;
        fd = any_fd(pid);
    }
    return fd;
}

static uint32_t any_kind(void) {
    static const uint32_t kinds[] = {JW_STREAM, JW_SEQPACKET, JW_DGRAM};
    return kinds[below(3)];
}

static const char *any_name(void) {
    static const char names[NAMES + 1] = "abcdef";
    return &names[below(NAMES)];
}

/* Counts the files that an event makes. */
static int64_t makes(uint64_t count, int64_t answer) {
    made += answer >= 0 ? count : 0;
    return answer;
}

/* Keeps the pid of a new process. */
static int64_t started(int64_t answer) {
    if (answer > 0)
        pids[running++] = (uint32_t)answer;
    return answer;
}

static int64_t play_spawn(uint32_t pid) {
    (void)pid;
    if (running == PROCESSES)
        return -JW_EAGAIN;
    return started(jw_spawn(&engine, 1000 + below(USERS), NOFILE, below(4) == 0));
}

static int64_t play_fork(uint32_t pid) {
    return running == PROCESSES ? -JW_EAGAIN : started(jw_fork(&engine, pid));
}

static int64_t play_exit(uint32_t pid) {
    for (uint32_t i = 0; i < running; i++)
        if (pids[i] == pid)
            pids[i--] = pids[--running];
    return jw_exit(&engine, pid);
}

static int64_t play_open(uint32_t pid) {
    struct conduit *it = unowned();
    if (it == NULL)
        return -JW_ENFILE;
    int64_t fd = makes(1, jw_open(&engine, pid));
    if (fd >= 0) {
        uint64_t ino;
        MUST(jw_ino(&engine, pid, (uint32_t)fd, &ino) == 0);
        own(ino, it);
    }
    return fd;
}

static int64_t play_dup(uint32_t pid) {
    return jw_dup(&engine, pid, any_fd(pid));
}

static int64_t play_dup2(uint32_t pid) {
    return jw_dup2(&engine, pid, any_fd(pid), any_fd(pid));
}

static int64_t play_close(uint32_t pid) {
    return jw_close(&engine, pid, any_fd(pid));
}

static int64_t play_limit(uint32_t pid) {
    return jw_limit(&engine, pid, below(3) == 0 ? below(NOFILE) : NOFILE);
}

static int64_t play_pair(uint32_t pid) {
    struct jw_pair pair;
    return makes(2, jw_pair(&engine, pid, any_kind(), &pair));
}

static int64_t play_socket(uint32_t pid) {
    return makes(1, jw_socket(&engine, pid, any_kind()));
}

/* The socket that got a name last. */
static struct {
    uint32_t pid, fd;
} bound;

static int64_t play_bind(uint32_t pid) {
    uint32_t fd = any_socket(pid, JW_IDLE);
    int64_t answer = jw_bind(&engine, pid, fd, any_name(), 1);
    if (answer == 0)
        bound.pid = pid, bound.fd = fd;
    return answer;
}

static int64_t play_listen(uint32_t pid) {
    if (below(2) == 0)
        return jw_listen(&engine, bound.pid, bound.fd, 1 + below(4));
    return jw_listen(&engine, pid, any_socket(pid, JW_IDLE), 1 + below(4));
}

static int64_t play_connect(uint32_t pid) {
    uint32_t fd = any_socket(pid, below(3) == 0 ? JW_CONNECTED : JW_IDLE);
    struct seen it = see(pid, fd);
    return makes(it.file.kind == JW_DGRAM ? 0 : 1, jw_connect(&engine, pid, fd, any_name(), 1));
}

static int64_t play_unconnect(uint32_t pid) {
    return jw_unconnect(&engine, pid, any_socket(pid, JW_CONNECTED));
}

static int64_t play_accept(uint32_t pid) {
    return jw_accept(&engine, pid, any_socket(pid, JW_LISTENING));
}

static int64_t play_send(uint32_t pid) {
    static const uint8_t bytes[MOST_BYTES];
    uint32_t fds[MOST_FDS], on = any_socket(pid, JW_CONNECTED), count = below(MOST_FDS + 1);
    for (uint32_t i = 0; i < count; i++)
        fds[i] = below(3) > 0 ? any_fd(pid) : any_socket(pid, JW_CONNECTED);
    struct seen it = see(pid, on);
    return sent(&it, jw_send(&engine, pid, on, bytes, 1 + below(MOST_BYTES), fds, count));
}

/* Receives, often with too little room. */
static int64_t play_recv(uint32_t pid) {
    uint8_t bytes[MOST_BYTES];
    uint32_t fds[MOST_FDS], on = any_socket(pid, JW_CONNECTED);
    struct jw_received out;
    struct seen it = see(pid, on);
    size_t length = 1 + below(MOST_BYTES), room = below(MOST_FDS);
    return received(&it, jw_recv(&engine, pid, on, bytes, length, fds, room, &out));
}

static int64_t play_peek(uint32_t pid) {
    uint8_t bytes[MOST_BYTES];
    uint32_t fds[MOST_FDS], on = any_socket(pid, JW_CONNECTED);
    struct jw_received out;
    struct seen it = see(pid, on);
    size_t length = 1 + below(MOST_BYTES), room = below(MOST_FDS);
    return received(&it, jw_peek(&engine, pid, on, bytes, length, fds, room, &out));
}

static int64_t play_shutdown(uint32_t pid) {
    uint32_t fd = any_socket(pid, below(3) == 0 ? JW_IDLE : JW_CONNECTED), how = below(3);
    struct seen it = see(pid, fd);
    int64_t answer = jw_shutdown(&engine, pid, fd, how);
    if (answer < 0)
        return answer;
    int own = how == JW_SHUT_RD ? INPUT : how == JW_SHUT_WR ? OUTPUT : INPUT | OUTPUT;
    shut[it.ino] |= own;
    if (it.file.peer != 0 && is_connective(&it))
        shut[it.file.peer] |= (own & INPUT ? OUTPUT : 0) | (own & OUTPUT ? INPUT : 0);
    compare_readiness(pid, fd);
    return answer;
}

static int64_t play_begin(uint32_t pid) {
    uint64_t pass;
    (void)pid;
    return jw_begin(&engine, &pass);
}

static int64_t play_slice(uint32_t pid) {
    struct jw_finished finished;
    (void)pid;
    return jw_slice(&engine, 1 + below(MOST_BUDGET), &finished);
}

static int64_t play_pass(uint32_t pid) {
    struct jw_finished finished;
    (void)pid;
    return jw_pass(&engine, &finished);
}

static struct event events[] = {
    {"spawn", 4, play_spawn, false, 0, 0},
    {"open", 240, play_open, false, 0, 0},
    {"dup", 60, play_dup, false, 0, 0},
    {"dup2", 60, play_dup2, true, 0, 0},
    {"close", 200, play_close, true, 0, 0},
    {"fork", 6, play_fork, false, 0, 0},
    {"exit", 4, play_exit, true, 0, 0},
    {"limit", 10, play_limit, false, 0, 0},
    {"pair", 40, play_pair, false, 0, 0},
    {"socket", 70, play_socket, false, 0, 0},
    {"bind", 60, play_bind, false, 0, 0},
    {"listen", 60, play_listen, false, 0, 0},
    {"connect", 80, play_connect, true, 0, 0},
    {"unconnect", 12, play_unconnect, true, 0, 0},
    {"accept", 60, play_accept, false, 0, 0},
    {"send", 160, play_send, false, 0, 0},
    {"recv", 80, play_recv, true, 0, 0},
    {"peek", 10, play_peek, false, 0, 0},
    {"shutdown", 12, play_shutdown, false, 0, 0},
    {"begin", 10, play_begin, false, 0, 0},
    {"slice", 40, play_slice, true, 0, 0},
    {"pass", 4, play_pass, true, 0, 0},
};
enum { KINDS = sizeof events / sizeof *events };

static struct event *any_event(void) {
    uint32_t sum = 0;
    for (int i = 0; i < KINDS; i++)
        sum += events[i].weight;
    uint32_t draw = below(sum);
    struct event *it = events;
    while (draw >= it->weight)
        draw -= it++->weight;
    return it;
}

/* Plays an event, and closes what it freed. */
static void play(struct event *it, uint32_t pid) {
    played = it->name;
    int64_t answer = it->play(pid);
    MUST(answer != -JW_ENOMEM && answer != -JW_EDIFFERS && answer != -JW_ENOENGINE);
    it->done += answer >= 0;
    it->closed += close_released();
}

static struct event *event_of(const char *name) {
    struct event *it = events;
    while (strcmp(it->name, name) != 0)
        it++;
    return it;
}

/* Allows as many descriptors as two for each pipe need. */
static bool has_room(void) {
    struct rlimit limit;
    if (getrlimit(RLIMIT_NOFILE, &limit) != 0)
        return false;
    limit.rlim_cur = limit.rlim_max;
    return limit.rlim_max > 2 * PIPES + 16 && setrlimit(RLIMIT_NOFILE, &limit) == 0;
}

int main(void) {
    uint64_t live;

    if (!has_room()) {
        fprintf(stderr, "pipes: RLIMIT_NOFILE is too small for %d pipes\n", PIPES);
        return 1;
    }
    for (int i = 0; i < PIPES; i++)
        make(&pipes[i]);
    MUST(jw_engine_new(&engine) == 0 && jw_tell_released(&engine) == 0);

    for (number = 1; number <= EVENTS; number++) {
        if (running == 0)
            play(event_of("spawn"), 0);
        else
            play(any_event(), pids[below(running)]);
        if (number % STRIDE == 0)
            compare_all();
    }

    while (running > 0)
        play(event_of("exit"), pids[0]);
    uint64_t most = event_of("pass")->done + LAST_PASSES;
    while (jw_live(&engine, &live) == 0 && live > 0) {
        MUST(event_of("pass")->done < most);
        play(event_of("slice"), 0); /* A pass that runs is finished first. */
        play(event_of("pass"), 0);
    }
    MUST(compare_pipes() == PIPES && closed == opened);
    jw_engine_free(&engine);

    printf("pipes: %d events, %" PRIu64 " files opened and freed\n", EVENTS, opened);
    for (const struct event *it = events; it < events + KINDS; it++)
        printf("    %-9s %6" PRIu64 " done, %6" PRIu64 " closed\n", it->name, it->done, it->closed);
    for (const struct event *it = events; it < events + KINDS; it++)
        MUST(it->done > 0 && (it->closed > 0) == it->frees);
    printf("pipes: %d of %d writing ends closed\n", PIPES, PIPES);
    return 0;
}
