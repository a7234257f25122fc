/* Threads on one engine: four workers in a ring pass files to one another, beside a collector that
 * does slices. usage: threads [CALLS]
 *
 * Each worker is a process. It opens files and sends them to the next worker, receives from the one
 * before, looks at descriptors, and loses pairs of sockets that only their own queue holds. It ends
 * after its part of CALLS calls. A call may answer EAGAIN or ENFILE; any other error ends the
 * program. The bytes of a message are its number and how many files it carries, so that the
 * receiver sees whether one is missing, doubled or mixed up.
 *
 * At the end all processes exit and a pass frees the rest. Then no file is live, each inode number
 * was listed as freed once, the passes have reclaimed each lost socket, and jw_check finds no
 * difference. The status is 0 if all of that holds. */
#include <jaywardrobe_shared.h>
#include <inttypes.h>
#include <stdatomic.h>
#include <stdio.h>
#include <stdlib.h>

enum { WORKERS = 4, CALLS = 200000, MOST_FDS = 3, BUDGET = 16 };

/* A worker: its process, the sockets to the next worker and from the one before, how many calls it
 * makes, and what it did. */
struct worker {
    pthread_t thread;
    uint32_t pid, to, from, random;
    uint64_t share, calls, made, lost, sent, received;
};

/* What the collector did: slices, sockets that were reclaimed, freed files, and the sum of their
 * inode numbers. */
struct collector {
    uint64_t slices, reclaimed, freed, sum;
};

static jw_shared shared = JW_SHARED_INIT;
static atomic_bool is_over;

static int64_t allowed(int line, int64_t answer) {
    if (answer < 0 && answer != -JW_EAGAIN && answer != -JW_ENFILE) {
        fprintf(stderr, "line %d: %s\n", line, jw_strerror(answer));
        exit(1);
    }
    return answer;
}

/* Takes the lock for one call. */
static jw_engine *lock(void) {
    return jw_shared_lock(&shared);
}

/* Releases the lock, and returns what the call answered. */
static int64_t unlock(int64_t answer) {
    jw_shared_unlock(&shared);
    return answer;
}

/* A call of a worker, which takes the lock. */
#define CALL(worker, call) ((worker)->calls++, allowed(__LINE__, unlock(call)))

/* A check, or a call by the main thread. */
#define MUST(condition) \
    do { \
        if (!(condition)) { \
            fprintf(stderr, "line %d: %s\n", __LINE__, #condition); \
            exit(1); \
        } \
    } while (0)

/* Returns a number below this one (xorshift). */
static uint32_t below(struct worker *worker, uint32_t bound) {
    worker->random ^= worker->random << 13;
    worker->random ^= worker->random >> 17;
    worker->random ^= worker->random << 5;
    return worker->random % bound;
}

static void close_all(struct worker *worker, const uint32_t *fds, size_t count) {
    for (size_t i = 0; i < count; i++)
        MUST(CALL(worker, jw_close(lock(), worker->pid, fds[i])) == 0);
}

/* Opens up to three files and sends them to the next worker. */
static void send_files(struct worker *worker) {
    uint32_t fds[MOST_FDS], wanted = below(worker, MOST_FDS + 1), count = 0;
    while (count < wanted) {
        int64_t fd = CALL(worker, jw_open(lock(), worker->pid));
        if (fd < 0)
            break;
        fds[count++] = (uint32_t)fd;
        worker->made++;
    }
    const uint64_t message[2] = {worker->sent, count};
    int64_t length = CALL(worker, jw_send(lock(), worker->pid, worker->to, message,
                                          sizeof message, fds, count));
    if (length > 0)
        worker->sent++;
    close_all(worker, fds, count);
}

/* Receives a message from the worker before, and closes its files. */
static void receive_files(struct worker *worker) {
    struct jw_received got;
    uint64_t message[2];
    uint32_t fds[MOST_FDS];
    int64_t length = CALL(worker, jw_recv(lock(), worker->pid, worker->from, message,
                                          sizeof message, fds, MOST_FDS, &got));
    if (length < 0)
        return;
    MUST(length == sizeof message && !got.trunc && !got.ctrunc);
    MUST(message[0] == worker->received && message[1] == got.fds);
    worker->received++;
    close_all(worker, fds, got.fds);
}

/* Makes two sockets that only the second one's queue holds in the end. */
static void lose_pair(struct worker *worker) {
    struct jw_pair pair;
    if (CALL(worker, jw_pair(lock(), worker->pid, JW_STREAM, &pair)) < 0)
        return;
    const uint32_t both[2] = {pair.first, pair.second};
    MUST(CALL(worker, jw_send(lock(), worker->pid, pair.first, "us", 2, both, 2)) == 2);
    close_all(worker, both, 2);
    worker->made += 2;
    worker->lost += 2;
}

/* Looks at the socket to the next worker. */
static void look(struct worker *worker) {
    struct jw_file file;
    struct jw_ready ready;
    uint64_t ino = 0, refs = 0;
    MUST(CALL(worker, jw_ino(lock(), worker->pid, worker->to, &ino)) == 0 && ino > 0);
    MUST(CALL(worker, jw_file(lock(), ino, &file)) == 0 && file.kind == JW_SEQPACKET);
    MUST(CALL(worker, jw_refs(lock(), ino, &refs)) == 0 && refs == WORKERS);
    MUST(CALL(worker, jw_poll(lock(), worker->pid, worker->to, &ready)) == 0);
    MUST(!ready.hung_up);
}

static void *work(void *argument) {
    struct worker *worker = argument;
    while (worker->calls < worker->share) {
        switch (below(worker, 8)) {
        case 0: lose_pair(worker); break;
        case 1: look(worker); break;
        case 2: case 3: case 4: send_files(worker); break;
        default: receive_files(worker); break;
        }
    }
    return NULL;
}

/* Counts the freed files, and empties their list: no call of another thread comes between. */
static void count_freed(struct collector *collector) {
    static uint64_t inos[JW_MAX_FILES];
    jw_engine *engine = jw_shared_lock(&shared);
    int64_t count = jw_released(engine, inos, JW_MAX_FILES);
    jw_clear_told(engine);
    jw_shared_unlock(&shared);
    MUST(count >= 0 && count <= JW_MAX_FILES);
    collector->freed += (uint64_t)count;
    for (int64_t i = 0; i < count; i++)
        collector->sum += inos[i];
}

/* Does a pass in slices, with calls of the workers between them. */
static void do_pass(struct collector *collector) {
    struct jw_finished finished;
    uint64_t number;
    int64_t runs;
    MUST(unlock(jw_begin(lock(), &number)) == 0);
    do {
        runs = unlock(jw_slice(lock(), BUDGET, &finished));
        MUST(runs >= 0);
        collector->slices++;
        count_freed(collector);
    } while (runs == 1);
    MUST(finished.pass == number);
    collector->reclaimed += finished.reclaimed;
}

static void *collect(void *argument) {
    while (!is_over)
        do_pass(argument);
    return NULL;
}

/* Makes the processes, which have all sockets of the ring. */
static void make_ring(struct worker *workers, uint64_t share) {
    MUST(jw_shared_new(&shared) == 0 && unlock(jw_tell_released(lock())) == 0);
    MUST(unlock(jw_spawn(lock(), 7, JW_MAX_NOFILE, true)) == 1);
    for (uint32_t i = 0; i < WORKERS; i++) {
        struct jw_pair pair;
        MUST(unlock(jw_pair(lock(), 1, JW_SEQPACKET, &pair)) == 0);
        workers[i].to = pair.first;
        workers[(i + 1) % WORKERS].from = pair.second;
        workers[i].made = 2;
    }
    for (uint32_t i = 0; i < WORKERS; i++) {
        workers[i].pid = i + 1;
        workers[i].random = i + 1;
        workers[i].share = share;
        MUST(i == 0 || unlock(jw_fork(lock(), 1)) == i + 1);
    }
}

/* Ends the processes, and compares what is left and what was freed with what the workers did. */
static void settle(const struct worker *workers, struct collector *collector) {
    struct jw_checked checked;
    uint64_t made = 0, lost = 0, calls = 0, received = 0;
    for (uint32_t i = 0; i < WORKERS; i++) {
        MUST(unlock(jw_exit(lock(), workers[i].pid)) == 0);
        MUST(workers[(i + 1) % WORKERS].received <= workers[i].sent);
        received += workers[i].received;
        made += workers[i].made;
        lost += workers[i].lost;
        calls += workers[i].calls;
    }
    do_pass(collector);
    MUST(unlock(jw_check(lock(), &checked)) == 0 && checked.live == 0 && checked.garbage == 0);
    MUST(collector->freed == made && collector->sum == made * (made + 1) / 2);
    MUST(received > 0 && lost > 0 && collector->reclaimed == lost);
    printf("%" PRIu64 " calls, %" PRIu64 " files, %" PRIu64 " slices\n", calls, made,
           collector->slices);
}

int main(int count, char **words) {
    static struct worker workers[WORKERS];
    struct collector collector = {0, 0, 0, 0};
    pthread_t thread;
    make_ring(workers, (count > 1 ? strtoull(words[1], NULL, 10) : CALLS) / WORKERS);
    for (uint32_t i = 0; i < WORKERS; i++)
        MUST(pthread_create(&workers[i].thread, NULL, work, &workers[i]) == 0);
    MUST(pthread_create(&thread, NULL, collect, &collector) == 0);
    for (uint32_t i = 0; i < WORKERS; i++)
        MUST(pthread_join(workers[i].thread, NULL) == 0);
    is_over = true;
    MUST(pthread_join(thread, NULL) == 0);
    settle(workers, &collector);
    jw_shared_free(&shared);
    return 0;
}
