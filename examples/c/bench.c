/* Nanoseconds for each call, over two of the workloads of `make bench`: the least of many short runs.
 *
 *     openclose  a process opens a plain file and closes it
 *     pingpong   a descriptor is sent, received and closed
 *     shared     openclose by a jw_shared
 *     lock       its mutex is locked and unlocked
 *
 * A second thread has run before, since some C libraries lock more cheaply until then. */
#define _POSIX_C_SOURCE 199309L
#include <jaywardrobe_shared.h>
#include <stdio.h>
#include <time.h>

enum { RUNS = 301, ROUNDS = 2000 };

static double now(void) {
    struct timespec t;
    clock_gettime(CLOCK_MONOTONIC, &t);
    return (double)t.tv_sec * 1e9 + (double)t.tv_nsec;
}

static bool openclose(void *subject) {
    jw_engine *engine = subject;
    int64_t fd = jw_open(engine, 1);
    return fd >= 0 && jw_close(engine, 1, (uint32_t)fd) == 0;
}

static bool shared_openclose(void *subject) {
    jw_shared *shared = subject;
    int64_t fd = jw_open(jw_shared_lock(shared), 1);
    jw_shared_unlock(shared);
    int64_t closed = jw_close(jw_shared_lock(shared), 1, (uint32_t)fd);
    jw_shared_unlock(shared);
    return fd >= 0 && closed == 0;
}

static bool lock(void *subject) {
    jw_shared *shared = subject;
    return jw_shared_lock(shared) != NULL && (jw_shared_unlock(shared), true);
}

/* Number 0 and 1 are a pair, and 2 a plain file. */
static bool pingpong(void *subject) {
    jw_engine *engine = subject;
    static const uint8_t byte = 'a';
    static const uint32_t file = 2;
    struct jw_received got;
    uint8_t bytes[1];
    uint32_t fds[1];
    return jw_send(engine, 1, 0, &byte, 1, &file, 1) == 1
        && jw_recv(engine, 1, 1, bytes, 1, fds, 1, &got) == 1
        && jw_close(engine, 1, fds[0]) == 0;
}

static bool measure(const char *name, void *subject, bool (*round)(void *), int calls) {
    double least = 1e18;
    for (int run = 0; run < RUNS; run++) {
        double start = now();
        for (int i = 0; i < ROUNDS; i++)
            if (!round(subject))
                return false;
        double took = now() - start;
        least = took < least ? took : least;
    }
    printf("%s: least %.1f ns\n", name, least / ROUNDS / calls);
    return true;
}

static bool measure_engine(void) {
    jw_engine engine = JW_ENGINE_INIT;
    struct jw_pair pair;
    bool done = jw_engine_new(&engine) == 0 && jw_spawn(&engine, 1000, 1024, false) == 1
        && measure("openclose", &engine, openclose, 2)
        && jw_pair(&engine, 1, JW_SEQPACKET, &pair) == 0 && jw_open(&engine, 1) == 2
        && measure("pingpong", &engine, pingpong, 3);
    jw_engine_free(&engine);
    return done;
}

static bool measure_shared(void) {
    jw_shared shared = JW_SHARED_INIT;
    jw_engine *engine = jw_shared_lock(&shared);
    bool done = jw_engine_new(engine) == 0 && jw_spawn(engine, 1000, 1024, false) == 1;
    jw_shared_unlock(&shared);
    done = done && measure("shared", &shared, shared_openclose, 2)
        && measure("lock", &shared, lock, 1);
    jw_shared_free(&shared);
    return done;
}

static void *nothing(void *argument) {
    return argument;
}

int main(void) {
    pthread_t thread;
    bool done = pthread_create(&thread, NULL, nothing, NULL) == 0
        && pthread_join(thread, NULL) == 0
        && measure_engine() && measure_shared();
    return done ? 0 : 1;
}
