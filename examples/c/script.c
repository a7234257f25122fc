/* The first script of the README, as a C program: each call with what it answers. */
#include <jaywardrobe.h>
#include <inttypes.h>
#include <stdio.h>
#include <string.h>

static jw_engine engine = JW_ENGINE_INIT;

/* Prints a call and its answer: the number, or the name of the error. */
static void say(const char *call, int64_t answer) {
    if (answer < 0)
        printf("%-20s %s\n", call, jw_strerror(answer));
    else
        printf("%-20s %" PRId64 "\n", call, answer);
}

/* Makes a pair of seqpacket sockets, and prints their descriptors. */
static void pair(uint32_t pid) {
    struct jw_pair made = {0, 0};
    int64_t answer = jw_pair(&engine, pid, JW_SEQPACKET, &made);
    say("pair", answer);
    if (answer == 0)
        printf("%-20s %" PRIu32 " %" PRIu32 "\n", "", made.first, made.second);
}

/* Sends a text, and `nfds` descriptors with it. */
static void send(uint32_t pid, uint32_t fd, const char *text, const uint32_t *fds, size_t nfds) {
    say("send", jw_send(&engine, pid, fd, text, strlen(text), fds, nfds));
}

/* Receives at most 10 bytes and 8 descriptors, and prints them. */
static void receive(uint32_t pid, uint32_t fd) {
    uint8_t bytes[10];
    uint32_t fds[8];
    struct jw_received got;
    int64_t answer = jw_recv(&engine, pid, fd, bytes, sizeof bytes, fds, 8, &got);
    say("recv", answer);
    if (answer > 0)
        printf("%-20s \"%.*s\", %zu descriptors\n", "", (int)answer, (const char *)bytes, got.fds);
}

/* Prints how many descriptors in flight are charged to the user. */
static void charged(uint32_t uid) {
    uint64_t count = 0;
    if (jw_charged(&engine, uid, &count) == 0)
        printf("%-20s %" PRIu64 "\n", "charged", count);
}

int main(void) {
    struct jw_checked checked;
    struct jw_finished finished;
    const uint32_t own = 0;

    if (jw_engine_new(&engine) < 0)
        return 1;
    say("spawn", jw_spawn(&engine, 1000, 16, false));
    pair(1);
    send(1, 1, "hi", &own, 1);
    receive(1, 0);
    say("close 0", jw_close(&engine, 1, 0));
    say("close 2", jw_close(&engine, 1, 2));
    send(1, 1, "x", &own, 0);
    pair(1);
    send(1, 2, "hi", &own, 1);
    say("close 0", jw_close(&engine, 1, 0));
    charged(1000);
    if (jw_check(&engine, &checked) == 0)
        printf("%-20s live %" PRIu64 " garbage %" PRIu64 "\n", "check", checked.live, checked.garbage);
    if (jw_pass(&engine, &finished) == 0)
        printf("%-20s %" PRIu64 " reclaimed %" PRIu64 "\n", "pass", finished.pass, finished.reclaimed);
    charged(1000);
    jw_engine_free(&engine);
    return 0;
}
