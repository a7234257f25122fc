/* Asks what sockets are ready for, between sends and receives, and says what comes out.
 *
 * A word says how each message is told: by epoll(7) with EPOLLET (epoll, and the number of an
 * instance that is inherited), or by SIGIO, which fcntl(2) or ioctl(2) asks for. Without a word only
 * levels are seen. Each check prints a line, the same natively and under unixbox. The status is 0 if
 * all hold. */
#define _GNU_SOURCE
#include "must.h"
#include <fcntl.h>
#include <poll.h>
#include <signal.h>
#include <sys/epoll.h>
#include <sys/ioctl.h>
#include <sys/socket.h>
#include <sys/wait.h>
#include <unistd.h>

enum { MESSAGES = 40, ROUNDS = 10, EDGES = 70 };

static volatile sig_atomic_t signals; /* How many have come. */

static int ready(int fd) {
    struct pollfd ask = {fd, POLLIN | POLLOUT, 0};
    MUST(poll(&ask, 1, 0) >= 0);
    return ask.revents;
}

static void send_one(int fd) {
    MUST(send(fd, "x", 1, MSG_DONTWAIT) == 1);
}

static void receive_one(int fd) {
    char byte;
    MUST(recv(fd, &byte, 1, MSG_DONTWAIT) == 1 && byte == 'x');
}

/* A socket is readable as long as there are messages, and its peer writable as long as there is
 * room, however many have come and gone. */
static const char *check_levels(const int *pair) {
    for (int round = 0; round < ROUNDS; round++) {
        for (int i = 0; i < MESSAGES; i++) {
            send_one(pair[0]);
            MUST(ready(pair[1]) == (POLLIN | POLLOUT) && ready(pair[0]) == POLLOUT);
        }
        for (int i = 0; i < MESSAGES - 1; i++) {
            receive_one(pair[1]);
            MUST(ready(pair[1]) == (POLLIN | POLLOUT) && ready(pair[0]) == POLLOUT);
        }
    }
    for (int i = 0; i < ROUNDS; i++) {
        MUST(ready(pair[1]) == (POLLIN | POLLOUT));
        receive_one(pair[1]);
    }
    MUST(ready(pair[1]) == POLLOUT);
    return "readable with messages, writable with room";
}

/* A sender is not writable where its peer has no room, and is again when all is received. */
static const char *check_room(const int *pair) {
    for (int round = 0; round < ROUNDS; round++) {
        int count = 0;
        while (send(pair[0], "x", 1, MSG_DONTWAIT) == 1) count++;
        MUST(ready(pair[0]) == 0);
        for (int i = 0; i < count; i++) receive_one(pair[1]);
        MUST(ready(pair[0]) == POLLOUT && ready(pair[1]) == POLLOUT);
    }
    return "not writable without room";
}

/* A message that a waiting receive takes leaves nothing to receive. */
static const char *check_waiting(const int *pair) {
    char byte;
    int status;
    pid_t child = fork();
    if (child == 0) {
        for (int i = 0; i < ROUNDS; i++)
            MUST(read(pair[1], &byte, 1) == 1 && write(pair[1], &byte, 1) == 1);
        MUST(ready(pair[1]) & POLLOUT);
        _exit(0);
    }
    for (int i = 0; i < ROUNDS; i++) {
        MUST(write(pair[0], "x", 1) == 1 && read(pair[0], &byte, 1) == 1);
        MUST(ready(pair[0]) == POLLOUT && ready(pair[1]) == POLLOUT);
    }
    MUST(wait(&status) == child && WIFEXITED(status) && WEXITSTATUS(status) == 0);
    return "received at once, and nothing is left";
}

static void note_signal(int number) {
    (void)number;
    signals++;
}

/* SIGIO tells each message, also where others are queued. */
static const char *check_signals(const int *pair, int by_ioctl) {
    int yes = 1;
    MUST(signal(SIGIO, note_signal) != SIG_ERR);
    send_one(pair[0]);
    MUST(fcntl(pair[1], F_SETOWN, getpid()) == 0);
    MUST(by_ioctl ? ioctl(pair[1], FIOASYNC, &yes) == 0 : fcntl(pair[1], F_SETFL, O_ASYNC) == 0);
    signals = 0;
    for (int i = 0; i < ROUNDS; i++) send_one(pair[0]);
    MUST(signals == ROUNDS);
    return "a signal for each message";
}

/* Returns how many events there are at once. */
static int events(int epoll) {
    struct epoll_event event;
    return epoll_wait(epoll, &event, 1, 0);
}

/* Each message is an edge, also where others are queued. */
static const char *check_edges(const int *pair, const char *inherited) {
    struct epoll_event edges = {.events = EPOLLIN | EPOLLET};
    send_one(pair[0]);
    send_one(pair[0]);
    int epoll = inherited != NULL ? dup(atoi(inherited)) : epoll_create1(EPOLL_CLOEXEC);
    MUST(epoll >= 0 && epoll_ctl(epoll, EPOLL_CTL_ADD, pair[1], &edges) == 0);
    MUST(events(epoll) == 1 && events(epoll) == 0);
    for (int i = 0; i < EDGES; i++) {
        send_one(pair[0]);
        MUST(events(epoll) == 1 && events(epoll) == 0);
        receive_one(pair[1]);
        MUST(events(epoll) == 0);
    }
    receive_one(pair[1]);
    receive_one(pair[1]);
    MUST(events(epoll) == 0 && ready(pair[1]) == POLLOUT && close(epoll) == 0);
    return "an event for each message";
}

static void check_type(int type, const char *name, const char *word, const char *inherited) {
    int pair[2];
    MUST(socketpair(AF_UNIX, type, 0, pair) == 0);
    if (strcmp(word, "epoll") == 0) printf("edges, %s: %s\n", name, check_edges(pair, inherited));
    printf("levels, %s: %s\n", name, check_levels(pair));
    printf("room, %s: %s\n", name, check_room(pair));
    printf("waiting, %s: %s\n", name, check_waiting(pair));
    if (strcmp(word, "fcntl") == 0) printf("signals, %s: %s\n", name, check_signals(pair, 0));
    if (strcmp(word, "ioctl") == 0) printf("signals, %s: %s\n", name, check_signals(pair, 1));
}

int main(int count, char **words) {
    const char *word = count > 1 ? words[1] : "";
    setvbuf(stdout, NULL, _IOLBF, 0); /* No child inherits a line. */
    check_type(SOCK_STREAM, "stream", word, count > 2 ? words[2] : NULL);
    check_type(SOCK_SEQPACKET, "seqpacket", word, count > 2 ? words[2] : NULL);
    return 0;
}
