/* Measures what a call costs: sockets are made, pass a descriptor, and are closed; and a byte is
 * sent, and received.
 *
 * A round has six calls: socketpair(2), sendmsg(2), recvmsg(2), and close(2) three times. A turn
 * has 100 rounds. A word says how many turns there are. It prints the mean over the calls of the
 * fastest turn, which other work disturbs least, and of all turns. Then a turn has 50 sends and 50
 * receives of a byte, or 50 times a send and its receive, also by a pipe: it prints the mean of the
 * fastest turn. Run it natively and under unixbox. */
#define _GNU_SOURCE
#include <stdio.h>
#include <stdlib.h>
#include <string.h>
#include <sys/socket.h>
#include <time.h>
#include <unistd.h>

enum { TURNS = 400, ROUNDS = 100, CALLS = 6, BYTES = 50 };

static void must(int holds, const char *what) {
    if (!holds) {
        perror(what);
        exit(1);
    }
}

/* Passes standard input through a new pair of sockets. */
static void pass_once(void) {
    int pair[2], fd = STDIN_FILENO;
    _Alignas(struct cmsghdr) char control[CMSG_SPACE(sizeof fd)] = {0};
    struct iovec byte = {"x", 1}, place = {&(char){0}, 1};
    struct msghdr out = {.msg_iov = &byte, .msg_iovlen = 1, .msg_control = control};
    struct msghdr in = {.msg_iov = &place, .msg_iovlen = 1, .msg_control = control};
    out.msg_controllen = in.msg_controllen = sizeof control;
    struct cmsghdr *rights = CMSG_FIRSTHDR(&out);
    rights->cmsg_level = SOL_SOCKET;
    rights->cmsg_type = SCM_RIGHTS;
    rights->cmsg_len = CMSG_LEN(sizeof fd);
    memcpy(CMSG_DATA(rights), &fd, sizeof fd);

    must(socketpair(AF_UNIX, SOCK_SEQPACKET, 0, pair) == 0, "socketpair");
    must(sendmsg(pair[0], &out, 0) == 1, "sendmsg");
    must(recvmsg(pair[1], &in, 0) == 1 && CMSG_FIRSTHDR(&in) != NULL, "recvmsg");
    memcpy(&fd, CMSG_DATA(rights), sizeof fd);
    must(close(fd) == 0 && close(pair[0]) == 0 && close(pair[1]) == 0, "close");
}

/* Returns the microseconds of the clock. */
static double now(void) {
    struct timespec time;
    must(clock_gettime(CLOCK_MONOTONIC, &time) == 0, "clock_gettime");
    return (double)time.tv_sec * 1e6 + (double)time.tv_nsec / 1e3;
}

/* The least that one of many has taken. */
static void keep_least(double *least, double took) {
    if (*least == 0 || took < *least) *least = took;
}

/* Moves bytes from one descriptor to another, so many at once. */
static void move_bytes(const int *ends, int at_once) {
    char byte = 'x';
    for (int i = 0; i < BYTES; i += at_once) {
        for (int j = 0; j < at_once; j++) must(write(ends[1], &byte, 1) == 1, "write");
        for (int j = 0; j < at_once; j++) must(read(ends[0], &byte, 1) == 1, "read");
    }
}

/* Says what a call takes that moves a byte, by a stream or by a pipe. */
static void measure_bytes(long turns) {
    double queued = 0, one = 0, pipes = 0;
    int pair[2], way[2];
    must(socketpair(AF_UNIX, SOCK_STREAM, 0, pair) == 0 && pipe(way) == 0, "pair");
    for (long turn = 0; turn < turns; turn++) {
        double begin = now();
        move_bytes(pair, BYTES);
        double middle = now();
        move_bytes(pair, 1);
        double end = now();
        move_bytes(way, 1);
        keep_least(&queued, (middle - begin) / (2 * BYTES));
        keep_least(&one, (end - middle) / (2 * BYTES));
        keep_least(&pipes, (now() - end) / (2 * BYTES));
    }
    printf("a byte: %.2f microseconds a call where 50 are queued, %.2f where one is, %.2f by a pipe\n",
           queued, one, pipes);
}

int main(int count, char **words) {
    long turns = count > 1 ? atol(words[1]) : TURNS;
    double least = 0, sum = 0;

    for (long turn = 0; turn < turns; turn++) {
        double begin = now();
        for (int i = 0; i < ROUNDS; i++)
            pass_once();
        double took = (now() - begin) / (ROUNDS * CALLS);
        keep_least(&least, took);
        sum += took;
    }
    printf("%.2f microseconds a call, %.2f on average\n", least, sum / (double)turns);
    measure_bytes(turns);
    return 0;
}
