/* Sets options of sockets and ends connections, and says what comes out.
 *
 * Each check prints a line, the same natively and under unixbox. The status is 0 if all hold. */
#define _GNU_SOURCE
#include "must.h"
#include <poll.h>
#include <sys/socket.h>
#include <sys/wait.h>
#include <unistd.h>

enum { PAUSE = 50000 }; /* Microseconds. */

static char text[16];

static void make_pair(int type, int *pair) {
    MUST(socketpair(AF_UNIX, type, 0, pair) == 0);
}

static void close_both(const int *fds) {
    MUST(close(fds[0]) == 0 && close(fds[1]) == 0);
}

static int readiness(int fd) {
    struct pollfd ask = {fd, POLLIN | POLLOUT, 0};
    MUST(poll(&ask, 1, 0) >= 0);
    return ask.revents;
}

/* A receive waits for as many bytes as SO_RCVLOWAT says, if it may wait and asks for so many. */
static const char *check_low_water(void) {
    int pair[2], status;
    make_pair(SOCK_STREAM, pair);
    MUST(setsockopt(pair[1], SOL_SOCKET, SO_RCVLOWAT, &(int){6}, sizeof(int)) == 0);
    pid_t child = fork();
    if (child == 0) {
        MUST(write(pair[0], "abc", 3) == 3 && usleep(PAUSE) == 0);
        MUST(write(pair[0], "def", 3) == 3 && write(pair[0], "ghi", 3) == 3);
        _exit(0);
    }
    MUST(read(pair[1], text, 3) == 3 && memcmp(text, "abc", 3) == 0);
    MUST(read(pair[1], text, sizeof text) == 6 && memcmp(text, "defghi", 6) == 0);
    MUST(waitpid(child, &status, 0) == child && status == 0 && write(pair[0], "jk", 2) == 2);
    MUST(recv(pair[1], text, sizeof text, MSG_DONTWAIT) == 2);
    close_both(pair);
    return "a receive waits for as many bytes as it should";
}

/* A send buffer is as large as Linux makes it. */
static const char *check_buffer(void) {
    int pair[2], size = 0, before = 0;
    socklen_t room = sizeof size;
    make_pair(SOCK_STREAM, pair);
    MUST(getsockopt(pair[0], SOL_SOCKET, SO_SNDBUF, &before, &room) == 0 && room == sizeof size);
    MUST(setsockopt(pair[0], SOL_SOCKET, SO_SNDBUF, &(int){20000}, sizeof size) == 0);
    MUST(getsockopt(pair[0], SOL_SOCKET, SO_SNDBUF, &size, &room) == 0 && size == 40000);
    MUST(getsockopt(pair[1], SOL_SOCKET, SO_SNDBUF, &size, &room) == 0 && size == before);
    MUST(setsockopt(pair[0], SOL_SOCKET, SO_SNDBUF, &size, 3) < 0 && errno == EINVAL);
    close_both(pair);
    return before == size ? "twice as many as a program asks for, and its peer's is as before" : "";
}

/* Returns what a receive answers: a length, or the negative errno. */
static int receive(int on) {
    ssize_t length = recv(on, text, sizeof text, MSG_DONTWAIT);
    return length >= 0 ? (int)length : -errno;
}

/* A peer that closes with unread data is told of once, and poll(2) has no POLLERR then. */
static void check_reset(int type) {
    int pair[2];
    make_pair(type, pair);
    MUST(write(pair[0], "x", 1) == 1 && write(pair[1], "y", 1) == 1 && close(pair[1]) == 0);
    printf("reset: %d", readiness(pair[0]));
    for (int i = 0; i < 3; i++)
        printf(", %d (%d)", receive(pair[0]), readiness(pair[0]));
    MUST(close(pair[0]) == 0);
    make_pair(type, pair);
    MUST(write(pair[0], "x", 1) == 1 && close(pair[1]) == 0);
    MUST(send(pair[0], "x", 1, MSG_NOSIGNAL) < 0);
    printf(", %s\n", strerror(errno));
    MUST(send(pair[0], "x", 1, MSG_NOSIGNAL) < 0 && errno == EPIPE && close(pair[0]) == 0);
}

int main(void) {
    setvbuf(stdout, NULL, _IOLBF, 0); /* No child inherits a line. */
    printf("low water: %s\n", check_low_water());
    printf("buffer: %s\n", check_buffer());
    check_reset(SOCK_STREAM);
    check_reset(SOCK_SEQPACKET);
    return 0;
}
