/* Sends many short messages before any is received, and says what comes out.
 *
 * Each check prints a line for each type of socket, the same natively and under unixbox. The status
 * is 0 if all hold. */
#define _GNU_SOURCE
#include "must.h"
#include <fcntl.h>
#include <poll.h>
#include <stdbool.h>
#include <sys/socket.h>
#include <sys/wait.h>
#include <unistd.h>

enum { MANY = 200, PART = 90, FEW = 50, ROOM = 1000 };

static char bytes[ROOM];

static void make_pair(int type, int *pair) {
    MUST(socketpair(AF_UNIX, type, 0, pair) == 0);
}

static void close_both(const int *fds) {
    MUST(close(fds[0]) == 0 && close(fds[1]) == 0);
}

static bool is_readable(int fd) {
    struct pollfd ask = {fd, POLLIN, 0};
    return poll(&ask, 1, 0) == 1 && (ask.revents & POLLIN);
}

/* Sends bytes that count from here on, each by a message. */
static void send_bytes(int on, int from, int count) {
    for (int i = from; i < from + count; i++)
        MUST(send(on, &(char){(char)i}, 1, MSG_NOSIGNAL) == 1);
}

/* Receives bytes that count from here on: of a stream by as few receives as natively. */
static void recv_bytes(int on, int type, int from, int count) {
    int got = 0;
    while (got < count) {
        ssize_t part = recv(on, bytes, (size_t)(count - got), 0);
        MUST(part == (type == SOCK_STREAM ? count : 1));
        for (ssize_t i = 0; i < part; i++, got++)
            MUST(bytes[i] == (char)(from + got));
    }
}

/* What is sent waits in order, also beyond the sender's end. */
static const char *check_order(int type) {
    int pair[2];
    make_pair(type, pair);
    MUST(!is_readable(pair[1]));
    send_bytes(pair[0], 0, MANY);
    recv_bytes(pair[1], type, 0, PART);
    send_bytes(pair[0], MANY, PART);
    MUST(is_readable(pair[1]) && close(pair[0]) == 0);
    recv_bytes(pair[1], type, PART, MANY - 1);
    MUST(is_readable(pair[1]));
    recv_bytes(pair[1], type, PART + MANY - 1, 1);
    MUST(recv(pair[1], bytes, 1, 0) == 0 && close(pair[1]) == 0);
    return "all come in order, and then the end";
}

/* A sender that does not wait is refused in the end, and goes on when something is received. */
static const char *check_bound(int type) {
    int pair[2], sent = 0, got = 0;
    make_pair(type, pair);
    MUST(fcntl(pair[0], F_SETFL, O_NONBLOCK) == 0 && fcntl(pair[1], F_SETFL, O_NONBLOCK) == 0);
    while (send(pair[0], "x", 1, 0) == 1)
        sent++;
    MUST(errno == EAGAIN && sent > MANY);
    MUST(recv(pair[1], bytes, 1, 0) == 1 && send(pair[0], "x", 1, 0) == 1);
    for (ssize_t part; (part = recv(pair[1], bytes, ROOM, 0)) > 0;)
        got += (int)part;
    MUST(errno == EAGAIN && got == sent && !is_readable(pair[1]));
    close_both(pair);
    return "there is room for some hundred messages";
}

/* Sends a byte with a descriptor, after others. */
static void send_file(int on) {
    _Alignas(struct cmsghdr) char control[CMSG_SPACE(sizeof(int))] = {0};
    struct iovec part = {"f", 1};
    struct msghdr message = {.msg_iov = &part, .msg_iovlen = 1, .msg_control = control};
    message.msg_controllen = sizeof control;
    *CMSG_FIRSTHDR(&message) = (struct cmsghdr){CMSG_LEN(sizeof(int)), SOL_SOCKET, SCM_RIGHTS};
    MUST(sendmsg(on, &message, 0) == 1);
}

/* A descriptor comes behind what was sent before it, and before what was sent behind it. */
static const char *check_file(int type) {
    _Alignas(struct cmsghdr) char control[CMSG_SPACE(sizeof(int))];
    struct iovec part = {bytes, ROOM};
    struct msghdr message = {.msg_iov = &part, .msg_iovlen = 1, .msg_control = control};
    int pair[2], status, fd;
    make_pair(type, pair);
    pid_t child = fork();
    if (child == 0) {
        send_bytes(pair[0], 0, MANY);
        send_file(pair[0]);
        send_bytes(pair[0], 0, FEW);
        _exit(0);
    }
    MUST(close(pair[0]) == 0);
    if (type == SOCK_SEQPACKET)
        recv_bytes(pair[1], type, 0, MANY);
    else
        MUST(recv(pair[1], bytes, MANY, MSG_WAITALL) == MANY);
    message.msg_controllen = sizeof control;
    MUST(recvmsg(pair[1], &message, 0) == 1 && bytes[0] == 'f' && CMSG_FIRSTHDR(&message) != NULL);
    memcpy(&fd, CMSG_DATA(CMSG_FIRSTHDR(&message)), sizeof fd);
    MUST(close(fd) == 0 && waitpid(child, &status, 0) == child && status == 0);
    recv_bytes(pair[1], type, 0, FEW);
    MUST(recv(pair[1], bytes, 1, 0) == 0 && close(pair[1]) == 0);
    return "a descriptor keeps its place among them";
}

/* A peek sees as much as a receive. */
static const char *check_peek(int type) {
    int pair[2], expected = type == SOCK_STREAM ? MANY : 1;
    make_pair(type, pair);
    send_bytes(pair[0], 0, MANY);
    MUST(recv(pair[1], bytes, ROOM, MSG_PEEK) == expected);
    MUST(bytes[expected - 1] == (char)(expected - 1));
    recv_bytes(pair[1], type, 0, MANY);
    MUST(recv(pair[1], bytes, 1, MSG_PEEK | MSG_DONTWAIT) < 0 && errno == EAGAIN);
    close_both(pair);
    return "a peek sees as much as a receive";
}

/* Two senders are told apart, where a receiver asks for that. */
static const char *check_senders(int type) {
    int pair[2], status;
    make_pair(type, pair);
    MUST(setsockopt(pair[1], SOL_SOCKET, SO_PASSCRED, &(int){1}, sizeof(int)) == 0);
    send_bytes(pair[0], 0, PART);
    pid_t child = fork();
    if (child == 0) {
        send_bytes(pair[0], PART, PART);
        _exit(0);
    }
    MUST(waitpid(child, &status, 0) == child && status == 0);
    if (type == SOCK_STREAM) {
        MUST(recv(pair[1], bytes, ROOM, MSG_WAITALL) == PART && bytes[PART - 1] == PART - 1);
        MUST(recv(pair[1], bytes, ROOM, 0) == PART && bytes[0] == PART);
    }
    close_both(pair);
    return "a receive ends where another process has sent";
}

static const struct {
    const char *name, *(*run)(int type);
} checks[] = {
    {"order", check_order}, {"bound", check_bound},     {"file", check_file},
    {"peek", check_peek},   {"senders", check_senders},
};

int main(void) {
    setvbuf(stdout, NULL, _IOLBF, 0); /* No child inherits a line. */
    alarm(60);
    for (size_t i = 0; i < sizeof checks / sizeof *checks; i++) {
        printf("%s, stream: %s\n", checks[i].name, checks[i].run(SOCK_STREAM));
        printf("%s, seqpacket: %s\n", checks[i].name, checks[i].run(SOCK_SEQPACKET));
    }
    return 0;
}
