/* Receives messages, and says from whom they are and how long they are.
 *
 * Each check prints a line, the same natively and under unixbox. The status is 0 if all hold. */
#define _GNU_SOURCE
#include "must.h"
#include <limits.h>
#include <stdbool.h>
#include <sys/socket.h>
#include <sys/syscall.h>
#include <sys/un.h>
#include <sys/wait.h>
#include <unistd.h>

enum { NAME = sizeof(sa_family_t) + 6, PEER_PIDFD = 77 }; /* SO_PEERPIDFD of Linux 6.5. */

static const struct sockaddr_un server_name = {.sun_family = AF_UNIX, .sun_path = "\0serve"};
static const struct sockaddr_un client_name = {.sun_family = AF_UNIX, .sun_path = "\0asker"};
static char text[16];

static void make_pair(int type, int *pair) {
    MUST(socketpair(AF_UNIX, type, 0, pair) == 0);
}

static void close_both(const int *fds) {
    MUST(close(fds[0]) == 0 && close(fds[1]) == 0);
}

/* Makes the two ends of a connection, which both have a name. */
static void connect_named(int type, int *ends) {
    const struct sockaddr *server = (const struct sockaddr *)&server_name;
    int listener = socket(AF_UNIX, type, 0);
    ends[0] = socket(AF_UNIX, type, 0);
    MUST(bind(listener, server, NAME) == 0 && listen(listener, 1) == 0);
    MUST(bind(ends[0], (const struct sockaddr *)&client_name, NAME) == 0);
    MUST(connect(ends[0], server, NAME) == 0);
    MUST((ends[1] = accept(listener, NULL, NULL)) >= 0 && close(listener) == 0);
}

/* A receive tells the name of the sender, and getpeername(2) also after the end of that. */
static const char *check_name(int type) {
    struct sockaddr_un name;
    socklen_t length = sizeof name;
    struct iovec part = {text, 1};
    struct msghdr message = {.msg_iov = &part, .msg_iovlen = 1, .msg_name = &name};
    int ends[2];
    connect_named(type, ends);
    message.msg_namelen = sizeof name;
    MUST(write(ends[0], "x", 1) == 1 && write(ends[1], "y", 1) == 1);
    MUST(recvfrom(ends[1], text, 1, 0, (struct sockaddr *)&name, &length) == 1);
    MUST(length == NAME && memcmp(&name, &client_name, NAME) == 0);
    MUST(recvmsg(ends[0], &message, 0) == 1 && message.msg_namelen == NAME);
    MUST(memcmp(&name, &server_name, NAME) == 0 && close(ends[1]) == 0);
    MUST(recvfrom(ends[0], text, 1, 0, (struct sockaddr *)&name, &length) == 0 && length == 0);
    length = sizeof name;
    MUST(getpeername(ends[0], (struct sockaddr *)&name, &length) == 0 && length == NAME);
    MUST(memcmp(&name, &server_name, NAME) == 0 && close(ends[0]) == 0);
    return "a receive has the sender's name, and a socket its peer's after the end";
}

/* Places for a name are tested, and left alone where no name is asked for. */
static const char *check_places(int type) {
    socklen_t length = 7, negative = (socklen_t)-1;
    int pair[2];
    make_pair(type, pair);
    MUST(write(pair[0], "x", 1) == 1);
    MUST(recvfrom(pair[1], text, 1, 0, NULL, &length) == 1 && length == 7);
    MUST(syscall(SYS_getsockname, pair[0], NULL, &length) < 0 && errno == EFAULT);
    MUST(syscall(SYS_getpeername, pair[0], text, NULL) < 0 && errno == EFAULT);
    MUST(syscall(SYS_getpeername, pair[0], text, &negative) < 0 && errno == EINVAL);
    close_both(pair);
    return "a name needs a place, and a receive may do without";
}

/* Returns the process in the credentials of the next byte. */
static pid_t next_sender(int on) {
    _Alignas(struct cmsghdr) char control[CMSG_SPACE(sizeof(struct ucred))];
    struct iovec part = {text, 1};
    struct msghdr message = {.msg_iov = &part, .msg_iovlen = 1, .msg_control = control};
    struct ucred user;
    message.msg_controllen = sizeof control;
    MUST(recvmsg(on, &message, 0) == 1 && CMSG_FIRSTHDR(&message) != NULL);
    memcpy(&user, CMSG_DATA(CMSG_FIRSTHDR(&message)), sizeof user);
    return user.pid;
}

/* Credentials are cut where there is less room, and those of a peer cannot be set. */
static const char *check_room(int type) {
    struct ucred peer = {0};
    socklen_t size = sizeof peer.pid, large = 2 * sizeof peer;
    _Alignas(struct cmsghdr) char control[CMSG_SPACE(sizeof peer)];
    struct iovec part = {text, 1};
    struct msghdr message = {.msg_iov = &part, .msg_iovlen = 1, .msg_control = control};
    int pair[2];
    make_pair(type, pair);
    MUST(getsockopt(pair[0], SOL_SOCKET, SO_PEERCRED, &peer, &size) == 0);
    MUST(size == sizeof peer.pid && peer.pid == getpid() && peer.uid == 0);
    MUST(getsockopt(pair[0], SOL_SOCKET, SO_PEERCRED, text, &large) == 0 && large == sizeof peer);
    MUST(setsockopt(pair[0], SOL_SOCKET, SO_PEERCRED, &peer, sizeof peer) < 0);
    MUST(errno == ENOPROTOOPT && setsockopt(pair[1], SOL_SOCKET, SO_PASSCRED, &(int){1}, 4) == 0);
    message.msg_controllen = CMSG_LEN(sizeof peer.pid);
    MUST(write(pair[0], "x", 1) == 1 && recvmsg(pair[1], &message, 0) == 1);
    MUST(message.msg_flags == MSG_CTRUNC && CMSG_FIRSTHDR(&message) != NULL);
    MUST(CMSG_FIRSTHDR(&message)->cmsg_len == CMSG_LEN(sizeof peer.pid));
    close_both(pair);
    return "credentials are cut to their room";
}

/* Each message has the credentials of its own sender. */
static const char *check_credentials(int type) {
    int pair[2], status;
    make_pair(type, pair);
    MUST(setsockopt(pair[1], SOL_SOCKET, SO_PASSCRED, &(int){1}, sizeof(int)) == 0);
    MUST(write(pair[0], "x", 1) == 1);
    pid_t child = fork();
    if (child == 0)
        _exit(write(pair[0], "y", 1) != 1);
    MUST(waitpid(child, &status, 0) == child && status == 0 && write(pair[0], "z", 1) == 1);
    MUST(next_sender(pair[1]) == getpid() && next_sender(pair[1]) == child);
    MUST(next_sender(pair[1]) == getpid());
    close_both(pair);
    return "each message has the credentials of its sender";
}

/* With SO_PASSCRED a receive ends where another process has sent. The end has no sender: a packet's
 * receive has no credentials then, and a stream's those of nobody. */
static const char *check_borders(int type) {
    _Alignas(struct cmsghdr) char control[CMSG_SPACE(sizeof(struct ucred))];
    struct iovec part = {text, sizeof text};
    struct msghdr message = {.msg_iov = &part, .msg_iovlen = 1, .msg_control = control};
    struct ucred user;
    int pair[2], status;
    make_pair(type, pair);
    MUST(setsockopt(pair[1], SOL_SOCKET, SO_PASSCRED, &(int){1}, sizeof(int)) == 0);
    pid_t child = fork();
    if (child == 0)
        _exit(write(pair[0], "child", 5) != 5);
    MUST(waitpid(child, &status, 0) == child && status == 0 && write(pair[0], "parent", 6) == 6);
    MUST(recv(pair[1], text, sizeof text, MSG_PEEK) == 5);
    MUST(recv(pair[1], text, 11, type == SOCK_STREAM ? MSG_WAITALL : 0) == 5);
    MUST(recv(pair[1], text, sizeof text, 0) == 6 && memcmp(text, "parent", 6) == 0);
    message.msg_controllen = sizeof control;
    MUST(close(pair[0]) == 0 && recvmsg(pair[1], &message, 0) == 0 && message.msg_flags == 0);
    MUST(message.msg_controllen == (type == SOCK_STREAM ? sizeof control : 0));
    memcpy(&user, CMSG_DATA((struct cmsghdr *)control), sizeof user);
    MUST(type == SOCK_SEQPACKET || user.pid == 0);
    MUST(close(pair[1]) == 0);
    return "a receive ends where another sends, and the end has no sender";
}

/* A program without privileges claims no other user. */
static const char *check_claim(int type) {
    _Alignas(struct cmsghdr) char control[CMSG_SPACE(sizeof(struct ucred))] = {0};
    struct iovec part = {"x", 1};
    struct msghdr message = {.msg_iov = &part, .msg_iovlen = 1, .msg_control = control};
    struct ucred root = {getpid(), 0, 0};
    int pair[2];
    make_pair(type, pair);
    message.msg_controllen = sizeof control;
    *CMSG_FIRSTHDR(&message) = (struct cmsghdr){CMSG_LEN(sizeof root), SOL_SOCKET, SCM_CREDENTIALS};
    memcpy(CMSG_DATA(CMSG_FIRSTHDR(&message)), &root, sizeof root);
    ssize_t sent = sendmsg(pair[0], &message, 0);
    MUST(geteuid() == 0 ? sent == 1 : sent < 0 && errno == EPERM);
    close_both(pair);
    return "only root sends as root";
}

/* A receive of a packet without room for all tells its length where it is asked for. */
static const char *check_length(int type) {
    int pair[2], flags = type == SOCK_SEQPACKET ? MSG_TRUNC : 0;
    ssize_t all = flags != 0 ? 6 : 2;
    make_pair(type, pair);
    MUST(write(pair[0], "packet", 6) == 6);
    MUST(recv(pair[1], text, 2, flags | MSG_PEEK) == all && recv(pair[1], text, 2, flags) == all);
    if (flags != 0) {
        MUST(write(pair[0], "packet", 6) == 6 && write(pair[0], "next", 4) == 4);
        MUST(recv(pair[1], text, 0, flags | MSG_PEEK) == 6 && read(pair[1], text, 0) == 0);
        MUST(recv(pair[1], text, 0, 0) == 0 && recv(pair[1], text, 9, 0) == 4);
    }
    close_both(pair);
    return "a receive tells the length that it is asked for";
}

/* A pidfd of the peer is that, if there is one. */
static const char *check_pidfd(int type) {
    socklen_t size = sizeof(int);
    int pair[2], pidfd = -1;
    char path[64], line[64];
    make_pair(type, pair);
    if (getsockopt(pair[0], SOL_SOCKET, PEER_PIDFD, &pidfd, &size) == 0) {
        bool is_own = false;
        sprintf(path, "/proc/self/fdinfo/%d", pidfd);
        FILE *file = fopen(path, "r");
        for (int pid; file != NULL && fgets(line, sizeof line, file) != NULL;)
            is_own = is_own || (sscanf(line, "Pid: %d", &pid) == 1 && pid == getpid());
        MUST(is_own && fclose(file) == 0 && close(pidfd) == 0);
    }
    close_both(pair);
    return "a peer has its own pidfd, or none";
}

static const struct {
    const char *name, *(*run)(int type);
} checks[] = {
    {"name", check_name},     {"places", check_places}, {"credentials", check_credentials},
    {"room", check_room},     {"claim", check_claim},   {"length", check_length},
    {"pidfd", check_pidfd},   {"borders", check_borders},
};

int main(void) {
    setvbuf(stdout, NULL, _IOLBF, 0); /* No child inherits a line. */
    for (size_t i = 0; i < sizeof checks / sizeof *checks; i++) {
        printf("%s, stream: %s\n", checks[i].name, checks[i].run(SOCK_STREAM));
        printf("%s, seqpacket: %s\n", checks[i].name, checks[i].run(SOCK_SEQPACKET));
    }
    return 0;
}
