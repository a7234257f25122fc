/* Sends datagrams between the ends of a pair, and to sockets that have names.
 *
 * Each check prints lines, the same natively and under unixbox. The status is 0 if all hold. */
#define _GNU_SOURCE
#include "must.h"
#include <fcntl.h>
#include <poll.h>
#include <stdbool.h>
#include <stddef.h>
#include <sys/ioctl.h>
#include <sys/socket.h>
#include <sys/stat.h>
#include <sys/un.h>
#include <sys/wait.h>
#include <unistd.h>

enum { PAUSE = 50000, MANY = 100, LONG = 4096 }; /* Microseconds; messages; bytes. */

static char text[LONG];

static struct sockaddr_un address_of(const char *name, socklen_t *length) {
    struct sockaddr_un address = {.sun_family = AF_UNIX};
    bool is_path = name[0] == '/';
    strcpy(address.sun_path + !is_path, name);
    *length = (socklen_t)(offsetof(struct sockaddr_un, sun_path) + strlen(name) + 1);
    return address;
}

static int bind_to(int fd, const char *name) {
    socklen_t length;
    struct sockaddr_un address = address_of(name, &length);
    return bind(fd, (struct sockaddr *)&address, length);
}

static int connect_to(int fd, const char *name) {
    socklen_t length;
    struct sockaddr_un address = address_of(name, &length);
    return connect(fd, (struct sockaddr *)&address, length);
}

static int unconnect(int fd) {
    struct sockaddr none = {.sa_family = AF_UNSPEC};
    return connect(fd, &none, sizeof none);
}

static int open_socket(void) {
    int fd = socket(AF_UNIX, SOCK_DGRAM | SOCK_CLOEXEC, 0);
    MUST(fd >= 0);
    return fd;
}

/* Prints an answer: what it is, or an error. */
static void print_answer(ssize_t answer) {
    if (answer >= 0)
        printf(" %zd", answer);
    else
        printf(" (%s)", strerror(errno));
}

static void print_ready(int fd) {
    struct pollfd ask = {fd, POLLIN | POLLOUT | POLLRDHUP, 0};
    MUST(poll(&ask, 1, 0) >= 0);
    printf(" %s%s%s%s%s.", ask.revents & POLLIN ? "in" : "", ask.revents & POLLOUT ? "out" : "",
           ask.revents & POLLRDHUP ? "rdhup" : "", ask.revents & POLLHUP ? "hup" : "",
           ask.revents & POLLERR ? "err" : "");
}

static void print_send(int fd, const char *what) {
    print_answer(send(fd, what, strlen(what), MSG_DONTWAIT | MSG_NOSIGNAL));
}

/* Receives up to so many bytes, and prints them, and who has sent them. */
static void print_receive(int fd, size_t most, int flags) {
    struct sockaddr_un from = {0};
    struct iovec part = {text, most};
    struct msghdr header = {.msg_name = &from, .msg_namelen = sizeof from, .msg_iov = &part,
                            .msg_iovlen = 1};
    ssize_t length = recvmsg(fd, &header, MSG_DONTWAIT | flags);
    print_answer(length);
    if (length < 0) return;
    printf(" '%.*s'%s", (int)(length < (ssize_t)most ? length : (ssize_t)most), text,
           header.msg_flags & MSG_TRUNC ? " cut" : "");
    if (header.msg_namelen <= 2) return;
    const char *name = from.sun_path + (from.sun_path[0] == '\0'), *last = strrchr(name, '/');
    printf(" of %s", last != NULL ? last + 1 : name);
}

/* The ends of a pair. */
static void check_pair(int type) {
    int pair[2], kind = 0, bytes = 0;
    MUST(socketpair(AF_UNIX, type, 0, pair) == 0);
    MUST(getsockopt(pair[0], SOL_SOCKET, SO_TYPE, &kind, &(socklen_t){sizeof kind}) == 0);
    printf("a pair:%s", kind == SOCK_DGRAM ? "" : " of another type");
    print_ready(pair[1]);
    for (int i = 0; i < 3; i++) print_send(pair[0], &"abcdef"[2 * i]);
    MUST(ioctl(pair[1], FIONREAD, &bytes) == 0);
    printf(" %d", bytes);
    print_ready(pair[1]);
    print_receive(pair[1], 2, MSG_PEEK);
    print_receive(pair[1], 9, 0);
    print_receive(pair[1], 2, MSG_TRUNC);
    print_receive(pair[1], 9, 0);
    print_receive(pair[1], 9, 0);
    print_ready(pair[1]);
    MUST(bind_to(pair[0], "an-end") == 0);
    print_send(pair[0], "named");
    print_receive(pair[1], 9, 0);
    print_answer(listen(pair[0], 1));
    print_answer(accept(pair[0], NULL, NULL));
    print_send(pair[0], "left");
    MUST(close(pair[0]) == 0);
    print_ready(pair[1]);
    print_send(pair[1], "to nobody");
    MUST(close(pair[1]) == 0);
    printf("\n");
}

/* A descriptor in a datagram. */
static void check_descriptor(void) {
    int pair[2], ends[2], got = -1;
    char room[CMSG_SPACE(sizeof(int))] = {0}, byte = 'a';
    struct iovec part = {&byte, 1};
    struct msghdr header = {.msg_iov = &part, .msg_iovlen = 1, .msg_control = room,
                            .msg_controllen = sizeof room};
    MUST(socketpair(AF_UNIX, SOCK_DGRAM, 0, pair) == 0 && pipe(ends) == 0);
    struct cmsghdr *it = CMSG_FIRSTHDR(&header);
    *it = (struct cmsghdr){CMSG_LEN(sizeof(int)), SOL_SOCKET, SCM_RIGHTS};
    memcpy(CMSG_DATA(it), &ends[1], sizeof(int));
    MUST(sendmsg(pair[0], &header, 0) == 1 && close(ends[1]) == 0);
    MUST(recvmsg(pair[1], &header, 0) == 1);
    memcpy(&got, CMSG_DATA(CMSG_FIRSTHDR(&header)), sizeof(int));
    MUST(write(got, "b", 1) == 1 && close(got) == 0);
    printf("a descriptor:");
    print_answer(read(ends[0], text, LONG));
    print_answer(read(ends[0], text, LONG));
    MUST(close(ends[0]) == 0 && close(pair[0]) == 0 && close(pair[1]) == 0);
    printf("\n");
}

/* A socket that sends to another takes from that one alone, until it sends to none. */
static void check_turned(const char *name, const char *other, int log, int one, int two) {
    int late = open_socket();
    MUST(connect_to(log, other) == 0);
    print_send(one, "d");
    print_answer(connect_to(late, name));
    print_send(two, "e");
    print_send(log, "f");
    print_ready(two);
    print_receive(two, 9, 0);
    MUST(unconnect(log) == 0);
    print_ready(log);
    print_receive(log, 9, 0);
    print_send(one, "g");
    print_ready(log);
    print_receive(log, 9, 0);
    MUST(close(late) == 0);
}

/* Sockets that send to one that has a name. */
static void check_names(const char *name, const char *other) {
    int log = open_socket(), one = open_socket(), two = open_socket();
    struct sockaddr_un peer = {0};
    socklen_t length = sizeof peer;
    printf("%s:", name[0] == '/' ? "pathnames" : "names");
    print_answer(connect_to(one, name));
    MUST(bind_to(log, name) == 0 && bind_to(two, other) == 0);
    print_answer(bind_to(one, name));
    print_send(one, "unconnected");
    print_receive(one, 9, 0);
    print_answer(getpeername(one, (struct sockaddr *)&peer, &length));
    MUST(connect_to(one, name) == 0 && connect_to(two, name) == 0 && connect_to(one, name) == 0);
    length = sizeof peer;
    MUST(getpeername(one, (struct sockaddr *)&peer, &length) == 0);
    printf(" %d", length > 2 && strcmp(peer.sun_path + (name[0] != '/'), name) == 0);
    print_ready(log);
    print_send(one, "a");
    print_send(two, "b");
    print_ready(log);
    print_receive(log, 9, 0);
    struct sockaddr_un target = address_of(name, &length);
    print_answer(sendto(one, "c", 1, 0, (struct sockaddr *)&target, length));
    print_receive(log, 9, 0);
    print_receive(log, 9, 0);
    print_ready(log);
    print_send(log, "unconnected");
    check_turned(name, other, log, one, two);
    MUST(close(log) == 0);
    print_send(one, "h");
    MUST(close(one) == 0 && close(two) == 0);
    printf("\n");
}

/* Ends that are shut. */
static void check_shutdown(int how) {
    int log = open_socket(), one = open_socket();
    MUST(bind_to(log, "shut") == 0 && connect_to(one, "shut") == 0 && send(one, "a", 1, 0) == 1);
    printf("shut by %d:", how);
    MUST(shutdown(log, how) == 0);
    print_ready(log);
    print_send(one, "b");
    print_ready(one);
    print_receive(log, 9, 0);
    print_receive(log, 9, 0);
    MUST(shutdown(one, how) == 0);
    print_send(one, "c");
    print_ready(one);
    MUST(close(log) == 0 && close(one) == 0);
    printf("\n");
}

/* A call that waits for a datagram, and one for room. */
static void check_waits(void) {
    int log = open_socket(), one = open_socket();
    MUST(bind_to(log, "waits") == 0 && connect_to(one, "waits") == 0);
    fflush(stdout);
    pid_t child = fork();
    MUST(child >= 0);
    if (child == 0) {
        usleep(PAUSE);
        for (int i = 0; i < MANY; i++) MUST(send(one, &i, sizeof i, 0) == sizeof i);
        _exit(0);
    }
    int found, status;
    for (int i = 0; i < MANY; i++) {
        MUST(recv(log, &found, sizeof found, 0) == sizeof found && found == i);
        if (i == 0) usleep(PAUSE);
    }
    MUST(waitpid(child, &status, 0) == child && status == 0);
    printf("waits:");
    print_ready(log);
    MUST(shutdown(log, SHUT_RD) == 0);
    print_answer(recv(log, text, LONG, 0));
    MUST(close(log) == 0 && close(one) == 0);
    printf("\n");
}

/* What waits at a socket that turns to another is lost, and the bytes in its placeholder. */
static void check_turn(void) {
    int pair[2], log = open_socket();
    MUST(socketpair(AF_UNIX, SOCK_DGRAM, 0, pair) == 0 && bind_to(log, "turn") == 0);
    printf("turns:");
    MUST(send(pair[1], "a", 1, 0) == 1 && connect_to(pair[0], "turn") == 0);
    print_ready(pair[0]);
    print_receive(pair[0], 9, 0);
    print_send(pair[0], "b");
    print_receive(log, 9, 0);
    MUST(bind_to(pair[0], "end") == 0 && connect_to(log, "end") == 0);
    MUST(send(log, "c", 1, 0) == 1);
    print_ready(pair[0]);
    MUST(unconnect(pair[0]) == 0);
    print_ready(pair[0]);
    print_ready(log); /* It is told that its message is lost. */
    print_send(log, "d");
    print_ready(log);
    print_send(log, "e");
    print_ready(pair[0]);
    print_receive(pair[0], 9, 0);
    MUST(close(log) == 0 && close(pair[0]) == 0 && close(pair[1]) == 0);
    printf("\n");
}

int main(void) {
    char folder[] = "/tmp/datagrams.XXXXXX", one[40], two[40];
    MUST(mkdtemp(folder) != NULL);
    sprintf(one, "%s/one", folder);
    sprintf(two, "%s/two", folder);
    check_pair(SOCK_DGRAM);
    check_pair(SOCK_RAW);
    check_descriptor();
    check_names("log", "two");
    check_names(one, two);
    for (int how = SHUT_RD; how <= SHUT_RDWR; how++) check_shutdown(how);
    check_waits();
    check_turn();
    MUST(unlink(one) == 0 && unlink(two) == 0 && rmdir(folder) == 0);
    return 0;
}
