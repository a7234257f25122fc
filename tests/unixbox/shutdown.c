/* Shuts ends of sockets down, and says what sends, receives and poll(2) tell then.
 *
 * Each check prints lines, the same natively and under unixbox. The status is 0 if all hold. */
#define _GNU_SOURCE
#include "must.h"
#include <fcntl.h>
#include <poll.h>
#include <signal.h>
#include <sys/epoll.h>
#include <sys/mman.h>
#include <sys/sendfile.h>
#include <sys/socket.h>
#include <sys/un.h>
#include <sys/wait.h>
#include <unistd.h>

enum { PAUSE = 50000, MANY = 100, LONG = 4096 }; /* Microseconds; messages; bytes. */

static char text[LONG];
static volatile sig_atomic_t signals; /* How many SIGPIPE have come. */

static const char *name_of(int type) {
    return type == SOCK_STREAM ? "stream" : "seqpacket";
}

static void note_signal(int number) {
    (void)number;
    signals++;
}

static void make_pair(int type, int *pair) {
    MUST(socketpair(AF_UNIX, type, 0, pair) == 0);
}

static void close_both(const int *fds) {
    MUST(close(fds[0]) == 0 && close(fds[1]) == 0);
}

/* Prints what a descriptor is ready for. */
static void print_ready(int fd) {
    struct pollfd ask = {fd, POLLIN | POLLOUT | POLLRDHUP, 0};
    MUST(poll(&ask, 1, 0) >= 0);
    printf(" %s%s%s%s%s.", ask.revents & POLLIN ? "in" : "", ask.revents & POLLOUT ? "out" : "",
           ask.revents & POLLRDHUP ? "rdhup" : "", ask.revents & POLLHUP ? "hup" : "",
           ask.revents & POLLERR ? "err" : "");
}

/* Prints an answer: what it is, or an error. */
static void print_answer(ssize_t answer) {
    if (answer >= 0)
        printf(" %zd", answer);
    else
        printf(" (%s)", strerror(errno));
}

static void print_send(int fd, size_t length) {
    print_answer(send(fd, text, length, MSG_DONTWAIT));
}

static void print_receive(int fd) {
    print_answer(recv(fd, text, sizeof text, MSG_DONTWAIT));
}

/* Shuts an end of one socket, with a message in each queue: what waits comes before the end. */
static void check_direction(int type, int how) {
    int pair[2];
    make_pair(type, pair);
    MUST(write(pair[0], "one", 3) == 3 && write(pair[1], "other", 5) == 5);
    MUST(shutdown(pair[0], how) == 0 && shutdown(pair[0], how) == 0);
    printf("%s, shut by %d:", name_of(type), how);
    signals = 0;
    for (int round = 0; round < 3; round++)
        for (int i = 0; i < 2; i++) {
            print_ready(pair[i]);
            print_answer(recv(pair[i], text, sizeof text, MSG_DONTWAIT | MSG_PEEK));
            print_receive(pair[i]);
            print_send(pair[i], round == 1 || type == SOCK_SEQPACKET);
        }
    MUST(shutdown(pair[1], how) == 0);
    for (int i = 0; i < 2; i++) {
        print_send(pair[i], 0);
        print_send(pair[i], 1);
        print_ready(pair[i]);
    }
    printf(" %d signals\n", signals);
    close_both(pair);
}

/* A send of what cannot be read says first that it cannot be sent. */
static void check_address(int type) {
    char *nowhere = NULL;
    int pair[2], alone = socket(AF_UNIX, type, 0);
    make_pair(type, pair);
    printf("%s, a bad address:", name_of(type));
    print_answer(send(alone, nowhere + 1, 1, MSG_DONTWAIT));
    print_answer(send(pair[0], nowhere + 1, 1, MSG_DONTWAIT));
    MUST(shutdown(pair[0], SHUT_WR) == 0);
    print_answer(send(pair[0], nowhere + 1, 1, MSG_DONTWAIT));
    print_answer(send(pair[1], nowhere + 1, 1, MSG_DONTWAIT));
    printf("\n");
    close_both(pair);
    MUST(close(alone) == 0);
}

/* More messages wait than a queue of the layer has room for. None of them is lost. */
static void check_many(int type, int by) {
    int pair[2], count = 0;
    ssize_t length;
    make_pair(type, pair);
    for (int i = 0; i < MANY; i++)
        MUST(send(pair[0], "x", 1, MSG_DONTWAIT) == 1);
    MUST(shutdown(pair[by], by == 0 ? SHUT_WR : SHUT_RD) == 0);
    printf("%s, shut by its %s with messages:", name_of(type), by == 0 ? "sender" : "receiver");
    print_send(pair[0], 1);
    print_send(pair[0], LONG);
    print_ready(pair[1]);
    while ((length = recv(pair[1], text, 10, MSG_DONTWAIT)) > 0) count += (int)length;
    printf(" %d bytes", count);
    print_answer(length);
    print_ready(pair[0]);
    print_ready(pair[1]);
    printf("\n");
    close_both(pair);
}

/* Sends a descriptor. Returns what a sendmsg(2) does. */
static ssize_t send_fd(int on, int fd) {
    _Alignas(struct cmsghdr) char control[CMSG_SPACE(sizeof fd)] = {0};
    struct iovec part = {"f", 1};
    struct msghdr header = {.msg_iov = &part, .msg_iovlen = 1, .msg_control = control,
                            .msg_controllen = sizeof control};
    struct cmsghdr *it = CMSG_FIRSTHDR(&header);
    *it = (struct cmsghdr){CMSG_LEN(sizeof fd), SOL_SOCKET, SCM_RIGHTS};
    memcpy(CMSG_DATA(it), &fd, sizeof fd);
    return sendmsg(on, &header, MSG_NOSIGNAL);
}

/* Receives a descriptor. */
static int receive_fd(int on) {
    int fd = -1;
    _Alignas(struct cmsghdr) char control[CMSG_SPACE(sizeof fd)] = {0};
    struct iovec part = {text, 1};
    struct msghdr header = {.msg_iov = &part, .msg_iovlen = 1, .msg_control = control,
                            .msg_controllen = sizeof control};
    MUST(recvmsg(on, &header, 0) == 1 && header.msg_controllen == sizeof control);
    memcpy(&fd, CMSG_DATA(CMSG_FIRSTHDR(&header)), sizeof fd);
    return fd;
}

/* A descriptor that waits is received after a shutdown. None is sent then. */
static const char *check_descriptors(void) {
    int pair[2], other[2];
    make_pair(SOCK_STREAM, pair);
    make_pair(SOCK_SEQPACKET, other);
    MUST(send_fd(pair[0], other[0]) == 1 && close(other[0]) == 0);
    MUST(shutdown(pair[1], SHUT_RDWR) == 0);
    MUST(send_fd(pair[0], other[1]) < 0 && errno == EPIPE);
    MUST(send_fd(pair[1], other[1]) < 0 && errno == EPIPE);
    int fd = receive_fd(pair[1]);
    MUST(write(other[1], "abc", 3) == 3 && read(fd, text, sizeof text) == 3 && close(fd) == 0);
    MUST(read(other[1], text, 1) == 0 && close(other[1]) == 0);
    close_both(pair);
    return "what waits is received, and no more is sent";
}

static void bind_to(int fd, struct sockaddr_un *name) {
    *name = (struct sockaddr_un){.sun_family = AF_UNIX, .sun_path = "\0shutdown"};
    MUST(bind(fd, (struct sockaddr *)name, sizeof *name) == 0 && listen(fd, 2) == 0);
}

static int connect_to(int fd, const struct sockaddr_un *name) {
    return connect(fd, (const struct sockaddr *)name, sizeof *name);
}

/* Shuts a socket before it is connected, and once it is, before the other end is accepted. */
static void check_before(int type, int before, int after) {
    struct sockaddr_un name;
    int listener = socket(AF_UNIX, type, 0), client = socket(AF_UNIX, type, 0);
    bind_to(listener, &name);
    printf("%s, shut by %d before, by %d after:", name_of(type), before, after);
    if (before >= 0) MUST(shutdown(client, before) == 0);
    print_ready(client);
    MUST(connect_to(client, &name) == 0);
    print_send(client, 2);
    if (after >= 0) MUST(shutdown(client, after) == 0);
    int server = accept(listener, NULL, NULL);
    MUST(server >= 0);
    for (int i = 0; i < 2; i++) {
        print_ready(client);
        print_ready(server);
        print_send(server, 1);
        if (type == SOCK_STREAM) print_send(server, 0);
        print_receive(server);
        print_receive(client);
    }
    printf("\n");
    close_both((int[]){client, server});
    MUST(close(listener) == 0);
}

/* A listener that has shut down its receives takes no connection but those that wait. */
static void check_listener(void) {
    struct sockaddr_un name;
    int listener = socket(AF_UNIX, SOCK_STREAM, 0), client = socket(AF_UNIX, SOCK_STREAM, 0);
    int late = socket(AF_UNIX, SOCK_STREAM, 0), packet = socket(AF_UNIX, SOCK_SEQPACKET, 0);
    bind_to(listener, &name);
    printf("listener:");
    MUST(shutdown(listener, SHUT_WR) == 0 && connect_to(client, &name) == 0);
    print_ready(listener);
    MUST(shutdown(listener, SHUT_RD) == 0);
    print_answer(connect_to(late, &name));
    print_answer(connect_to(packet, &name));
    print_ready(listener);
    MUST(close(late) == 0 && (late = accept(listener, NULL, NULL)) >= 0);
    print_answer(accept(listener, NULL, NULL));
    print_ready(listener);
    print_send(late, 3);
    print_receive(client);
    printf("\n");
    close_both((int[]){late, packet});
    close_both((int[]){listener, client});
}

/* What was never connected is not connected, also after a shutdown(2). */
static void check_alone(int type) {
    int alone = socket(AF_UNIX, type, 0), pipe_fds[2];
    MUST(pipe(pipe_fds) == 0);
    printf("alone:");
    print_answer(shutdown(alone, 3));
    print_answer(shutdown(alone, -1));
    print_answer(shutdown(pipe_fds[0], SHUT_RD));
    print_answer(shutdown(1000, SHUT_RD));
    MUST(shutdown(alone, SHUT_RDWR) == 0);
    print_send(alone, 1);
    if (type == SOCK_STREAM) print_send(alone, 0);
    print_receive(alone);
    print_ready(alone);
    printf("\n");
    close_both(pipe_fds);
    MUST(close(alone) == 0);
}

/* What a process does that waits. */
typedef void waiter(int fd);

static void wait_to_receive(int fd) {
    _exit(read(fd, text, 1) == 0 ? 0 : 1);
}

/* Linux sends no SIGPIPE to who has waited. */
static void wait_to_send(int fd) {
    while (write(fd, text, sizeof text) > 0) continue;
    _exit(errno == EPIPE && signals == 0 ? 0 : 1);
}

static void wait_to_accept(int fd) {
    _exit(accept(fd, NULL, NULL) < 0 && errno == EINVAL ? 0 : 1);
}

/* A process that waits at one socket ends when an end of another is shut. */
static void must_wake(waiter *wait_at, int at, int shut, int how) {
    int status;
    pid_t child = fork();
    if (child == 0) wait_at(at);
    MUST(usleep(PAUSE) == 0 && waitpid(child, &status, WNOHANG) == 0 && shutdown(shut, how) == 0);
    MUST(waitpid(child, &status, 0) == child && status == 0);
}

static const char *check_waits(void) {
    struct sockaddr_un name;
    int pair[2], listener = socket(AF_UNIX, SOCK_STREAM, 0);
    signals = 0;
    for (int i = 0; i < 2; i++) {
        make_pair(SOCK_STREAM, pair);
        must_wake(wait_to_receive, pair[1], pair[i], i == 0 ? SHUT_WR : SHUT_RD);
        close_both(pair);
        make_pair(SOCK_STREAM, pair);
        must_wake(wait_to_send, pair[1], pair[i], i == 0 ? SHUT_RD : SHUT_WR);
        close_both(pair);
    }
    bind_to(listener, &name);
    must_wake(wait_to_accept, listener, listener, SHUT_RD);
    MUST(close(listener) == 0);
    return "a receive, a send and an accept that wait end";
}

/* epoll(7) tells an edge where an end is shut. */
static void check_edges(void) {
    struct epoll_event event = {.events = EPOLLIN | EPOLLRDHUP | EPOLLET};
    int pair[2], watch = epoll_create1(0);
    make_pair(SOCK_STREAM, pair);
    MUST(epoll_ctl(watch, EPOLL_CTL_ADD, pair[1], &event) == 0);
    MUST(epoll_wait(watch, &event, 1, 0) == 0);
    printf("edges:");
    for (int i = 0; i < 2; i++) {
        MUST(shutdown(pair[0], i == 0 ? SHUT_WR : SHUT_RD) == 0);
        event.events = 0;
        print_answer(epoll_wait(watch, &event, 1, 0));
        printf(" %x", event.events);
    }
    printf("\n");
    close_both(pair);
    MUST(close(watch) == 0);
}

/* What a splice(2) or a sendfile(2) cannot send stays where it is. */
static const char *check_copies(int how, int by) {
    int pair[2], way[2], file = memfd_create("file", 0);
    make_pair(SOCK_STREAM, pair);
    MUST(pipe(way) == 0 && write(way[1], "piped", 5) == 5 && write(file, "text", 4) == 4);
    MUST(lseek(file, 0, SEEK_SET) == 0 && shutdown(pair[by], how) == 0);
    MUST(splice(way[0], NULL, pair[0], NULL, 5, 0) < 0 && errno == EPIPE);
    MUST(read(way[0], text, sizeof text) == 5);
    MUST(sendfile(pair[0], file, NULL, 4) < 0 && errno == EPIPE);
    MUST(lseek(file, 0, SEEK_CUR) == 0);
    MUST(write(pair[1], "abc", 3) == (how == SHUT_RDWR ? -1 : 3));
    close_both(way);
    close_both(pair);
    MUST(close(file) == 0);
    return "what is not sent stays";
}

int main(void) {
    const struct sigaction action = {.sa_handler = note_signal};
    setvbuf(stdout, NULL, _IOLBF, 0); /* No child inherits a line. */
    MUST(sigaction(SIGPIPE, &action, NULL) == 0);
    for (int type = SOCK_STREAM; type <= SOCK_SEQPACKET; type += SOCK_SEQPACKET - SOCK_STREAM) {
        for (int how = SHUT_RD; how <= SHUT_RDWR; how++) {
            check_direction(type, how);
            check_before(type, how, -1);
            check_before(type, -1, how);
        }
        check_many(type, 0);
        check_many(type, 1);
        check_address(type);
        check_alone(type);
    }
    check_listener();
    check_edges();
    printf("descriptors: %s\n", check_descriptors());
    printf("waits: %s\n", check_waits());
    printf("copies: %s\n", check_copies(SHUT_WR, 0));
    printf("copies: %s\n", check_copies(SHUT_RD, 1));
    printf("copies: %s\n", check_copies(SHUT_RDWR, 1));
    return 0;
}
