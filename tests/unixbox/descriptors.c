/* Passes descriptors between processes, and says what comes out.
 *
 * Each check prints a line for each type of socket, the same natively and under unixbox. A word
 * names the check to run; without one all run. The status is 0 if all hold. */
#define _GNU_SOURCE
#include "must.h"
#include <fcntl.h>
#include <poll.h>
#include <pthread.h>
#include <stdatomic.h>
#include <stdbool.h>
#include <sys/resource.h>
#include <sys/socket.h>
#include <sys/stat.h>
#include <sys/un.h>
#include <sys/wait.h>
#include <unistd.h>

enum { ROOM = 2, WAIT_MS = 3000, LIMIT = 16, SENDS = 40, ROUNDS = 200, MOST_FREE = 10 };

/* Sends a byte with these descriptors. Returns 0 or the error. */
static int send_fds(int on, const int *fds, size_t count) {
    _Alignas(struct cmsghdr) char control[CMSG_SPACE(ROOM * sizeof(int))] = {0};
    struct iovec byte = {"x", 1};
    struct msghdr message = {.msg_iov = &byte, .msg_iovlen = 1, .msg_control = control};
    message.msg_controllen = CMSG_SPACE(count * sizeof *fds);
    struct cmsghdr *rights = CMSG_FIRSTHDR(&message);
    rights->cmsg_level = SOL_SOCKET;
    rights->cmsg_type = SCM_RIGHTS;
    rights->cmsg_len = CMSG_LEN(count * sizeof *fds);
    memcpy(CMSG_DATA(rights), fds, count * sizeof *fds);
    return sendmsg(on, &message, MSG_NOSIGNAL) == 1 ? 0 : errno;
}

/* Receives a byte with one descriptor, and returns the descriptor. */
static int recv_fd(int on) {
    _Alignas(struct cmsghdr) char control[CMSG_LEN(sizeof(int))];
    char byte;
    struct iovec place = {&byte, 1};
    struct msghdr message = {.msg_iov = &place, .msg_iovlen = 1, .msg_control = control};
    message.msg_controllen = sizeof control;
    MUST(recvmsg(on, &message, 0) == 1 && byte == 'x' && message.msg_flags == 0);
    struct cmsghdr *rights = CMSG_FIRSTHDR(&message);
    MUST(rights != NULL && rights->cmsg_type == SCM_RIGHTS && rights->cmsg_len == sizeof control);
    return *(int *)CMSG_DATA(rights);
}

static void close_both(const int *fds) {
    MUST(close(fds[0]) == 0 && close(fds[1]) == 0);
}

/* Waits until the last writing end of a pipe is closed, and closes the reading end. */
static void must_end(int reads) {
    struct pollfd ask = {reads, POLLIN, 0};
    char byte;
    MUST(poll(&ask, 1, WAIT_MS) == 1 && ask.revents == POLLHUP);
    MUST(read(reads, &byte, 1) == 0 && close(reads) == 0);
}

static void must_exit(pid_t child) {
    int status;
    MUST(waitpid(child, &status, 0) == child && WIFEXITED(status) && WEXITSTATUS(status) == 0);
}

/* Returns what poll(2) says of a descriptor at once. */
static int readiness(int fd) {
    struct pollfd ask = {fd, POLLIN | POLLOUT, 0};
    MUST(poll(&ask, 1, 0) >= 0);
    return ask.revents;
}

/* Makes a listener with an abstract name, and a client that nobody has accepted. */
static void connect_pair(int type, int *listener, int *client) {
    static int made;
    struct sockaddr_un name = {.sun_family = AF_UNIX};
    int length = sprintf(name.sun_path + 1, "descriptors.%d.%d", (int)getpid(), made++);
    socklen_t size = (socklen_t)(sizeof name.sun_family + 1) + (socklen_t)length;
    MUST((*listener = socket(AF_UNIX, type, 0)) >= 0);
    MUST(bind(*listener, (struct sockaddr *)&name, size) == 0 && listen(*listener, 4) == 0);
    MUST(readiness(*listener) == 0 && (*client = socket(AF_UNIX, type, 0)) >= 0);
    MUST(connect(*client, (struct sockaddr *)&name, size) == 0);
    MUST(readiness(*listener) == POLLIN);
}

/* A process passes a pipe's end on to another process, which writes to it. */
static const char *check_broker(int type) {
    int first[2], second[2], ends[2];
    char text[16];
    MUST(socketpair(AF_UNIX, type, 0, first) == 0 && socketpair(AF_UNIX, type, 0, second) == 0);
    pid_t broker = fork();
    if (broker == 0) {
        int fd = recv_fd(first[1]);
        _exit(send_fds(second[0], &fd, 1));
    }
    pid_t worker = fork();
    if (worker == 0)
        _exit(write(recv_fd(second[1]), "passed on", 9) != 9);
    MUST(pipe(ends) == 0 && send_fds(first[0], &ends[1], 1) == 0 && close(ends[1]) == 0);
    must_exit(broker);
    must_exit(worker);
    MUST(read(ends[0], text, sizeof text) == 9 && memcmp(text, "passed on", 9) == 0);
    close_both(first);
    close_both(second);
    must_end(ends[0]);
    return "the worker writes to the pipe that the broker passed on";
}

/* A socket in its own queue is garbage; what lies beside it is closed when that is freed. Linux
 * collects after the last close of a socket, so the one that is not in flight is closed last. */
static const char *check_cycle(int type) {
    int pair[2], ends[2];
    MUST(socketpair(AF_UNIX, type, 0, pair) == 0 && pipe(ends) == 0);
    MUST(send_fds(pair[1], (int[]){pair[0], ends[1]}, 2) == 0);
    MUST(close(ends[1]) == 0 && readiness(ends[0]) == 0);
    close_both(pair);
    must_end(ends[0]);
    return "the pipe in the leaked cycle is closed";
}

/* What is sent to a connection before it is accepted waits there. */
static const char *check_embryo(int type) {
    int listener, client, ends[2];
    MUST(pipe(ends) == 0);
    connect_pair(type, &listener, &client);
    MUST(send_fds(client, &ends[1], 1) == 0 && close(ends[1]) == 0 && close(client) == 0);
    int accepted = accept(listener, NULL, NULL), fd;
    MUST(accepted >= 0 && readiness(listener) == 0 && (fd = recv_fd(accepted)) >= 0);
    MUST(readiness(ends[0]) == 0 && close(fd) == 0);
    MUST(read(accepted, &fd, 1) == 0 && close(accepted) == 0 && close(listener) == 0);
    must_end(ends[0]);
    return "a connection is accepted with what was sent to it before";
}

/* A listener with a connection that has the listener in its queue is garbage. */
static const char *check_backlog(int type) {
    int listener, client, ends[2];
    MUST(pipe(ends) == 0);
    connect_pair(type, &listener, &client);
    MUST(send_fds(client, (int[]){listener, ends[1]}, 2) == 0 && close(ends[1]) == 0);
    MUST(readiness(ends[0]) == 0 && close(listener) == 0 && close(client) == 0);
    must_end(ends[0]);
    return "the pipe in a listener's own backlog is closed";
}

/* A send is refused once the user has more descriptors in flight than the limit. */
static const char *check_too_many(int type) {
    pid_t child = fork();
    if (child == 0) {
        int pair[2], sent = 0, error = 0;
        MUST(socketpair(AF_UNIX, type, 0, pair) == 0);
        MUST(setrlimit(RLIMIT_NOFILE, &(struct rlimit){LIMIT, LIMIT}) == 0);
        while (sent < SENDS && (error = send_fds(pair[0], &(int){STDOUT_FILENO}, 1)) == 0)
            sent++;
        MUST(geteuid() == 0 ? sent == SENDS : sent == LIMIT + 1 && error == ETOOMANYREFS);
        _exit(0);
    }
    must_exit(child);
    return geteuid() == 0 ? "a privileged user is never refused"
                          : "one descriptor more than the limit may be in flight";
}

/* A process inherits a socket, and poll(2) tells what it does with it. */
static const char *check_fork(int type) {
    int pair[2];
    MUST(socketpair(AF_UNIX, type, 0, pair) == 0 && readiness(pair[0]) == POLLOUT);
    pid_t child = fork();
    if (child == 0)
        _exit(send_fds(pair[1], pair, 1));
    must_exit(child);
    MUST(readiness(pair[0]) == (POLLIN | POLLOUT) && close(pair[1]) == 0);
    MUST(readiness(pair[0]) == (POLLIN | POLLOUT | POLLHUP));
    MUST(close(recv_fd(pair[0])) == 0 && read(pair[0], pair, 1) == 0 && close(pair[0]) == 0);
    return "a child sends on an inherited socket, and its end is seen";
}

static atomic_bool is_over;

/* Opens and closes files until the other thread is done. They take numbers from its sockets. */
static void *open_files(void *none) {
    while (!is_over) {
        struct stat file;
        int fds[2] = {open("/dev/null", O_RDONLY), fcntl(STDIN_FILENO, F_DUPFD, MOST_FREE)};
        MUST(fds[0] >= 0 && fds[1] >= MOST_FREE);
        MUST(fstat(fds[0], &file) == 0 && S_ISCHR(file.st_mode));
        close_both(fds);
    }
    return none;
}

/* Receives two descriptors by one message. */
static void recv_both(int on, int *fds) {
    _Alignas(struct cmsghdr) char control[CMSG_SPACE(2 * sizeof(int))];
    struct iovec place = {&(char){0}, 1};
    struct msghdr message = {.msg_iov = &place, .msg_iovlen = 1, .msg_control = control};
    message.msg_controllen = sizeof control;
    MUST(recvmsg(on, &message, 0) == 1 && message.msg_flags == 0);
    MUST(CMSG_FIRSTHDR(&message)->cmsg_len == CMSG_LEN(2 * sizeof(int)));
    memcpy(fds, CMSG_DATA(CMSG_FIRSTHDR(&message)), 2 * sizeof *fds);
}

/* One thread passes pairs of sockets and files, while another opens and closes files. */
static const char *check_threads(int type) {
    pthread_t other;
    is_over = false;
    MUST(pthread_create(&other, NULL, open_files, NULL) == 0);
    for (int round = 0; round < ROUNDS; round++) {
        int way[2], pair[2], passed[2];
        char byte = 0;
        MUST(socketpair(AF_UNIX, type, 0, way) == 0 && socketpair(AF_UNIX, type, 0, pair) == 0);
        MUST(send_fds(way[0], pair, 2) == 0);
        close_both(pair);
        recv_both(way[1], passed);
        MUST(write(passed[0], "x", 1) == 1 && read(passed[1], &byte, 1) == 1 && byte == 'x');
        int file = open("/dev/null", O_RDONLY);
        MUST(send_fds(way[0], &file, 1) == 0 && close(file) == 0 && close(recv_fd(way[1])) == 0);
        MUST((file = open("/dev/null", O_RDONLY)) >= 0 && dup2(file, passed[0]) == passed[0]);
        MUST(read(passed[1], &byte, 1) == 0 && close(file) == 0);
        close_both(passed);
        close_both(way);
    }
    is_over = true;
    MUST(pthread_join(other, NULL) == 0);
    return "sockets and files pass while another thread opens files";
}

static const struct {
    const char *name, *(*run)(int type);
} checks[] = {
    {"broker", check_broker},   {"cycle", check_cycle}, {"embryo", check_embryo},
    {"backlog", check_backlog}, {"fork", check_fork},   {"too_many", check_too_many},
    {"threads", check_threads},
};

int main(int count, char **words) {
    setvbuf(stdout, NULL, _IOLBF, 0); /* No child inherits a line. */
    for (size_t i = 0; i < sizeof checks / sizeof *checks; i++) {
        if (count == 1 || strcmp(words[1], checks[i].name) == 0) {
            printf("%s, stream: %s\n", checks[i].name, checks[i].run(SOCK_STREAM));
            printf("%s, seqpacket: %s\n", checks[i].name, checks[i].run(SOCK_SEQPACKET));
        }
    }
    return 0;
}
