/* Moves bytes by calls that servers make beside read, write, sendmsg and recvmsg.
 *
 * Each check prints a line, for each type of socket where it says so, the same natively and under
 * unixbox. The status is 0 if all hold. */
#define _GNU_SOURCE
#include "must.h"
#include <fcntl.h>
#include <poll.h>
#include <sys/ioctl.h>
#include <sys/mman.h>
#include <sys/sendfile.h>
#include <sys/socket.h>
#include <sys/uio.h>
#include <sys/wait.h>
#include <unistd.h>

enum { LONG = 300000, PAUSE = 50000, COUNT = 3, ROOM = 16 }; /* Bytes; microseconds. */

static char bytes[LONG], text[COUNT][ROOM];

static void make_pair(int type, int *pair) {
    MUST(socketpair(AF_UNIX, type, 0, pair) == 0);
}

static void close_both(const int *fds) {
    MUST(close(fds[0]) == 0 && close(fds[1]) == 0);
}

static void must_exit(pid_t child) {
    int status;
    MUST(waitpid(child, &status, 0) == child && WIFEXITED(status) && WEXITSTATUS(status) == 0);
}

static int bytes_waiting(int fd) {
    int count = -1;
    MUST(ioctl(fd, FIONREAD, &count) == 0);
    return count;
}

/* FIONREAD counts what was sent and not received. */
static const char *check_count(int type) {
    int pair[2];
    make_pair(type, pair);
    MUST(bytes_waiting(pair[1]) == 0 && write(pair[0], "abc", 3) == 3);
    MUST(write(pair[0], "defg", 4) == 4 && bytes_waiting(pair[1]) == 7);
    MUST(read(pair[1], text[0], 2) == 2 && bytes_waiting(pair[1]) == (type == SOCK_STREAM ? 5 : 4));
    MUST(bytes_waiting(pair[0]) == 0 && ioctl(pair[1], FIONREAD, NULL) < 0 && errno == EFAULT);
    close_both(pair);
    return "all that waits is counted";
}

/* preadv2(2) and pwritev2(2) take flags, and no place. */
static const char *check_vectors(int type) {
    struct iovec parts[] = {{"ab", 2}, {"cd", 2}}, places[] = {{text[0], 1}, {text[1], ROOM}};
    int pair[2];
    make_pair(type, pair);
    MUST(pwritev2(pair[0], parts, 2, 0, 0) < 0 && errno == ESPIPE);
    MUST(pwritev2(pair[0], parts, 2, -1, 0) == 4);
    MUST(preadv2(pair[1], places, 2, 0, 0) < 0 && errno == ESPIPE);
    MUST(preadv2(pair[1], places, 2, -1, RWF_NOWAIT) == 4 && memcmp(text[1], "bcd", 3) == 0);
    MUST(preadv2(pair[1], places, 2, -1, RWF_NOWAIT) < 0 && errno == EAGAIN);
    close_both(pair);
    return "vectors move without a place";
}

/* Messages for a sendmmsg(2) or a recvmmsg(2). */
static void fill(struct mmsghdr *messages, struct iovec *parts, size_t length) {
    memset(messages, 0, COUNT * sizeof *messages);
    for (int i = 0; i < COUNT; i++) {
        parts[i] = (struct iovec){text[i], length};
        messages[i].msg_hdr = (struct msghdr){.msg_iov = &parts[i], .msg_iovlen = 1};
    }
}

/* sendmmsg(2) and recvmmsg(2) move several messages, and say how many. */
static const char *check_batch(int type) {
    struct mmsghdr messages[COUNT];
    struct iovec parts[COUNT];
    int pair[2], all = type == SOCK_STREAM ? 1 : COUNT;
    make_pair(type, pair);
    for (int i = 0; i < COUNT; i++)
        memcpy(text[i], "abc", 3);
    fill(messages, parts, 3);
    MUST(sendmmsg(pair[0], messages, COUNT, 0) == COUNT && messages[COUNT - 1].msg_len == 3);
    fill(messages, parts, ROOM);
    MUST(recvmmsg(pair[1], messages, COUNT, MSG_WAITFORONE, NULL) == all);
    MUST(messages[0].msg_len == (unsigned)(3 * COUNT / all) && bytes_waiting(pair[1]) == 0);
    MUST(recvmmsg(pair[1], messages, COUNT, MSG_DONTWAIT, NULL) < 0 && errno == EAGAIN);
    fill(messages, parts, 3);
    parts[1].iov_base = NULL;
    MUST(sendmmsg(pair[0], messages, COUNT, 0) == 1 && bytes_waiting(pair[1]) == 3);
    MUST(sendmmsg(pair[0], messages + 1, COUNT - 1, 0) < 0 && errno == EFAULT);
    MUST(read(pair[1], text[0], ROOM) == 3);
    close_both(pair);
    return "several messages move at once, until one cannot";
}

/* Without flags, recvmmsg(2) waits for all messages, and gives up at the end of the sender. */
static const char *check_wait(int type) {
    struct mmsghdr messages[COUNT];
    struct iovec parts[COUNT];
    int pair[2];
    make_pair(type, pair);
    pid_t child = fork();
    if (child == 0) {
        for (int i = 0; i < COUNT; i++)
            MUST(usleep(PAUSE / 5) == 0 && write(pair[0], "abc", 3) == 3);
        _exit(0);
    }
    fill(messages, parts, 3); /* Of a stream, one could take more. */
    MUST(recvmmsg(pair[1], messages, COUNT, 0, NULL) == COUNT);
    for (int i = 0; i < COUNT; i++)
        MUST(messages[i].msg_len == 3);
    must_exit(child);
    close_both(pair);
    return "a receive of several messages waits for all";
}

/* Starts a process that reads from this socket. Its status says whether that is a file, twice. */
static pid_t start_reader(const int *pair) {
    pid_t child = fork();
    if (child != 0) return child;
    size_t count = 0;
    MUST(close(pair[0]) == 0);
    for (ssize_t length; (length = read(pair[1], bytes, sizeof bytes)) > 0;)
        for (ssize_t i = 0; i < length; i++, count++)
            MUST(bytes[i] == (char)(count % LONG % 251));
    _exit(count != 2 * LONG);
}

/* sendfile(2) sends a file from its own place and from another, and changes what it should. */
static const char *check_sendfile(void) {
    int pair[2], ends[2], file = memfd_create("file", 0);
    off_t place = 0;
    make_pair(SOCK_STREAM, pair);
    for (int i = 0; i < LONG; i++)
        bytes[i] = (char)(i % 251);
    MUST(write(file, bytes, LONG) == LONG && lseek(file, 0, SEEK_SET) == 0 && pipe(ends) == 0);
    pid_t child = start_reader(pair);
    MUST(sendfile(pair[0], file, NULL, 2 * LONG) == LONG && lseek(file, 0, SEEK_CUR) == LONG);
    MUST(sendfile(pair[0], file, NULL, LONG) == 0 && lseek(file, 1, SEEK_SET) == 1);
    MUST(sendfile(pair[0], file, &place, LONG) == LONG && place == LONG);
    MUST(lseek(file, 0, SEEK_CUR) == 1);
    MUST(sendfile(pair[0], file, (off_t *)text[0] + LONG * 1000L, 1) < 0 && errno == EFAULT);
    MUST(sendfile(pair[0], ends[0], NULL, 1) < 0 && errno == EINVAL);
    close_both(pair);
    must_exit(child);
    close_both(ends);
    MUST(close(file) == 0);
    return "a file is sent from its place and from another";
}

/* Moves so many bytes. Returns how many were moved, or the negative errno. */
static int move(int source, int target, size_t length, unsigned flags) {
    ssize_t moved = splice(source, NULL, target, NULL, length, flags);
    return moved >= 0 ? (int)moved : -errno;
}

/* splice(2) moves bytes between sockets and pipes. A full pipe leaves them where they are. */
static const char *check_splice(void) {
    int pair[2], ends[2], other[2];
    make_pair(SOCK_STREAM, pair);
    MUST(pipe(ends) == 0 && pipe2(other, O_NONBLOCK) == 0 && write(pair[0], "abc", 3) == 3);
    MUST(move(pair[1], ends[1], ROOM, 0) == 3 && move(ends[0], other[1], ROOM, 0) == 3);
    MUST(move(other[0], pair[0], ROOM, 0) == 3 && read(pair[1], text[0], ROOM) == 3);
    MUST(memcmp(text[0], "abc", 3) == 0);
    MUST(move(pair[1], ends[1], ROOM, SPLICE_F_NONBLOCK) == -EAGAIN);
    MUST(move(ends[0], pair[0], ROOM, SPLICE_F_NONBLOCK) == -EAGAIN);
    MUST(move(pair[0], pair[1], ROOM, 0) == -EINVAL && write(pair[0], "def", 3) == 3);
    while (write(other[1], bytes, sizeof bytes) > 0)
        continue;
    MUST(move(pair[1], other[1], ROOM, SPLICE_F_NONBLOCK) == -EAGAIN);
    MUST(read(pair[1], text[0], ROOM) == 3 && memcmp(text[0], "def", 3) == 0);
    MUST(close(pair[0]) == 0 && move(pair[1], ends[1], ROOM, 0) == 0);
    MUST(signal(SIGPIPE, SIG_IGN) == SIG_DFL && write(ends[1], "x", 1) == 1);
    MUST(move(ends[0], pair[1], ROOM, 0) == -EPIPE && signal(SIGPIPE, SIG_DFL) == SIG_IGN);
    MUST(close(pair[1]) == 0);
    close_both(ends);
    close_both(other);
    return "bytes move between sockets and pipes";
}

/* splice(2) waits for bytes, and for room in a pipe. */
static const char *check_splice_waits(void) {
    int pair[2], ends[2];
    make_pair(SOCK_STREAM, pair);
    MUST(pipe(ends) == 0 && fcntl(ends[1], F_SETFL, O_NONBLOCK) == 0);
    while (write(ends[1], bytes, sizeof bytes) > 0)
        continue;
    MUST(fcntl(ends[1], F_SETFL, 0) == 0);
    pid_t child = fork();
    if (child == 0) {
        ssize_t length;
        MUST(usleep(PAUSE) == 0 && write(pair[0], "abc", 3) == 3 && usleep(PAUSE) == 0);
        while ((length = read(ends[0], bytes, sizeof bytes)) > 3)
            continue;
        _exit(length != 3 || memcmp(bytes, "abc", 3) != 0);
    }
    MUST(move(pair[1], ends[1], ROOM, 0) == 3);
    must_exit(child);
    close_both(ends);
    close_both(pair);
    return "a splice waits for bytes and for room";
}

static const struct {
    const char *name, *(*run)(int type);
} checks[] = {
    {"count", check_count}, {"vectors", check_vectors}, {"batch", check_batch},
    {"wait", check_wait},
};

int main(void) {
    setvbuf(stdout, NULL, _IOLBF, 0); /* No child inherits a line. */
    for (size_t i = 0; i < sizeof checks / sizeof *checks; i++) {
        printf("%s, stream: %s\n", checks[i].name, checks[i].run(SOCK_STREAM));
        printf("%s, seqpacket: %s\n", checks[i].name, checks[i].run(SOCK_SEQPACKET));
    }
    printf("sendfile: %s\n", check_sendfile());
    printf("splice: %s\n", check_splice());
    printf("splice that waits: %s\n", check_splice_waits());
    return 0;
}
