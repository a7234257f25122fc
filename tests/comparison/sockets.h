/* Shared by the probes: messages with files, abstract names, limits, and pipes that show when a
 * file is freed. */
#ifndef COMPARISON_SOCKETS_H
#define COMPARISON_SOCKETS_H
#define _GNU_SOURCE
#include <errno.h>
#include <fcntl.h>
#include <poll.h>
#include <stdbool.h>
#include <stddef.h>
#include <stdio.h>
#include <stdlib.h>
#include <string.h>
#include <sys/resource.h>
#include <sys/socket.h>
#include <sys/un.h>
#include <sys/wait.h>
#include <time.h>
#include <unistd.h>

enum { MAX_FILES = 300, MAX_BYTES = 1 << 20, MAX_FD = 253, LIMIT = 1024 };

/* Ends the probe where a step fails that the question needs. */
#define MUST(condition) \
    do { \
        if (!(condition)) { \
            fprintf(stderr, "line %d: %s: %s\n", __LINE__, #condition, strerror(errno)); \
            exit(1); \
        } \
    } while (0)

static const int TYPES[] = {SOCK_SEQPACKET, SOCK_STREAM};

static inline const char *type_name(int type) {
    return type == SOCK_STREAM ? "stream" : "seqpacket";
}

/* Returns one of eight buffers in turn, so that a line can show eight answers. */
static inline char *buffer(void) {
    static char buffers[8][80];
    static unsigned turn;
    return buffers[turn++ % 8];
}

/* Returns what a call answered: its number, or the name of its error. */
static inline const char *answer(long number) {
    char *text = buffer();
    if (number < 0)
        return strerrorname_np(errno);
    snprintf(text, 80, "%ld", number);
    return text;
}

/* Sends bytes and the files of these descriptors. Does not wait. */
static inline ssize_t send_bytes(int to, const void *bytes, size_t length, const int *fds,
    size_t count) {
    static char room[CMSG_SPACE(sizeof(int) * MAX_FILES)];
    struct iovec parts = {(void *)(size_t)bytes, length};
    struct msghdr message = {.msg_iov = &parts, .msg_iovlen = 1};
    if (count > 0) {
        message.msg_control = room;
        message.msg_controllen = CMSG_SPACE(sizeof(int) * count);
        struct cmsghdr *control = CMSG_FIRSTHDR(&message);
        control->cmsg_level = SOL_SOCKET;
        control->cmsg_type = SCM_RIGHTS;
        control->cmsg_len = CMSG_LEN(sizeof(int) * count);
        memcpy(CMSG_DATA(control), fds, sizeof(int) * count);
    }
    return sendmsg(to, &message, MSG_DONTWAIT | MSG_NOSIGNAL);
}

static inline ssize_t send_text(int to, const char *text, const int *fds, size_t count) {
    return send_bytes(to, text, strlen(text), fds, count);
}

/* Sends `length` bytes without a file. */
static inline ssize_t send_length(int to, size_t length) {
    static const char bytes[MAX_BYTES];
    return send_bytes(to, bytes, length, NULL, 0);
}

/* Receives at most `length` bytes, with room for `files` files by CMSG_SPACE, and closes the
 * descriptors. Does not wait. Returns the answer as text. */
static inline const char *receive(int from, size_t length, size_t files, int flags) {
    static char room[CMSG_SPACE(sizeof(int) * MAX_FILES)];
    static char bytes[MAX_BYTES];
    struct iovec parts = {bytes, length};
    struct msghdr message = {.msg_iov = &parts, .msg_iovlen = 1};
    size_t count = 0;
    char *text = buffer();
    int at;
    if (files > 0) {
        message.msg_control = room;
        message.msg_controllen = CMSG_SPACE(sizeof(int) * files);
    }
    ssize_t got = recvmsg(from, &message, flags | MSG_DONTWAIT);
    if (got < 0)
        return strerrorname_np(errno);
    struct cmsghdr *control = CMSG_FIRSTHDR(&message);
    for (; control != NULL; control = CMSG_NXTHDR(&message, control)) {
        for (; CMSG_LEN(sizeof(int) * (count + 1)) <= control->cmsg_len; count++) {
            int fd;
            memcpy(&fd, CMSG_DATA(control) + sizeof(int) * count, sizeof fd);
            close(fd);
        }
    }
    if (got > 40)
        at = snprintf(text, 80, "%zd bytes", got);
    else
        at = snprintf(text, 80, "'%.*s'", (int)got, bytes);
    if (count > 0)
        at += snprintf(text + at, 80 - (size_t)at, " +%zu", count);
    snprintf(text + at, 80 - (size_t)at, "%s%s", message.msg_flags & MSG_TRUNC ? " trunc" : "",
        message.msg_flags & MSG_CTRUNC ? " ctrunc" : "");
    return text;
}

/* Makes a file that can be sent: the writing end of a pipe, whose reading end shows when it is
 * freed. */
static inline int new_file(int *reader) {
    int ends[2];
    MUST(pipe(ends) == 0);
    *reader = ends[0];
    return ends[1];
}

/* Returns whether the file of this reading end is freed within `ms` milliseconds. */
static inline bool is_freed(int reader, int ms) {
    struct pollfd look = {reader, POLLIN, 0};
    return poll(&look, 1, ms) > 0 && (look.revents & POLLHUP);
}

static inline const char *fate(int reader) {
    return is_freed(reader, 500) ? "freed" : "held";
}

static inline void new_pair(int type, int ends[2]) {
    MUST(socketpair(AF_UNIX, type | SOCK_NONBLOCK, 0, ends) == 0);
}

static inline int new_socket(int type) {
    int fd = socket(AF_UNIX, type | SOCK_NONBLOCK, 0);
    MUST(fd >= 0);
    return fd;
}

/* Writes the address of an abstract name, and returns its length. */
static inline socklen_t address(struct sockaddr_un *place, const char *name) {
    memset(place, 0, sizeof *place);
    place->sun_family = AF_UNIX;
    strncpy(place->sun_path + 1, name, sizeof place->sun_path - 2);
    return (socklen_t)(offsetof(struct sockaddr_un, sun_path) + 1 + strlen(name));
}

static inline int bind_name(int fd, const char *name) {
    struct sockaddr_un place;
    socklen_t length = address(&place, name);
    return bind(fd, (struct sockaddr *)&place, length);
}

static inline int connect_name(int fd, const char *name) {
    struct sockaddr_un place;
    socklen_t length = address(&place, name);
    return connect(fd, (struct sockaddr *)&place, length);
}

/* Makes a listener under a new name, and writes the name. */
static inline int new_listener(int type, int backlog, char name[40]) {
    static unsigned turn;
    int fd = new_socket(type);
    snprintf(name, 40, "comparison-%d-%u", (int)getpid(), turn++);
    MUST(bind_name(fd, name) == 0 && listen(fd, backlog) == 0);
    return fd;
}

/* Sets the limit on descriptors (RLIMIT_NOFILE): this one, or the hard limit if that is lower. */
static inline void set_limit(rlim_t limit) {
    struct rlimit now;
    MUST(getrlimit(RLIMIT_NOFILE, &now) == 0);
    now.rlim_cur = limit < now.rlim_max ? limit : now.rlim_max;
    MUST(setrlimit(RLIMIT_NOFILE, &now) == 0);
}

static inline double now(void) {
    struct timespec t;
    clock_gettime(CLOCK_MONOTONIC, &t);
    return (double)t.tv_sec * 1e9 + (double)t.tv_nsec;
}

#endif
