/* Makes calls with unusual arguments, and says what comes out.
 *
 * Each check prints a line, the same natively and under unixbox. The status is 0 if all hold. */
#define _GNU_SOURCE
#include "must.h"
#include <fcntl.h>
#include <limits.h>
#include <linux/close_range.h>
#include <pthread.h>
#include <sched.h>
#include <stdint.h>
#include <sys/prctl.h>
#include <sys/resource.h>
#include <sys/sendfile.h>
#include <sys/socket.h>
#include <sys/syscall.h>
#include <sys/uio.h>
#include <sys/un.h>
#include <sys/wait.h>
#include <unistd.h>

enum { UNKNOWN = 0x100, ABOVE = 50, LIMIT = 16, PAIRS = 12 };

static char text[16];

static void make_pair(int *pair) {
    MUST(socketpair(AF_UNIX, SOCK_STREAM, 0, pair) == 0);
}

static void close_both(const int *fds) {
    MUST(close(fds[0]) == 0 && close(fds[1]) == 0);
}

static void must_exit(pid_t child) {
    int status;
    MUST(waitpid(child, &status, 0) == child && WIFEXITED(status) && WEXITSTATUS(status) == 0);
}

/* Unknown flags are refused before anything happens. */
static const char *check_flags(void) {
    struct sockaddr_un name = {.sun_family = AF_UNIX, .sun_path = "\0arguments"};
    int listener = socket(AF_UNIX, SOCK_STREAM, 0), client = socket(AF_UNIX, SOCK_STREAM, 0);
    MUST(socket(AF_UNIX, SOCK_STREAM | UNKNOWN, 0) < 0 && errno == EINVAL);
    MUST(dup3(client, ABOVE, UNKNOWN) < 0 && errno == EINVAL);
    MUST(fcntl(ABOVE, F_GETFD) < 0 && errno == EBADF);
    MUST(bind(listener, (struct sockaddr *)&name, sizeof name) == 0 && listen(listener, 1) == 0);
    MUST(connect(client, (struct sockaddr *)&name, sizeof name) == 0);
    MUST(accept4(listener, NULL, NULL, UNKNOWN) < 0 && errno == EINVAL);
    int accepted = accept4(listener, NULL, NULL, SOCK_NONBLOCK);
    MUST(accepted >= 0 && close(accepted) == 0);
    close_both((int[]){listener, client});
    return "unknown flags are refused, and the connection is still there";
}

/* What is no type or no protocol of a socket has an error of its own. */
static const char *check_types(void) {
    MUST(socket(AF_UNIX, 99, 0) < 0 && errno == EINVAL);
    MUST(socket(AF_UNIX, 11, 0) < 0 && errno == EINVAL);
    MUST(socket(AF_UNIX, SOCK_RDM, 0) < 0 && errno == ESOCKTNOSUPPORT);
    MUST(socket(AF_UNIX, SOCK_STREAM, 2) < 0 && errno == EPROTONOSUPPORT);
    MUST(socketpair(AF_UNIX, SOCK_RDM, 2, (int[2]){0}) < 0 && errno == EPROTONOSUPPORT);
    return "each wrong type or protocol has its error";
}

/* More room than any message needs is room enough; a negative length is refused. */
static const char *check_lengths(void) {
    const size_t most = (size_t)INT_MAX + 1, negative = (size_t)SSIZE_MAX + 1;
    struct iovec parts[2] = {{text, negative}, {text, negative}};
    int pair[2];
    make_pair(pair);
    MUST(write(pair[0], "abc", 3) == 3 && syscall(SYS_read, pair[1], text, most) == 3);
    MUST(syscall(SYS_writev, pair[0], parts, 2) < 0 && errno == EINVAL);
    close_both(pair);
    return "a read has room for 2 GiB, and a negative length is refused";
}

/* A limit that is refused changes nothing. */
static const char *check_limit(void) {
    int pair[2];
    pid_t child = fork();
    if (child == 0) {
        struct rlimit limit = {LIMIT, LIMIT - 1};
        MUST(syscall(SYS_prlimit64, 0, RLIMIT_NOFILE, &limit, NULL) < 0 && errno == EINVAL);
        for (int i = 0; i < PAIRS; i++)
            make_pair(pair);
        _exit(0);
    }
    must_exit(child);
    return "a limit that is refused changes nothing";
}

/* Reads with a place and flags work on files. */
static const char *check_files(void) {
    struct iovec part = {text, 1};
    int file = open("/dev/zero", O_RDONLY);
    text[0] = 'x';
    MUST(file >= 0 && preadv2(file, &part, 1, 0, RWF_HIPRI) == 1 && text[0] == '\0');
    MUST(close(file) == 0);
    return "a file is read with preadv2";
}

/* What sendfile(2) does not move out of a socket stays there. */
static const char *check_sendfile(void) {
    int pair[2], ends[2];
    make_pair(pair);
    MUST(pipe(ends) == 0 && write(pair[0], "abc", 3) == 3);
    ssize_t moved = sendfile(ends[1], pair[1], NULL, 3);
    MUST(moved == 3 || errno == EINVAL);
    MUST(read(moved == 3 ? ends[0] : pair[1], text, 3) == 3 && memcmp(text, "abc", 3) == 0);
    close_both(pair);
    close_both(ends);
    return "sendfile moves the bytes of a socket, or leaves them";
}

/* close_range(2) closes sockets and files, or marks them for the next program. */
static const char *check_range(void) {
    int pair[2], ends[2];
    make_pair(pair);
    MUST(pipe(ends) == 0);
    MUST(syscall(SYS_close_range, ends[0], pair[0], 0) < 0 && errno == EINVAL);
    MUST(syscall(SYS_close_range, pair[1], ends[0], CLOSE_RANGE_CLOEXEC) == 0);
    MUST(fcntl(pair[1], F_GETFD) == FD_CLOEXEC && write(pair[1], "x", 1) == 1);
    MUST(syscall(SYS_close_range, pair[1], ends[0], 0) == 0 && fcntl(pair[1], F_GETFD) < 0);
    MUST(read(pair[0], text, 2) == 1 && read(pair[0], text, 1) == 0);
    MUST(close(pair[0]) == 0 && close(ends[1]) == 0);
    make_pair(pair);
    close_both(pair);
    return "a range of descriptors is closed";
}

/* setrlimit(2) itself limits descriptors, and all else. */
static const char *check_old_limit(void) {
    int pair[2];
    pid_t child = fork();
    if (child == 0) {
        MUST(syscall(SYS_setrlimit, RLIMIT_CORE, &(struct rlimit){0, 0}) == 0);
        MUST(syscall(SYS_setrlimit, RLIMIT_NOFILE, &(struct rlimit){LIMIT, LIMIT}) == 0);
        while (socketpair(AF_UNIX, SOCK_STREAM, 0, pair) == 0)
            continue;
        _exit(errno != EMFILE || pair[1] >= LIMIT);
    }
    must_exit(child);
    return "the call of old sets limits";
}

static void *leave_table(void *pair) {
    int result = unshare(CLONE_FILES);
    MUST(result == 0 || errno == EINVAL);
    if (result == 0) MUST(close(*(int *)pair) == 0);
    return NULL;
}

/* A thread that leaves the table closes nothing in that of the others. */
static const char *check_unshare(void) {
    pthread_t other;
    int pair[2];
    make_pair(pair);
    MUST(pthread_create(&other, NULL, leave_table, pair) == 0 && pthread_join(other, NULL) == 0);
    MUST(send(pair[1], "x", 1, MSG_NOSIGNAL) == 1 && read(pair[0], text, 1) == 1);
    close_both(pair);
    return "a thread leaves the table alone, or is refused";
}

/* A program that is not to be looked at has sockets too. */
static const char *check_dumpable(void) {
    int pair[2];
    pid_t child = fork();
    if (child == 0) {
        MUST(prctl(PR_SET_DUMPABLE, 0) == 0);
        make_pair(pair);
        MUST(write(pair[0], "x", 1) == 1 && read(pair[1], text, 1) == 1);
        _exit(0);
    }
    must_exit(child);
    return "a program that is not dumpable has sockets";
}

/* The kernel looks at 32 bits of a word that is a number of a family, a command or a descriptor. */
static const char *check_words(void) {
    const long above = 1L << 32;
    int pair[2];
    make_pair(pair);
    int copy = (int)syscall(SYS_fcntl, pair[0], above | F_DUPFD, 0);
    int other = (int)syscall(SYS_dup2, pair[0], above | ABOVE);
    MUST(copy >= 0 && other == ABOVE && write(pair[1], "xy", 2) == 2);
    MUST(read(copy, text, 1) == 1 && text[0] == 'x');
    MUST(read(other, text, 1) == 1 && text[0] == 'y');
    MUST(close(copy) == 0 && close(other) == 0);
    close_both(pair);
    MUST(syscall(SYS_socketpair, above | AF_UNIX, SOCK_STREAM, 0, pair) == 0);
    MUST(write(pair[1], "x", 1) == 1 && read(pair[0], text, 1) == 1 && text[0] == 'x');
    close_both(pair);
    return "what is above 32 bits is ignored";
}

int main(void) {
    setvbuf(stdout, NULL, _IOLBF, 0); /* No child inherits a line. */
    printf("flags: %s\n", check_flags());
    printf("types: %s\n", check_types());
    printf("lengths: %s\n", check_lengths());
    printf("limit: %s\n", check_limit());
    printf("files: %s\n", check_files());
    printf("sendfile: %s\n", check_sendfile());
    printf("range: %s\n", check_range());
    printf("old limit: %s\n", check_old_limit());
    printf("unshare: %s\n", check_unshare());
    printf("dumpable: %s\n", check_dumpable());
    printf("words: %s\n", check_words());
    return 0;
}
