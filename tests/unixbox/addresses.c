/* Receives into places that are not there, or not wholly, and says what is left.
 *
 * Each check prints a line, the same natively and under unixbox. The status is 0 if all hold. */
#define _GNU_SOURCE
#include "must.h"
#include <dirent.h>
#include <poll.h>
#include <pthread.h>
#include <stdatomic.h>
#include <stdbool.h>
#include <sys/mman.h>
#include <sys/socket.h>
#include <sys/syscall.h>
#include <sys/uio.h>
#include <sys/un.h>
#include <sys/wait.h>
#include <unistd.h>

enum { PAGE = 4096, FILES = 3, MANY = 2000 };

static char *page, *nowhere; /* What follows the page is not there. */

static void make_pair(int type, int *pair) {
    MUST(socketpair(AF_UNIX, type, 0, pair) == 0);
}

static void close_both(const int *fds) {
    MUST(close(fds[0]) == 0 && close(fds[1]) == 0);
}

static int count_descriptors(void) {
    DIR *folder = opendir("/proc/self/fd");
    int count = 0;
    MUST(folder != NULL);
    while (readdir(folder) != NULL)
        count++;
    MUST(closedir(folder) == 0);
    return count;
}

/* Sends this text with descriptors of a pipe's end. Returns the reading end. */
static int send_files(int on, char *text, size_t count) {
    _Alignas(struct cmsghdr) char control[CMSG_SPACE(FILES * sizeof(int))] = {0};
    struct iovec part = {text, strlen(text)};
    struct msghdr message = {.msg_iov = &part, .msg_iovlen = 1, .msg_control = control};
    int ends[2];
    MUST(pipe(ends) == 0);
    message.msg_controllen = CMSG_SPACE(count * sizeof(int));
    struct cmsghdr *rights = CMSG_FIRSTHDR(&message);
    *rights = (struct cmsghdr){CMSG_LEN(count * sizeof(int)), SOL_SOCKET, SCM_RIGHTS};
    for (size_t i = 0; i < count; i++)
        memcpy(CMSG_DATA(rights) + i * sizeof(int), &ends[1], sizeof(int));
    MUST(sendmsg(on, &message, 0) == (ssize_t)part.iov_len && close(ends[1]) == 0);
    return ends[0];
}

/* Whether nothing has the writing end of a pipe any more. */
static int is_ended(int reads) {
    struct pollfd ask = {reads, POLLIN, 0};
    return poll(&ask, 1, 0) == 1 && ask.revents == POLLHUP;
}

/* A stream keeps what cannot be written; a packet is gone. */
static const char *check_bytes(void) {
    struct iovec parts[] = {{page, 3}, {nowhere, 3}, {page, 3}};
    int stream[2], packet[2];
    make_pair(SOCK_STREAM, stream);
    make_pair(SOCK_SEQPACKET, packet);
    MUST(write(stream[0], "abc", 3) == 3 && read(stream[1], nowhere, 3) < 0 && errno == EFAULT);
    MUST(write(stream[0], "defg", 4) == 4 && readv(stream[1], parts, 3) == 3);
    MUST(memcmp(page, "abc", 3) == 0 && readv(stream[1], parts, 3) < 0 && errno == EFAULT);
    MUST(read(stream[1], nowhere - 2, 4) < 0 && errno == EFAULT);
    MUST(recv(stream[1], nowhere, 4, MSG_PEEK) < 0 && errno == EFAULT);
    MUST(read(stream[1], page, PAGE) == 4 && memcmp(page, "defg", 4) == 0);
    MUST(write(packet[0], "abc", 3) == 3 && write(packet[0], "def", 3) == 3);
    MUST(recv(packet[1], nowhere, 3, MSG_PEEK) < 0 && errno == EFAULT);
    MUST(read(packet[1], nowhere, 3) < 0 && errno == EFAULT);
    MUST(recv(packet[1], page, 3, MSG_DONTWAIT) == 3 && memcmp(page, "def", 3) == 0);
    close_both(stream);
    close_both(packet);
    return "a stream keeps what cannot be written, and a packet is lost";
}

/* Descriptors that come with bytes for a bad address stay with a stream, and end with a packet. */
static const char *check_files(int type) {
    _Alignas(struct cmsghdr) char control[CMSG_SPACE(FILES * sizeof(int))];
    struct iovec part = {nowhere, 1};
    struct msghdr message = {.msg_iov = &part, .msg_iovlen = 1, .msg_control = control};
    int pair[2], fd;
    make_pair(type, pair);
    message.msg_controllen = sizeof control;
    int reads = send_files(pair[0], "x", 1), count = count_descriptors();
    MUST(recvmsg(pair[1], &message, 0) < 0 && errno == EFAULT && count_descriptors() == count);
    MUST(is_ended(reads) == (type == SOCK_SEQPACKET));
    part.iov_base = page;
    if (type == SOCK_STREAM) {
        MUST(recvmsg(pair[1], &message, 0) == 1 && CMSG_FIRSTHDR(&message) != NULL);
        memcpy(&fd, CMSG_DATA(CMSG_FIRSTHDR(&message)), sizeof fd);
        MUST(!is_ended(reads) && close(fd) == 0 && is_ended(reads));
    }
    MUST(close(reads) == 0);
    close_both(pair);
    return "no descriptor is left that the program does not know of";
}

/* So many of three descriptors arrive where control data can be written so far. */
static const char *check_control(size_t room, int arrive) {
    struct iovec part = {page, 1};
    struct msghdr message = {.msg_iov = &part, .msg_iovlen = 1};
    int pair[2];
    make_pair(SOCK_STREAM, pair);
    message.msg_control = nowhere - room;
    message.msg_controllen = CMSG_SPACE(FILES * sizeof(int));
    int reads = send_files(pair[0], "x", FILES), count = count_descriptors();
    MUST(recvmsg(pair[1], &message, 0) == 1 && (message.msg_flags & MSG_CTRUNC));
    MUST(count_descriptors() == count + arrive);
    MUST(message.msg_controllen == (arrive > 0 ? CMSG_SPACE((size_t)arrive * sizeof(int)) : 0));
    for (int i = 0, fd; i < arrive; i++) {
        MUST(!is_ended(reads));
        memcpy(&fd, nowhere - room + CMSG_LEN((size_t)i * sizeof(int)), sizeof fd);
        MUST(close(fd) == 0);
    }
    MUST(is_ended(reads) && close(reads) == 0);
    close_both(pair);
    return "descriptors arrive as far as their numbers can be written, and MSG_CTRUNC tells";
}

/* Calls that make descriptors leave none where their answer cannot be written. */
static const char *check_new(void) {
    struct sockaddr_un name = {.sun_family = AF_UNIX, .sun_path = "\0addresses"};
    int listener = socket(AF_UNIX, SOCK_STREAM, 0), client = socket(AF_UNIX, SOCK_STREAM, 0);
    socklen_t length = sizeof name;
    MUST(bind(listener, (struct sockaddr *)&name, sizeof name) == 0 && listen(listener, 1) == 0);
    MUST(connect(client, (struct sockaddr *)&name, sizeof name) == 0);
    int count = count_descriptors();
    MUST(syscall(SYS_socketpair, AF_UNIX, SOCK_STREAM, 0, nowhere) < 0 && errno == EFAULT);
    MUST(syscall(SYS_socketpair, AF_UNIX, SOCK_STREAM, 0, nowhere - 4) < 0 && errno == EFAULT);
    MUST(syscall(SYS_accept, listener, nowhere, &length) < 0 && errno == EFAULT);
    MUST(count_descriptors() == count && read(client, page, 1) == 0);
    close_both((int[]){listener, client});
    return "no new descriptor is left where its number cannot be told";
}

static atomic_bool is_over;

static void *flip(void *place) {
    while (!is_over)
        MUST(mprotect(place, PAGE, PROT_NONE) == 0 &&
             mprotect(place, PAGE, PROT_READ | PROT_WRITE) == 0);
    return NULL;
}

/* A thread takes memory away and gives it back while another receives: each byte comes once. */
static const char *check_race(void) {
    pthread_t other;
    int pair[2], status, memory = memfd_create("race", 0);
    make_pair(SOCK_STREAM, pair);
    pid_t child = fork();
    if (child == 0) {
        for (int i = 0; i < MANY; i++)
            MUST(write(pair[0], &(char){(char)i}, 1) == 1);
        _exit(0);
    }
    MUST(ftruncate(memory, PAGE) == 0);
    const char *seen = mmap(NULL, PAGE, PROT_READ, MAP_SHARED, memory, 0);
    char *place = mmap(NULL, PAGE, PROT_READ | PROT_WRITE, MAP_SHARED, memory, 0);
    MUST(seen != MAP_FAILED && place != MAP_FAILED);
    MUST(pthread_create(&other, NULL, flip, place) == 0);
    for (int i = 0; i < MANY; i++) {
        while (read(pair[1], place, 1) != 1)
            MUST(errno == EFAULT);
        MUST(seen[0] == (char)i);
    }
    is_over = true;
    MUST(pthread_join(other, NULL) == 0 && close(memory) == 0);
    MUST(waitpid(child, &status, 0) == child && status == 0);
    close_both(pair);
    return "each byte comes once, in order";
}

int main(void) {
    setvbuf(stdout, NULL, _IOLBF, 0); /* No child inherits a line. */
    page = mmap(NULL, 2 * PAGE, PROT_READ | PROT_WRITE, MAP_PRIVATE | MAP_ANONYMOUS, -1, 0);
    nowhere = page + PAGE;
    MUST(page != MAP_FAILED && mprotect(nowhere, PAGE, PROT_NONE) == 0);
    printf("bytes: %s\n", check_bytes());
    printf("files, stream: %s\n", check_files(SOCK_STREAM));
    printf("files, seqpacket: %s\n", check_files(SOCK_SEQPACKET));
    printf("control, none: %s\n", check_control(0, 0));
    printf("control, one of three: %s\n", check_control(CMSG_LEN(sizeof(int)), 1));
    printf("new: %s\n", check_new());
    printf("race: %s\n", check_race());
    return 0;
}
