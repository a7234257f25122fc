/* Sends and receives on streams in calls that wait, waits for children, and says what comes out.
 *
 * Each check prints a line, the same natively and under unixbox. The status is 0 if all hold. */
#define _GNU_SOURCE
#include "must.h"
#include <pthread.h>
#include <signal.h>
#include <sys/socket.h>
#include <sys/time.h>
#include <sys/wait.h>
#include <time.h>
#include <unistd.h>

enum { LONG = 300000, PAUSE = 50000, TIMEOUT = 100000, THREADS = 4 }; /* Bytes; microseconds. */

static char bytes[LONG];
static volatile sig_atomic_t signals;

/* Starts a process that has the other end of a new pair. Returns this process's end, and -1 in the
 * new one. */
static int start(int *other) {
    int pair[2];
    MUST(socketpair(AF_UNIX, SOCK_STREAM, 0, pair) == 0);
    pid_t child = fork();
    MUST(child >= 0 && close(pair[child != 0]) == 0);
    *other = pair[1];
    return child == 0 ? -1 : pair[0];
}

/* Sends a descriptor of standard input with two bytes. */
static void send_file(int on) {
    _Alignas(struct cmsghdr) char control[CMSG_SPACE(sizeof(int))] = {0};
    struct iovec part = {"de", 2};
    struct msghdr message = {.msg_iov = &part, .msg_iovlen = 1, .msg_control = control};
    message.msg_controllen = sizeof control;
    *CMSG_FIRSTHDR(&message) = (struct cmsghdr){CMSG_LEN(sizeof(int)), SOL_SOCKET, SCM_RIGHTS};
    MUST(sendmsg(on, &message, 0) == 2);
}

static void send_part(int on, const char *text) {
    MUST(usleep(PAUSE) == 0 && send(on, text, strlen(text), 0) == (ssize_t)strlen(text));
}

static void must_end(int on) {
    int status;
    MUST(close(on) == 0 && wait(&status) > 0 && WIFEXITED(status) && WEXITSTATUS(status) == 0);
}

/* MSG_WAITALL waits for all bytes, or for the end. */
static void check_all(void) {
    char text[16] = {0};
    int other, on = start(&other);
    if (on < 0) {
        send_part(other, "abc");
        send_part(other, "def");
        send_part(other, "ghi");
        exit(0);
    }
    MUST(recv(on, text, 5, MSG_WAITALL) == 5);
    printf("all: %s", text);
    memset(text, 0, sizeof text);
    MUST(recv(on, text, 5, MSG_WAITALL) == 4);
    printf(" %s\n", text);
    must_end(on);
}

/* A descriptor ends a receive with MSG_WAITALL, and is in it. */
static void check_barrier(void) {
    _Alignas(struct cmsghdr) char control[CMSG_SPACE(sizeof(int))];
    char text[16] = {0};
    struct iovec part = {text, 9};
    struct msghdr message = {.msg_iov = &part, .msg_iovlen = 1, .msg_control = control};
    int other, on = start(&other);
    message.msg_controllen = sizeof control;
    if (on < 0) {
        send_part(other, "abc");
        MUST(usleep(PAUSE) == 0);
        send_file(other);
        send_part(other, "fghi");
        exit(0);
    }
    MUST(recvmsg(on, &message, MSG_WAITALL) == 5 && CMSG_FIRSTHDR(&message) != NULL);
    printf("barrier: %s, and %zu bytes of control data\n", text, message.msg_controllen);
    MUST(recv(on, text, 4, MSG_WAITALL) == 4);
    must_end(on);
}

static void ignore(int number) {
    (void)number;
}

/* A signal ends a receive: with what has come, or by EINTR. */
static void check_signal(void) {
    struct itimerval once = {.it_value = {0, 10 * PAUSE}};
    char text[16] = {0};
    int other, on = start(&other);
    if (on < 0) {
        send_part(other, "abc");
        MUST(read(other, text, 1) == 0);
        exit(0);
    }
    MUST(sigaction(SIGALRM, &(struct sigaction){.sa_handler = ignore}, NULL) == 0);
    MUST(setitimer(ITIMER_REAL, &once, NULL) == 0);
    MUST(recv(on, text, 5, MSG_WAITALL) == 3);
    MUST(setitimer(ITIMER_REAL, &once, NULL) == 0 && recv(on, bytes, 5, MSG_WAITALL) < 0);
    printf("signal: %s, then %s\n", text, strerror(errno));
    must_end(on);
}

/* SO_RCVTIMEO and SO_SNDTIMEO end calls. */
static void check_timeout(void) {
    struct timeval limit = {0, TIMEOUT};
    struct timespec begin, end;
    int pair[2];
    MUST(socketpair(AF_UNIX, SOCK_STREAM, 0, pair) == 0);
    MUST(setsockopt(pair[0], SOL_SOCKET, SO_RCVTIMEO, &limit, sizeof limit) == 0);
    MUST(setsockopt(pair[1], SOL_SOCKET, SO_SNDTIMEO, &limit, sizeof limit) == 0);
    MUST(clock_gettime(CLOCK_MONOTONIC, &begin) == 0);
    MUST(recv(pair[0], bytes, 1, 0) < 0 && errno == EAGAIN);
    MUST(clock_gettime(CLOCK_MONOTONIC, &end) == 0);
    long took = (end.tv_sec - begin.tv_sec) * 1000000 + (end.tv_nsec - begin.tv_nsec) / 1000;
    while (send(pair[1], bytes, 1, 0) == 1)
        continue;
    printf("timeout: %s, %s\n", took < TIMEOUT ? "at once" : "after a wait", strerror(errno));
    MUST(close(pair[0]) == 0 && close(pair[1]) == 0);
}

/* A send that waits moves all bytes. */
static void check_long(void) {
    size_t got = 0;
    int other, on = start(&other);
    if (on < 0) {
        for (ssize_t part; (part = read(other, bytes, sizeof bytes)) > 0; usleep(PAUSE / 10))
            got += (size_t)part;
        exit(got != LONG);
    }
    printf("long: %zd of %d bytes\n", send(on, bytes, LONG, 0), LONG);
    must_end(on);
}

static void *wait_for_child(void *child) {
    int status;
    MUST(waitpid(*(pid_t *)child, &status, 0) == *(pid_t *)child && status == 0);
    return NULL;
}

/* SIGCHLD does nothing by default: where the first thread blocks it, it waits, but ends no calls of
 * the others. */
static void check_children(void) {
    pid_t children[THREADS];
    pthread_t threads[THREADS];
    sigset_t all, old;
    for (int i = 0; i < THREADS; i++) {
        children[i] = fork();
        if (children[i] == 0) _exit(usleep((useconds_t)(i + 1) * PAUSE) < 0);
        MUST(pthread_create(&threads[i], NULL, wait_for_child, &children[i]) == 0);
    }
    sigfillset(&all);
    MUST(pthread_sigmask(SIG_BLOCK, &all, &old) == 0);
    for (int i = 0; i < THREADS; i++) MUST(pthread_join(threads[i], NULL) == 0);
    MUST(pthread_sigmask(SIG_SETMASK, &old, NULL) == 0);
    printf("children: %d ended\n", THREADS);
}

/* Receives a byte, also where a signal comes, which may be another thread's. */
static void *receive_byte(void *on) {
    ssize_t got;
    while ((got = recv(*(int *)on, &(char){0}, 1, 0)) < 0 && errno == EINTR) continue;
    MUST(got == 1);
    return NULL;
}

static void count(int number) {
    (void)number;
    signals++;
}

/* A signal that the first thread blocks is one other's, and all others receive. */
static void check_threads(void) {
    int pairs[THREADS][2];
    pthread_t threads[THREADS];
    sigset_t all, old;
    MUST(sigaction(SIGUSR1, &(struct sigaction){.sa_handler = count}, NULL) == 0);
    for (int i = 0; i < THREADS; i++) {
        MUST(socketpair(AF_UNIX, SOCK_STREAM, 0, pairs[i]) == 0);
        MUST(pthread_create(&threads[i], NULL, receive_byte, &pairs[i][0]) == 0);
    }
    sigfillset(&all);
    MUST(pthread_sigmask(SIG_BLOCK, &all, &old) == 0);
    MUST(usleep(PAUSE) == 0 && kill(getpid(), SIGUSR1) == 0 && usleep(2 * PAUSE) == 0);
    printf("threads: %d signal", (int)signals);
    for (int i = 0; i < THREADS; i++)
        MUST(write(pairs[i][1], "x", 1) == 1 && pthread_join(threads[i], NULL) == 0);
    MUST(pthread_sigmask(SIG_SETMASK, &old, NULL) == 0);
    printf(", %d receive\n", THREADS);
    for (int i = 0; i < THREADS; i++) MUST(close(pairs[i][0]) == 0 && close(pairs[i][1]) == 0);
}

int main(void) {
    setvbuf(stdout, NULL, _IOLBF, 0); /* No child inherits a line. */
    check_all();
    check_barrier();
    check_signal();
    check_timeout();
    check_long();
    check_children();
    check_threads();
    return 0;
}
