/* Forks children that make their first call late, and says whether the layer knows them.
 *
 * Each check prints a line, the same natively and under unixbox. The status is 0 if all hold. With
 * an argument, all descriptors of unixbox are taken first. */
#define _GNU_SOURCE
#include "must.h"
#include <pthread.h>
#include <signal.h>
#include <sys/prctl.h>
#include <sys/socket.h>
#include <sys/wait.h>
#include <unistd.h>

enum { PAUSE = 20000, ROUNDS = 5, PAIRS = 600, MANY = 100 }; /* The first in microseconds. */

static int ends[2], others[2];

static void must_exit(pid_t child) {
    int status;
    MUST(waitpid(child, &status, 0) == child && WIFEXITED(status) && WEXITSTATUS(status) == 0);
}

/* A child's one call: a message after a while. */
static void send_late(int on) {
    usleep(PAUSE);
    _exit(write(on, "x", 1) != 1);
}

static void *fork_late(void *out) {
    pid_t child = fork();
    if (child == 0) send_late(ends[1]);
    *(pid_t *)out = child;
    return NULL;
}

/* The thread that forked is over before the child's first call. */
static const char *check_thread(void) {
    for (int i = 0; i < ROUNDS; i++) {
        pthread_t thread;
        pid_t child = 0;
        char byte;
        MUST(pthread_create(&thread, NULL, fork_late, &child) == 0);
        MUST(pthread_join(thread, NULL) == 0);
        must_exit(child);
        MUST(read(ends[0], &byte, 1) == 1);
    }
    return "a child of a thread that is over sends";
}

/* Forks twice, the children with other descriptors, and is killed. */
static void fork_and_die(void) {
    if (fork() == 0) send_late(ends[1]);
    if (close(ends[1]) < 0 || dup2(others[1], ends[1]) != ends[1]) _exit(1);
    if (fork() == 0) send_late(ends[1]);
    raise(SIGKILL);
}

/* The process that forked is killed before the children's first calls, and a subreaper has them. */
static const char *check_orphans(void) {
    char byte;
    MUST(prctl(PR_SET_CHILD_SUBREAPER, 1) == 0);
    for (int i = 0; i < ROUNDS; i++) {
        pid_t child = fork();
        if (child == 0) fork_and_die();
        MUST(waitpid(child, NULL, 0) == child);
        MUST(read(ends[0], &byte, 1) == 1 && read(others[0], &byte, 1) == 1);
        for (int status; wait(&status) > 0;) MUST(WIFEXITED(status) && WEXITSTATUS(status) == 0);
    }
    return "orphans send, each by its own table";
}

static void *fork_other(void *out) {
    pid_t child = fork();
    if (child == 0) send_late(others[1]);
    *(pid_t *)out = child;
    return NULL;
}

/* Two threads fork at once, and are over. */
static const char *check_threads(void) {
    for (int i = 0; i < ROUNDS; i++) {
        pthread_t threads[2];
        pid_t children[2] = {0};
        char byte;
        MUST(pthread_create(&threads[0], NULL, fork_late, &children[0]) == 0);
        MUST(pthread_create(&threads[1], NULL, fork_other, &children[1]) == 0);
        MUST(pthread_join(threads[0], NULL) == 0 && pthread_join(threads[1], NULL) == 0);
        must_exit(children[0]);
        must_exit(children[1]);
        MUST(read(ends[0], &byte, 1) == 1 && read(others[0], &byte, 1) == 1);
    }
    return "children of two threads send";
}

/* A child is known, or is not made, where no further socket can be. */
static const char *check_full(void) {
    static int pairs[PAIRS][2];
    char byte;
    int count = 0;
    while (count < PAIRS && socketpair(AF_UNIX, SOCK_STREAM, 0, pairs[count]) == 0) count++;
    MUST(count < PAIRS && (errno == EMFILE || errno == ENFILE));
    pid_t children[MANY];
    int made = 0;
    for (; made < MANY && (children[made] = fork()) >= 0; made++)
        if (children[made] == 0) send_late(ends[1]);
    MUST(made == MANY || (made > 0 && errno == EAGAIN));
    while (made > 0) {
        MUST(read(ends[0], &byte, 1) == 1);
        must_exit(children[--made]);
    }
    while (count > 0) MUST(close(pairs[--count][0]) == 0 && close(pairs[count][1]) == 0);
    return "children that are made send where no further socket can be";
}

int main(int argc, char **argv) {
    (void)argv;
    setvbuf(stdout, NULL, _IOLBF, 0); /* No child inherits a line. */
    MUST(socketpair(AF_UNIX, SOCK_STREAM, 0, ends) == 0);
    MUST(socketpair(AF_UNIX, SOCK_STREAM, 0, others) == 0);
    if (argc > 1) {
        printf("full: %s\n", check_full());
        return 0;
    }
    printf("thread: %s\n", check_thread());
    printf("threads: %s\n", check_threads());
    printf("orphans: %s\n", check_orphans());
    return 0;
}
