/* Starts, kills, interrupts and replaces processes that use sockets, and says what comes out.
 *
 * Each check prints a line, the same natively and under unixbox. The status is 0 if all hold. */
#define _GNU_SOURCE
#include "must.h"
#include <fcntl.h>
#include <poll.h>
#include <pthread.h>
#include <signal.h>
#include <sys/prctl.h>
#include <sys/socket.h>
#include <sys/wait.h>
#include <unistd.h>

enum { CHILDREN = 801, HUNDRED = 100 };
enum { PAUSE = 100000, LONG_PAUSE = 30000 }; /* Microseconds, milliseconds. */

static int way[2];

static void must_exit(pid_t child) {
    int status;
    MUST(waitpid(child, &status, 0) == child && WIFEXITED(status) && WEXITSTATUS(status) == 0);
}

/* Some of many children of one thread make a socket while all are alive. There are fewer where the
 * machine lets no further one start. */
static const char *check_children(void) {
    static pid_t children[CHILDREN];
    int gate[2], count = 0;
    MUST(pipe(gate) == 0);
    for (int i = 0; i < CHILDREN && (children[i] = fork()) >= 0; i++) {
        count++;
        if (children[i] == 0) {
            MUST(close(gate[1]) == 0 && read(gate[0], way, 1) == 0);
            _exit(i % HUNDRED == 0 && socket(AF_UNIX, SOCK_STREAM, 0) < 0);
        }
    }
    MUST(close(gate[0]) == 0 && close(gate[1]) == 0);
    while (count > 0)
        must_exit(children[--count]);
    return "some of many children make a socket";
}

/* The sockets of a child that was killed are closed once its parent has waited for it. */
static const char *check_kill(void) {
    for (int round = 0; round < 20; round++) {
        struct pollfd ask = {-1, POLLIN, 0};
        siginfo_t told;
        char byte;
        MUST(socketpair(AF_UNIX, SOCK_STREAM, 0, way) == 0);
        pid_t child = fork();
        if (child == 0) {
            MUST(close(way[0]) == 0 && write(way[1], "x", 1) == 1);
            _exit(read(way[1], &byte, 1) != 1);
        }
        MUST(close(way[1]) == 0 && read(way[0], &byte, 1) == 1);
        ask.fd = way[0];
        MUST(kill(child, SIGKILL) == 0);
        if (round % 2 == 0)
            MUST(waitid(P_PID, (id_t)child, &told, WEXITED) == 0 && told.si_status == SIGKILL);
        else
            MUST(waitpid(child, NULL, 0) == child);
        MUST(poll(&ask, 1, 0) == 1 && ask.revents == (POLLIN | POLLHUP));
        MUST(send(way[0], "x", 1, MSG_NOSIGNAL) < 0 && errno == EPIPE && close(way[0]) == 0);
    }
    return "the sockets of a killed child are closed after the wait for it";
}

static void *send_late(void *none) {
    MUST(usleep(PAUSE) == 0 && write(way[0], "x", 1) == 1);
    return none;
}

/* A thread with this name waits in a receive. */
static void must_wait(const char *name) {
    pthread_t sender;
    char byte;
    MUST(prctl(PR_SET_NAME, name) == 0 && pthread_create(&sender, NULL, send_late, NULL) == 0);
    MUST(read(way[1], &byte, 1) == 1 && pthread_join(sender, NULL) == 0);
}

static const char *check_name(void) {
    MUST(socketpair(AF_UNIX, SOCK_STREAM, 0, way) == 0);
    must_wait("");
    must_wait("fourteen and a\\");
    must_wait("processes");
    MUST(close(way[0]) == 0 && close(way[1]) == 0);
    return "a receive waits, whatever the name of its thread";
}

/* Takes the end of any child. */
static void reap(int number) {
    (void)number;
    while (waitpid(-1, NULL, WNOHANG) > 0)
        continue;
}

/* A wait has the end of its child also where the signal's handler looks for it. A stop ends it, if
 * it asks for that. */
static const char *check_wait(void) {
    struct sigaction action = {.sa_handler = reap, .sa_flags = SA_RESTART}, usual;
    int status;
    MUST(sigaction(SIGCHLD, &action, &usual) == 0);
    for (int round = 0; round < 5; round++) {
        pid_t child = fork();
        if (child == 0)
            _exit(usleep(PAUSE / 5) != 0);
        must_exit(child);
    }
    MUST(sigaction(SIGCHLD, &usual, NULL) == 0);
    pid_t child = fork();
    if (child == 0)
        _exit(raise(SIGSTOP));
    MUST(waitpid(child, &status, WUNTRACED) == child && WIFSTOPPED(status));
    MUST(kill(child, SIGCONT) == 0 && waitpid(getppid(), NULL, 0) < 0 && errno == ECHILD);
    must_exit(child);
    return "a wait has the end of its child";
}

static void ignore(int number) {
    (void)number;
}

static void *receive(void *none) {
    char byte;
    MUST(recv(way[1], &byte, 1, 0) == 1);
    return none;
}

/* A signal to the process interrupts the receive of its first thread, and no other. */
static const char *check_signal(void) {
    pthread_t other;
    int own[2];
    char byte;
    MUST(socketpair(AF_UNIX, SOCK_STREAM, 0, way) == 0);
    MUST(socketpair(AF_UNIX, SOCK_STREAM, 0, own) == 0);
    MUST(sigaction(SIGUSR1, &(struct sigaction){.sa_handler = ignore}, NULL) == 0);
    MUST(pthread_create(&other, NULL, receive, NULL) == 0);
    pid_t child = fork();
    if (child == 0) {
        MUST(usleep(3 * PAUSE) == 0 && kill(getppid(), SIGUSR1) == 0);
        MUST(usleep(PAUSE) == 0 && write(way[0], "x", 1) == 1);
        _exit(0);
    }
    MUST(recv(own[1], &byte, 1, 0) < 0 && errno == EINTR);
    MUST(pthread_join(other, NULL) == 0);
    must_exit(child);
    MUST(close(own[0]) == 0 && close(own[1]) == 0 && close(way[0]) == 0 && close(way[1]) == 0);
    return "a signal interrupts the first thread alone";
}

static void *start_cat(void *none) {
    MUST(usleep(PAUSE) == 0);
    execlp("sh", "sh", "-c", "sleep 0.2; test \"$(cat)\" = text", NULL);
    return none;
}

/* A receive ends with its thread, so the message is the next program's. */
static const char *check_exec(void) {
    pthread_t other;
    int gate[2]; /* exec(2) closes it. */
    char text[8];
    MUST(socketpair(AF_UNIX, SOCK_STREAM | SOCK_CLOEXEC, 0, way) == 0);
    MUST(pipe2(gate, O_CLOEXEC) == 0);
    pid_t child = fork();
    if (child == 0) {
        MUST(dup2(way[1], STDIN_FILENO) == STDIN_FILENO);
        MUST(pthread_create(&other, NULL, start_cat, NULL) == 0);
        _exit(read(STDIN_FILENO, text, sizeof text) >= 0);
    }
    MUST(close(way[1]) == 0 && close(gate[1]) == 0 && read(gate[0], text, 1) == 0);
    MUST(write(way[0], "text", 4) == 4 && shutdown(way[0], SHUT_WR) == 0);
    must_exit(child);
    MUST(close(way[0]) == 0 && close(gate[0]) == 0);
    return "a receive ends with its thread, and takes nothing from the next program";
}

/* Answers a byte when the first thread is over. */
static void *answer(void *none) {
    char line[64] = "", byte;
    int pair[2];
    while (strstr(line, ") Z ") == NULL) {
        int file = open("/proc/self/stat", O_RDONLY);
        MUST(read(file, line, sizeof line - 1) > 0 && close(file) == 0);
    }
    MUST(socketpair(AF_UNIX, SOCK_STREAM, 0, pair) == 0 && close(pair[0]) == 0);
    MUST(read(way[1], &byte, 1) == 1 && byte == 'x' && write(way[1], "y", 1) == 1);
    _exit(close(pair[1]) != 0);
    return none;
}

/* A process goes on when its first thread is over. */
static const char *check_leader(void) {
    pthread_t other;
    char byte;
    MUST(socketpair(AF_UNIX, SOCK_STREAM, 0, way) == 0);
    pid_t child = fork();
    if (child == 0) {
        MUST(pthread_create(&other, NULL, answer, NULL) == 0);
        pthread_exit(NULL);
    }
    MUST(close(way[1]) == 0 && write(way[0], "x", 1) == 1);
    MUST(read(way[0], &byte, 1) == 1 && byte == 'y' && close(way[0]) == 0);
    must_exit(child);
    return "a process goes on when its first thread is over";
}

/* What an exec(2) closes is closed, though the new program makes no call that concerns it. */
static const char *check_silence(void) {
    static char path[4096];
    ssize_t length = readlink("/proc/self/exe", path, sizeof path - sizeof "pause");
    char byte;
    MUST(length > 0 && socketpair(AF_UNIX, SOCK_STREAM | SOCK_CLOEXEC, 0, way) == 0);
    strcpy(strrchr(path, '/'), "/pause");
    pid_t child = fork();
    if (child == 0) {
        execl(path, path, NULL);
        _exit(1);
    }
    struct pollfd ask = {way[0], POLLIN, 0};
    MUST(close(way[1]) == 0 && poll(&ask, 1, LONG_PAUSE) == 1 && (ask.revents & POLLHUP));
    MUST(read(way[0], &byte, 1) == 0 && close(way[0]) == 0);
    MUST(kill(child, SIGKILL) == 0 && waitpid(child, NULL, 0) == child);
    return "a program that makes no call keeps no socket that exec closes";
}

/* A number that an exec(2) has closed is that of the first file of the next program. */
static const char *check_loader(void) {
    char *paths = "LD_LIBRARY_PATH=/lib/x86_64-linux-gnu:/usr/lib/x86_64-linux-gnu:/lib64";
    MUST(socketpair(AF_UNIX, SOCK_STREAM | SOCK_CLOEXEC, 0, way) == 0);
    MUST(write(way[0], "no library", 10) == 10 && write(way[1], "no library", 10) == 10);
    pid_t child = fork();
    if (child == 0) {
        execle("/bin/true", "true", NULL, (char *[]){paths, NULL});
        _exit(1);
    }
    must_exit(child);
    MUST(close(way[0]) == 0 && close(way[1]) == 0);
    return "a program is loaded by a number that exec has closed";
}

int main(void) {
    setvbuf(stdout, NULL, _IOLBF, 0); /* No child inherits a line. */
    printf("children: %s\n", check_children());
    printf("kill: %s\n", check_kill());
    printf("wait: %s\n", check_wait());
    printf("name: %s\n", check_name());
    printf("signal: %s\n", check_signal());
    printf("exec: %s\n", check_exec());
    printf("leader: %s\n", check_leader());
    printf("silence: %s\n", check_silence());
    printf("loader: %s\n", check_loader());
    return 0;
}
