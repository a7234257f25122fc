/* The guard: a process between unixbox and its programs, the parent of the first and of those whose
 * parents are over (a subreaper). Whatever ends unixbox, the guard kills them all. */
#include "unixbox.h"
#include <err.h>
#include <sys/wait.h>

pid_t guard;
int program = -1;

/* What the guard tells unixbox: the first program, and its own descriptor of the notifications. */
struct started {
    pid_t program;
    int notifications;
};

static int status_of(int ended) {
    return WIFEXITED(ended) ? WEXITSTATUS(ended) : 128 + WTERMSIG(ended);
}

/* Kills all children, and theirs when they have become children. */
void kill_children(void) {
    do {
        const char *at = read_all(getpid(), "children");
        char *end;
        for (pid_t pid; (pid = (pid_t)strtol(at, &end, 10)) > 0; at = end) kill(pid, SIGKILL);
    } while (waitpid(-1, NULL, 0) > 0);
}

/* Becomes the program, with the filter, after a signal to continue. */
static void run_program(char **arguments, int listener, const sigset_t *signals) {
    struct rlimit limit = {JW_MAX_NOFILE, JW_MAX_NOFILE};
    prctl(PR_SET_PDEATHSIG, SIGKILL);
    setrlimit(RLIMIT_NOFILE, &limit);
    sigprocmask(SIG_SETMASK, signals, NULL);
    if (install_filter() != listener) err(FAILED, "seccomp notification is refused");
    raise(SIGSTOP);
    execvp(arguments[0], arguments);
    int status = errno == ENOENT ? NOT_FOUND : NOT_RUN;
    warn("%s", arguments[0]);
    _exit(status);
}

/* Starts the program. Returns its pid, and a copy of its notifications, so that calls wait where
 * unixbox has ended. */
static struct started start_program(char **arguments, const sigset_t *signals) {
    int listener = fcntl(0, F_DUPFD, 0), status; /* The lowest free number is the listener's. */
    close(listener);
    pid_t pid = fork();
    if (pid == 0) run_program(arguments, listener, signals);
    signal(SIGCHLD, SIG_DFL); /* Where it was ignored, no child could be waited for. */
    if (pid < 0 || waitpid(pid, &status, WUNTRACED) < 0) err(FAILED, "fork");
    if (WIFEXITED(status)) exit(WEXITSTATUS(status));
    int pidfd = (int)syscall(SYS_pidfd_open, pid, 0);
    int copy = (int)syscall(SYS_pidfd_getfd, pidfd, listener, 0);
    if (copy < 0) err(FAILED, "pidfd_getfd");
    close(pidfd);
    return (struct started){pid, copy};
}

/* Waits for all children. Returns the status of the program. */
static int wait_for_all(pid_t first) {
    sigset_t signals;
    siginfo_t info;
    int status = 0, ended;
    sigemptyset(&signals);
    sigaddset(&signals, SIGCHLD);
    sigaddset(&signals, KILL_ALL);
    for (pid_t pid; (pid = waitpid(-1, &ended, WNOHANG)) >= 0;) {
        if (pid == first) status = status_of(ended);
        if (pid == 0 && sigwaitinfo(&signals, &info) == KILL_ALL) kill_children();
    }
    return status;
}

/* Is the guard of this process. Says what it has started on this descriptor. */
static void guard_programs(pid_t parent, char **arguments, int told) {
    sigset_t all, signals;
    sigfillset(&all);
    sigprocmask(SIG_SETMASK, &all, &signals);
    prctl(PR_SET_PDEATHSIG, KILL_ALL);
    prctl(PR_SET_CHILD_SUBREAPER, 1);
    prctl(PR_SET_NAME, "box guard");
    if (getppid() != parent) _exit(FAILED);
    struct started started = start_program(arguments, &signals);
    if (write(told, &started, sizeof started) != sizeof started) _exit(FAILED);
    close(told);
    _exit(wait_for_all(started.program));
}

/* Waits for the guard, or looks whether it is over (WNOHANG). It is when all programs are. Returns
 * the status of the first, or -1. */
int wait_for_guard(int flags) {
    static int status = -1;
    int ended;
    if (status < 0 && waitpid(guard, &ended, flags) == guard) status = status_of(ended);
    return status;
}

/* Starts the guard and the program, which waits for a signal to continue. */
void start_programs(char **arguments) {
    const pid_t own = getpid();
    struct started started;
    int told[2];
    if (pipe2(told, O_CLOEXEC) < 0 || (guard = fork()) < 0) err(FAILED, "the start");
    if (guard == 0) guard_programs(own, arguments, told[1]);
    close(told[1]);
    signal(SIGCHLD, SIG_DFL);
    if (read(told[0], &started, sizeof started) != sizeof started) exit(wait_for_guard(0));
    close(told[0]);
    int pidfd = (int)syscall(SYS_pidfd_open, guard, 0);
    notifications = (int)syscall(SYS_pidfd_getfd, pidfd, started.notifications, 0);
    program = (int)syscall(SYS_pidfd_open, started.program, 0);
    if (notifications < 0 || program < 0) err(FAILED, "the start");
    close(pidfd);
}
