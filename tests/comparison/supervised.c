/* Nanoseconds of a call that a supervisor answers at once (seccomp_unotify(2)), the least of many
 * turns. No call under unixbox can cost less.
 *
 *                                                  Linux 6.18.44
 *     the wake-up stays on a processor (since 6.6) 1,620 to 1,670
 *     it does not                                  1,620
 */
#include "sockets.h"
#include <linux/filter.h>
#include <linux/seccomp.h>
#include <signal.h>
#include <sys/ioctl.h>
#include <sys/prctl.h>
#include <sys/syscall.h>

enum { TURNS = 400, ROUNDS = 100, SYNC_WAKE_UP = 1 };

/* Hands getppid(2) over. Returns the descriptor of the notifications. */
static int install_filter(void) {
    struct sock_filter code[] = {
        BPF_STMT(BPF_LD | BPF_W | BPF_ABS, offsetof(struct seccomp_data, nr)),
        BPF_JUMP(BPF_JMP | BPF_JEQ | BPF_K, SYS_getppid, 0, 1),
        BPF_STMT(BPF_RET | BPF_K, SECCOMP_RET_USER_NOTIF),
        BPF_STMT(BPF_RET | BPF_K, SECCOMP_RET_ALLOW)};
    struct sock_fprog filter = {4, code};
    MUST(prctl(PR_SET_NO_NEW_PRIVS, 1, 0, 0, 0) == 0);
    return (int)syscall(SYS_seccomp, SECCOMP_SET_MODE_FILTER,
                        SECCOMP_FILTER_FLAG_NEW_LISTENER, &filter);
}

/* Makes calls in a process of its own, and prints what one takes. */
static void call_supervisor(const char *how) {
    double least = 1e18;
    MUST(install_filter() >= 0 && raise(SIGSTOP) == 0);
    for (int turn = 0; turn < TURNS; turn++) {
        double start = now();
        for (int i = 0; i < ROUNDS; i++)
            MUST(syscall(SYS_getppid) == 1);
        double took = (now() - start) / ROUNDS;
        least = took < least ? took : least;
    }
    printf("%s: %.0f ns\n", how, least);
    exit(0);
}

/* Answers all calls of a process. */
static void supervise(pid_t child, int listener, bool is_sync) {
    struct seccomp_notif call = {0};
    int pidfd = (int)syscall(SYS_pidfd_open, child, 0), status;
    int notifications = (int)syscall(SYS_pidfd_getfd, pidfd, listener, 0);
    MUST(notifications >= 0);
    if (is_sync) ioctl(notifications, SECCOMP_IOW(4, __u64), SYNC_WAKE_UP);
    kill(child, SIGCONT);
    while (ioctl(notifications, SECCOMP_IOCTL_NOTIF_RECV, &call) == 0) {
        struct seccomp_notif_resp answer = {.id = call.id, .val = 1};
        ioctl(notifications, SECCOMP_IOCTL_NOTIF_SEND, &answer);
        memset(&call, 0, sizeof call);
    }
    close(notifications);
    close(pidfd);
    MUST(waitpid(child, &status, 0) == child && status == 0);
}

int main(void) {
    for (int is_sync = 1; is_sync >= 0; is_sync--) {
        int listener = fcntl(0, F_DUPFD, 0); /* The lowest free number is the listener's. */
        MUST(listener >= 0 && close(listener) == 0);
        pid_t child = fork();
        if (child == 0)
            call_supervisor(is_sync ? "the wake-up stays on a processor" : "it does not");
        MUST(waitpid(child, NULL, WUNTRACED) == child);
        supervise(child, listener, is_sync);
    }
    return 0;
}
