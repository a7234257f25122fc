/* The supervisor's start, its loop, and its end. */
#include "unixbox.h"
#include <err.h>
#include <sys/epoll.h>
#include <sys/wait.h>

enum { TICK = 10, TICK_SLICES = 256, THREADS = 4 }; /* A tick is 10 ms. */

int watches;

static void prepare(void) {
    struct epoll_event event = {.events = EPOLLHUP, .data.ptr = NULL}; /* No program is left. */
    struct rlimit most = {2 * JW_MAX_FILES, 2 * JW_MAX_FILES}, limit; /* A placeholder each. */
    /* A struct sched_attr: slices of 0.1 ms, so that all threads run soon after they are woken. */
    syscall(SYS_sched_setattr, 0, (uint32_t[12]){[0] = 48, [6] = 100000}, 0);
    ioctl(notifications, SECCOMP_IOW(4, __u64), 1UL); /* SECCOMP_USER_NOTIF_FD_SYNC_WAKE_UP */
    getrlimit(RLIMIT_NOFILE, &limit);
    limit.rlim_cur = limit.rlim_max; /* As many as there may be without privileges. */
    if (setrlimit(RLIMIT_NOFILE, &most) < 0) setrlimit(RLIMIT_NOFILE, &limit);
    umask(0); /* A pathname gets the mode that its program asks for. */
    prctl(PR_SET_CHILD_SUBREAPER, 1);
    read_own_namespaces();
    look_for_epoll();
    if (jw_engine_new(&engine) < 0 || jw_tell_released(&engine) < 0 ||
        jw_tell_changed(&engine) < 0 || (watches = epoll_create1(EPOLL_CLOEXEC)) < 0 ||
        epoll_ctl(watches, EPOLL_CTL_ADD, notifications, &event) < 0)
        err(FAILED, "the start");
}

/* Waits for the end of a process, for a signal, or for a tick. Returns false where no program is
 * left. */
static bool watch(const sigset_t *signals) {
    int count = epoll_pwait(watches, &(struct epoll_event){0}, 1, TICK, signals);
    lock_first();
    bool is_program_left = forget_ended();
    look_after_exec();
    pass_signals();
    if (wait_for_guard(WNOHANG) >= 0) kill_children(); /* Programs are left where it was killed. */
    if (count != 1) wake(EVERYONE); /* A signal may have come. */
    for (int i = 0; i < TICK_SLICES && collect(); i++) continue;
    rerun_woken_calls();
    pthread_mutex_unlock(&serving);
    return is_program_left;
}

int main(int argc, char **argv) {
    bool is_root = geteuid() == 0;
    pthread_t threads[THREADS];
    sigset_t signals;
    start_programs(argv + read_options(argc, argv));
    prepare();
    take_signals(&signals);
    if (options.script != NULL) fputs("version 3\n", options.script);
    long pid = record(0, jw_spawn(&engine, geteuid(), JW_MAX_NOFILE, is_root),
                      is_root ? "spawn %u %u priv" : "spawn %u %u", geteuid(), JW_MAX_NOFILE);
    const struct namespaces unknown = {.is_stale = true};
    if (pid < 0 || add_process((uint32_t)pid, 0, guard, unknown) < 0) err(FAILED, "the start");
    for (int i = 0; i < THREADS; i++)
        if (pthread_create(&threads[i], NULL, serve_calls, NULL) != 0) err(FAILED, "a thread");
    syscall(SYS_pidfd_send_signal, program, SIGCONT, NULL, 0);
    while (watch(&signals)) continue;
    for (int i = 0; i < THREADS; i++) pthread_join(threads[i], NULL);
    while (!LIST_EMPTY(&processes)) forget_process(LIST_FIRST(&processes));
    settle(false);
    int status = status_after_signals(wait_for_guard(0));
    return conclude() ? status : FAILED;
}
