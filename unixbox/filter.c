/* Calls of programs: the filter that hands them over, and their way to an answer. */
#include "unixbox.h"
#include <linux/audit.h>
#include <linux/filter.h>
#include <stdatomic.h>
#include <sys/wait.h>

enum { RESTART = -512, MOST_NUMBERS = 512, MOST_LOOKS = 200, MOST_CALLS = 64 };
#define NEVER UINT64_MAX /* A deadline. */

int notifications = -1;
pthread_mutex_t serving = PTHREAD_MUTEX_INITIALIZER;
static pthread_mutex_t receiving = PTHREAD_MUTEX_INITIALIZER;
static TAILQ_HEAD(, call) waiting = TAILQ_HEAD_INITIALIZER(waiting);
static TAILQ_HEAD(, call) woken = TAILQ_HEAD_INITIALIZER(woken);
static TAILQ_HEAD(, call) done = TAILQ_HEAD_INITIALIZER(done); /* They are to be answered. */
static bool has_one_process;
static atomic_bool is_alone; /* There is one process, with one thread. */
static atomic_int expected; /* How many threads wait for the lock in turn. */
static atomic_ulong served; /* How many calls were served. */

/* A call that was received when so many had been served. */
struct arrival {
    struct seccomp_notif call;
    uint64_t served;
};

/* Refuses what would move bytes or descriptors past the layer. */
static long refuse(struct call *call) {
    (void)call;
    return -ENOSYS;
}

/* Handlers of calls whose first argument is a socket of the layer, and of other calls. */
static handler *const socket_handlers[MOST_NUMBERS] = {
    [SYS_read] = serve_recv, [SYS_readv] = serve_recv, [SYS_recvfrom] = serve_recv,
    [SYS_recvmsg] = serve_recv, [SYS_write] = serve_send, [SYS_writev] = serve_send,
    [SYS_sendto] = serve_send, [SYS_sendmsg] = serve_send, [SYS_bind] = serve_bind,
    [SYS_listen] = serve_listen, [SYS_connect] = serve_connect, [SYS_accept] = serve_accept,
    [SYS_accept4] = serve_accept, [SYS_shutdown] = serve_shutdown, [SYS_getsockname] = serve_name,
    [SYS_getpeername] = serve_name, [SYS_getsockopt] = serve_get_option,
    [SYS_setsockopt] = serve_set_option, [SYS_ioctl] = serve_unread,
    [SYS_sendfile] = serve_sendfile, [SYS_sendmmsg] = serve_batch, [SYS_recvmmsg] = serve_batch,
    [SYS_preadv2] = serve_recv, [SYS_pwritev2] = serve_send,
};
static handler *const handlers[MOST_NUMBERS] = {
    [SYS_socket] = serve_socket, [SYS_socketpair] = serve_socket, [SYS_close] = serve_close,
    [SYS_dup] = serve_dup, [SYS_dup2] = serve_dup, [SYS_dup3] = serve_dup,
    [SYS_fcntl] = serve_dup, [SYS_fork] = serve_fork, [SYS_vfork] = serve_fork,
    [SYS_clone] = serve_fork, [SYS_clone3] = serve_fork, [SYS_execve] = serve_change,
    [SYS_execveat] = serve_change, [SYS_exit_group] = serve_change, [SYS_setuid] = serve_change,
    [SYS_setgid] = serve_change, [SYS_setreuid] = serve_change, [SYS_setregid] = serve_change,
    [SYS_setresuid] = serve_change, [SYS_setresgid] = serve_change, [SYS_prlimit64] = serve_limit,
    [SYS_setgroups] = serve_change, [SYS_setns] = serve_unshare, [SYS_setrlimit] = serve_old_limit,
    [SYS_unshare] = serve_unshare, [SYS_prctl] = serve_prctl, [SYS_splice] = serve_splice,
    [SYS_sendfile] = serve_sendfile_elsewhere, [SYS_close_range] = serve_close_range,
    [SYS_wait4] = serve_wait, [SYS_waitid] = serve_wait, [SYS_io_uring_setup] = refuse,
    [SYS_io_setup] = refuse, [SYS_pidfd_getfd] = refuse, [SYS_epoll_create] = serve_epoll,
    [SYS_epoll_create1] = serve_epoll,
};

/* What an argument of a call has to be, or has bits of, so that the filter hands the call over. Of
 * several conditions for a number, one is enough; but some want the next one, too. The kernel, too,
 * looks at these 32 bits alone. */
static const struct condition {
    uint16_t number, argument, test; /* BPF_JEQ or BPF_JSET */
    uint32_t word;
    bool wants_next;
} conditions[] = {
    {SYS_fcntl, 1, BPF_JEQ, F_DUPFD, false}, {SYS_fcntl, 1, BPF_JEQ, F_DUPFD_CLOEXEC, false},
    {SYS_fcntl, 1, BPF_JEQ, F_SETFL, true}, {SYS_fcntl, 2, BPF_JSET, O_ASYNC, false},
    {SYS_ioctl, 1, BPF_JEQ, FIONREAD, false}, {SYS_ioctl, 1, BPF_JEQ, FIOASYNC, false},
    {SYS_socket, 0, BPF_JEQ, AF_UNIX, false}, {SYS_socketpair, 0, BPF_JEQ, AF_UNIX, false},
    {SYS_getsockopt, 1, BPF_JEQ, SOL_SOCKET, false},
    {SYS_setsockopt, 1, BPF_JEQ, SOL_SOCKET, false},
    {SYS_prctl, 0, BPF_JEQ, PR_SET_DUMPABLE, false},
    {SYS_prlimit64, 1, BPF_JEQ, RLIMIT_NOFILE, false},
    {SYS_setrlimit, 0, BPF_JEQ, RLIMIT_NOFILE, false},
    {SYS_wait4, 2, BPF_JEQ, 0, false}, {SYS_waitid, 3, BPF_JEQ, WEXITED, false},
};
enum { CONDITIONS = sizeof conditions / sizeof *conditions };

/* Adds the code for a call of this number, which the accumulator has. */
static void add_number(struct sock_fprog *to, unsigned number) {
    const struct sock_filter hand_over = BPF_STMT(BPF_RET | BPF_K, SECCOMP_RET_USER_NOTIF);
    unsigned start = to->len++;
    for (const struct condition *it = conditions; it < conditions + CONDITIONS; it++) {
        uint32_t at = offsetof(struct seccomp_data, args) + it->argument * sizeof(uint64_t);
        const struct sock_filter load = BPF_STMT(BPF_LD | BPF_W | BPF_ABS, at);
        const uint8_t skipped = it->wants_next ? 3 : 1;
        const struct sock_filter test = BPF_JUMP(BPF_JMP | it->test | BPF_K, it->word, 0, skipped);
        if (it->number != number) continue;
        to->filter[to->len++] = load;
        to->filter[to->len++] = test;
        if (!it->wants_next) to->filter[to->len++] = hand_over;
    }
    bool has_any = to->len > start + 1;
    const struct sock_filter allow = BPF_STMT(BPF_RET | BPF_K, SECCOMP_RET_ALLOW);
    to->filter[to->len++] = has_any ? allow : hand_over;
    uint8_t length = (uint8_t)(to->len - start - 1);
    to->filter[start] = (struct sock_filter)BPF_JUMP(BPF_JMP | BPF_JEQ | BPF_K, number, 0, length);
}

/* Installs the filter in this process. Returns the descriptor of its notifications. */
int install_filter(void) {
    static struct sock_filter code[2 * MOST_NUMBERS + 4 * CONDITIONS] = {
        BPF_STMT(BPF_LD | BPF_W | BPF_ABS, offsetof(struct seccomp_data, arch)),
        BPF_JUMP(BPF_JMP | BPF_JEQ | BPF_K, AUDIT_ARCH_X86_64, 0, 2),
        BPF_STMT(BPF_LD | BPF_W | BPF_ABS, offsetof(struct seccomp_data, nr)),
        BPF_JUMP(BPF_JMP | BPF_JGE | BPF_K, MOST_NUMBERS, 0, 1), /* A number of another ABI. */
        BPF_STMT(BPF_RET | BPF_K, SECCOMP_RET_ERRNO | ENOSYS)};
    struct sock_fprog all = {5, code};
    for (unsigned number = 0; number < MOST_NUMBERS; number++)
        if (socket_handlers[number] != NULL || handlers[number] != NULL) add_number(&all, number);
    code[all.len++] = (struct sock_filter)BPF_STMT(BPF_RET | BPF_K, SECCOMP_RET_ALLOW);
    if (geteuid() != 0) prctl(PR_SET_NO_NEW_PRIVS, 1, 0, 0, 0);
    return (int)syscall(SYS_seccomp, SECCOMP_SET_MODE_FILTER, SECCOMP_FILTER_FLAG_NEW_LISTENER |
                        SECCOMP_FILTER_FLAG_WAIT_KILLABLE_RECV, &all);
}

bool read_memory(const struct call *call, void *to, uint64_t from, size_t length) {
    struct iovec here = {to, length}, there = {(void *)from, length};
    if (length == 0) return true;
    return process_vm_readv(call->tid, &here, 1, &there, 1, 0) == (ssize_t)length;
}

bool write_memory(const struct call *call, uint64_t to, const void *from, size_t length) {
    struct iovec here = {(void *)from, length}, there = {(void *)to, length};
    if (length == 0) return true;
    return process_vm_writev(call->tid, &here, 1, &there, 1, 0) == (ssize_t)length;
}

/* Whether the caller waits for an answer. While it does, no other thread has its number. */
bool is_pending(const struct call *call) {
    return ioctl(notifications, SECCOMP_IOCTL_NOTIF_ID_VALID, &call->id) == 0;
}

/* Returns the answer to a call that ends so. The caller gets a signal, too, if it is to. */
static long conclude_call(struct call *call, long result) {
    if (call->moved > 0) result = (long)call->moved; /* Whatever ended it. */
    if (call->raises_sigpipe && result == -EPIPE)
        syscall(SYS_tgkill, call->process->tgid, call->tid, SIGPIPE);
    return socket_handlers[call->number] == serve_batch ? answer_of_batch(call, result) : result;
}

static void answer(struct call *call) {
    bool is_received = call->moved > 0 && socket_handlers[call->number] == serve_recv;
    long result = call->result;
    struct seccomp_notif_resp response = {.id = call->id, .val = result >= 0 ? result : 0};
    response.flags = result == KERNEL_DOES_IT ? SECCOMP_USER_NOTIF_FLAG_CONTINUE : 0;
    response.error = result < 0 && result != KERNEL_DOES_IT ? (int)result : 0;
    if (ioctl(notifications, SECCOMP_IOCTL_NOTIF_SEND, &response) < 0) counts.lost += is_received;
    free(call);
}

/* Answers all calls that are done. Before their callers go on, placeholders are ready for what the
 * calls left: not for a message that one of them sent and another has received. */
static void answer_done(void) {
    refresh_touched();
    for (struct call *call; (call = TAILQ_FIRST(&done)) != NULL;) {
        TAILQ_REMOVE(&done, call, entries);
        answer(call);
    }
}

/* Says at the first call of a process that the layer does not know that such calls fail. */
static void report_unknown(pid_t tid) {
    if (counts.unknown++ == 0)
        fprintf(stderr, "unixbox: process %d is not known: its calls fail with EPERM\n", tid);
}

/* Serves a call by the handler of its number, if there is one. */
static long serve_by_number(struct call *call) {
    call->file = file_of(call->process, call->fd);
    if (call->file != NULL && call->file->kind == JW_PLAIN) call->file = NULL;
    handler *serve = call->file != NULL ? socket_handlers[call->number] : NULL;
    bool is_sure = call->is_sure;
    if (serve == NULL) serve = handlers[call->number];
    call->is_sure = false;
    return serve != NULL && (is_sure || is_pending(call)) ? serve(call) : KERNEL_DOES_IT;
}

/* Serves a call of a process that is known and not over. */
static long serve_call(struct call *call) {
    struct process *process = call->process;
    if (process == NULL && is_pending(call)) report_unknown(call->tid);
    if (process == NULL) return -EPERM;
    if (process->is_over) return KERNEL_DOES_IT;
    if (process->closer == call->tid) process->closer = 0; /* It has closed. */
    if (process->executor == call->tid) process->executor = 0; /* Its exec(2) is over. */
    if (process->has_changed) sync_table(process);
    return serve_by_number(call);
}

/* Lets a call wait, or be answered soon. */
static void finish(struct call *call, long result) {
    settle(false);
    if (result == CALL_WAITS) {
        TAILQ_INSERT_TAIL(&waiting, call, entries);
    } else {
        call->result = conclude_call(call, result);
        TAILQ_INSERT_TAIL(&done, call, entries);
    }
}

/* Returns what ends a waiting call where a signal has come, or CALL_WAITS. The kernel makes EINTR of
 * a restart for the thread that gets the signal, and for no other. */
static long interruption_of(const struct call *call) {
    enum signal_state signal = signal_for(call->tid, call->process->tgid);
    if (signal == NO_SIGNAL) return CALL_WAITS;
    return signal == HAS_SIGNAL && call->deadline == NEVER ? RESTART : -EINTR;
}

/* Serves woken calls once more, unless their callers are over, whose processes may be forgotten. If
 * one has to wait on and a signal has come, it ends. */
void rerun_woken_calls(void) {
    for (struct call *call; (call = TAILQ_FIRST(&woken)) != NULL;) {
        TAILQ_REMOVE(&woken, call, entries);
        call->is_sure = is_pending(call);
        long result = call->is_sure ? serve_call(call) : KERNEL_DOES_IT;
        long interruption = result == CALL_WAITS ? interruption_of(call) : CALL_WAITS;
        if (interruption != CALL_WAITS) result = serve_call(call); /* What came goes first. */
        if (result == CALL_WAITS) result = interruption;
        finish(call, result);
    }
    answer_done();
}

/* Whether a call moves bytes, if its first argument is a socket of the layer. */
static bool moves_bytes(int number) {
    handler *serve = socket_handlers[number];
    return serve == serve_send || serve == serve_recv;
}

/* Serves a call that was received. One that moves bytes first reads or writes its caller's memory,
 * which fails where that is over. Whether it is there is asked if others were served meanwhile, and
 * for other calls where another thread may have ended it by an exec(2). */
static void serve_arrival(const struct arrival *arrival) {
    const struct seccomp_notif *notif = &arrival->call;
    if (!has_one_process) forget_ended(); /* A caller may have waited for a child that was killed. */
    struct call call = {.id = notif->id, .number = notif->data.nr, .tid = (pid_t)notif->pid,
                        .fd = (uint32_t)notif->data.args[0]};
    call.process = process_of(call.tid);
    call.is_sure = arrival->served == served && (is_alone || moves_bytes(call.number));
    served++;
    memcpy(call.args, notif->data.args, sizeof call.args);
    if (call.process != NULL) call.pid = call.process->pid;
    counts.calls++;
    struct call *kept = copy_of(&call, sizeof call);
    finish(kept, serve_call(kept));
    rerun_woken_calls();
    collect();
    rerun_woken_calls();
    const struct process *first = LIST_FIRST(&processes);
    has_one_process = first != NULL && LIST_NEXT(first, entries) == NULL;
    is_alone = has_one_process && !first->has_threads;
}

/* Whether a call is served sooner than another thread would be there to receive the next one. */
static bool is_quick(int number) {
    handler *serve = socket_handlers[number];
    bool is_short = serve == serve_unread || serve == serve_name || serve == serve_get_option;
    bool is_checked = options.verifies || options.checks || options.collector == COLLECT_PASSES;
    is_short = is_short || moves_bytes(number) || number == SYS_close;
    return is_alone || (is_short && !is_checked);
}

/* Takes the lock. Who tries to have it soon gives way: one thread could have it again and again. */
void lock_first(void) {
    expected++;
    pthread_mutex_lock(&serving);
    expected--;
}

/* Takes the lock, if it is free in some microseconds, as after a quick call. */
static bool lock_soon(void) {
    int looks = 0;
    while (expected > 0 || pthread_mutex_trylock(&serving) != 0)
        if (++looks == MOST_LOOKS) return false;
    return true;
}

static bool receive_call(struct arrival *out) {
    out->call = (struct seccomp_notif){0};
    bool has_call = ioctl(notifications, SECCOMP_IOCTL_NOTIF_RECV, &out->call) == 0;
    out->served = served;
    return has_call;
}

static bool is_call_there(void) {
    struct pollfd ask = {notifications, POLLIN, 0};
    return poll(&ask, 1, 0) == 1 && ask.revents == POLLIN;
}

/* Serves a call, and those that come meanwhile: before each is served, all that are there are
 * received. Where one is not quick, another thread receives from then on. Returns whether this one
 * still does. */
static bool serve_in_turn(const struct arrival *first) {
    struct arrival calls[MOST_CALLS]; /* The others are written when they are received. */
    bool is_receiver = true;
    calls[0] = *first;
    for (size_t next = 0, count = 1; next < count; next++) {
        if (is_receiver && !is_quick(calls[next].call.data.nr)) {
            is_receiver = false;
            pthread_mutex_unlock(&receiving);
        }
        while (is_receiver && !is_alone && expected == 0 && count < MOST_CALLS &&
               is_call_there() && receive_call(&calls[count]))
            count++;
        serve_arrival(&calls[next]);
    }
    return is_receiver;
}

/* Receives calls and serves them, in each of several threads. Until a call is received, any signal
 * ends it, and a close(2) answers EINTR: so one receives while others serve or wait to. It serves
 * quick calls itself, which spares a change of threads. */
void *serve_calls(void *none) {
    struct pollfd ask = {notifications, POLLIN, 0};
    bool is_receiver = false;
    while (!(ask.revents & (POLLHUP | POLLERR))) {
        struct arrival arrival;
        if (!is_receiver) pthread_mutex_lock(&receiving);
        bool has_call = receive_call(&arrival);
        if (!has_call) poll(&ask, 1, 0); /* Whether a program is left. */
        is_receiver = has_call && is_quick(arrival.call.data.nr) && lock_soon();
        if (!is_receiver) pthread_mutex_unlock(&receiving);
        if (!has_call) continue;
        if (is_receiver) {
            is_receiver = serve_in_turn(&arrival);
        } else {
            lock_first();
            serve_arrival(&arrival);
        }
        pthread_mutex_unlock(&serving);
    }
    return none;
}

uint64_t now(void) {
    struct timespec time;
    clock_gettime(CLOCK_MONOTONIC, &time);
    return (uint64_t)time.tv_sec * 1000 + (uint64_t)time.tv_nsec / 1000000;
}

/* Returns when a call gives up that begins to wait now. */
static uint64_t deadline_of(const struct call *call, int host) {
    handler *serve = socket_handlers[call->number];
    int option = serve == serve_recv || serve == serve_accept ? SO_RCVTIMEO : SO_SNDTIMEO;
    struct timeval limit = {0, 0};
    if (call->file == NULL || !call->file->may_give_up) return NEVER;
    getsockopt(host, SOL_SOCKET, option, &limit, &(socklen_t){sizeof limit});
    uint64_t wait = (uint64_t)limit.tv_sec * 1000 + (uint64_t)limit.tv_usec / 1000;
    return wait > 0 ? now() + wait + 1 : NEVER;
}

/* Lets a call wait until this socket changes. Returns EAGAIN where it may not, or no longer. */
long wait_for(struct call *call, int flags, uint64_t ino) {
    int host = call->file != NULL ? call->file->host : -1;
    bool may_wait = !(flags & MSG_DONTWAIT) && (host < 0 || !(fcntl(host, F_GETFL) & O_NONBLOCK));
    if (!may_wait) return -EAGAIN;
    if (call->deadline == 0) call->deadline = deadline_of(call, host);
    call->waits_for = ino;
    return call->deadline == NEVER || now() < call->deadline ? CALL_WAITS : -EAGAIN;
}

/* Wakes the calls that wait for a socket, or all. */
void wake(uint64_t ino) {
    for (struct call *it = TAILQ_FIRST(&waiting), *next; it != NULL; it = next) {
        next = TAILQ_NEXT(it, entries);
        if (ino != EVERYONE && it->waits_for != ino && it->waits_for != EVERYONE) continue;
        TAILQ_REMOVE(&waiting, it, entries);
        TAILQ_INSERT_TAIL(&woken, it, entries);
    }
}

/* Wakes the calls that wait for either end of a connection. */
void wake_ends(const struct file *file) {
    if (TAILQ_EMPTY(&waiting)) return;
    const struct file *peer = peer_of(file);
    wake(file->ino);
    if (peer != NULL) wake(peer->ino);
}
