/* Processes of the host, each bound to one of the layer. */
#include "unixbox.h"
#include <linux/sched.h>
#include <sys/epoll.h>

enum { MOST_TEXT = 1 << 20, MOST_LOOKS = 100 }; /* A status with 65,536 groups is shorter. */
enum { NEW_NAMESPACES = CLONE_NEWUSER | CLONE_NEWNET | CLONE_NEWPID };
enum { THREAD_PIDFD = O_EXCL, SLOTS = 4096 }; /* PIDFD_THREAD of Linux 6.9; a table's size. */

struct process_list processes = LIST_HEAD_INITIALIZER(processes);
static struct process *found[SLOTS]; /* By number modulo SLOTS: those that were looked up last. */

/* Reads a file on a thread as a string, which is empty where there is none. The next call of this
 * writes over it. */
const char *read_all(pid_t tid, const char *name) {
    static char text[MOST_TEXT];
    char path[64];
    snprintf(path, sizeof path, "/proc/%d/task/%d/%s", tid, tid, name);
    int file = open(path, O_RDONLY | O_CLOEXEC);
    size_t length = 0;
    for (ssize_t part; (part = read(file, text + length, sizeof text - 1 - length)) > 0;)
        length += (size_t)part;
    text[length] = '\0';
    close(file);
    return text;
}

/* Returns what stands behind this name at the begin of a line. */
static const char *field(const char *text, const char *name) {
    size_t length = strlen(name);
    for (const char *at = text; (at = strchr(at, '\n')) != NULL;)
        if (strncmp(++at, name, length) == 0 && at[length] == ':') return at + length + 1;
    return "";
}

/* Reads the numbers behind a name in /proc/PID/status. Returns how many there are. */
size_t read_numbers(const char *text, const char *name, uint32_t *out, size_t most) {
    const char *at = field(text, name);
    size_t count = 0;
    for (char *end; count < most && *at != '\n'; at = end, count++) {
        out[count] = (uint32_t)strtoul(at, &end, 10);
        if (end == at) break;
    }
    return count;
}

static uint64_t read_mask(const char *text, const char *name) {
    return strtoul(field(text, name), NULL, 16);
}

/* Returns the effective capabilities in /proc/PID/status. */
uint64_t read_capabilities(const char *text) {
    return read_mask(text, "CapEff");
}

static uint64_t mask_of(int number) {
    return (uint64_t)1 << (number - 1);
}

/* Returns the signals that do nothing to a process of this status. By default, some do not. */
static uint64_t ignored(const char *status) {
    uint64_t quiet = mask_of(SIGCHLD) | mask_of(SIGCONT) | mask_of(SIGURG) | mask_of(SIGWINCH);
    return read_mask(status, "SigIgn") | (quiet & ~read_mask(status, "SigCgt"));
}

static bool is_over(const char *status) {
    return status[0] == '\0' || field(status, "State")[1] == 'Z';
}

/* Whether a thread beside this one takes one of these signals. */
static bool is_taken_elsewhere(uint64_t signals, pid_t tid, pid_t tgid) {
    char path[64];
    bool is_taken = false;
    snprintf(path, sizeof path, "/proc/%d/task", tgid);
    DIR *threads = opendir(path);
    if (threads == NULL) return false;
    for (struct dirent *it; !is_taken && (it = readdir(threads)) != NULL;) {
        if (it->d_name[0] == '.' || atoi(it->d_name) == tid) continue;
        const char *status = read_all(atoi(it->d_name), "status");
        is_taken = !is_over(status) && (signals & ~read_mask(status, "SigBlk")) != 0;
    }
    closedir(threads);
    return is_taken;
}

/* Returns whether a signal waits for a thread, or the thread is over. A signal to a process goes to
 * the first thread, or where that blocks it or is over, to one of the others: the kernel does not
 * tell to which. */
enum signal_state signal_for(pid_t tid, pid_t tgid) {
    const char *status = read_all(tid, "status");
    uint64_t taken = read_mask(status, "SigBlk") | ignored(status);
    uint64_t own = read_mask(status, "SigPnd") & ~taken;
    uint64_t shared = read_mask(status, "ShdPnd") & ~taken;
    if (is_over(status) || own != 0) return HAS_SIGNAL;
    if (tid == tgid || shared == 0) return shared != 0 ? HAS_SIGNAL : NO_SIGNAL;
    const char *first = read_all(tgid, "status");
    if (!is_over(first)) shared &= read_mask(first, "SigBlk");
    if (shared == 0) return NO_SIGNAL;
    return is_taken_elsewhere(shared, tid, tgid) ? MAY_HAVE_SIGNAL : HAS_SIGNAL;
}

/* Reads what a thread and its process are. Returns false where it is over. */
bool read_status(pid_t tid, struct status *out) {
    const char *text = read_all(tid, "status");
    const char state = field(text, "State")[0] == '\t' ? field(text, "State")[1] : 'X';
    uint32_t tgid = 0, users[2] = {0}, groups[2] = {0}; /* Real and effective. */
    if (state == 'Z' || state == 'X' || read_numbers(text, "Tgid", &tgid, 1) == 0) return false;
    out->name[0] = '\0'; /* A name may be empty. */
    sscanf(text, "Name:\t%15[^\n]", out->name);
    out->umask = (mode_t)strtoul(field(text, "Umask"), NULL, 8);
    read_numbers(text, "Uid", users, 2);
    read_numbers(text, "Gid", groups, 2);
    out->real = (struct ucred){(pid_t)tgid, users[0], groups[0]};
    out->user = (struct ucred){(pid_t)tgid, users[1], groups[1]};
    return true;
}

/* Reads once more what a process is. */
void refresh_process(struct process *process) {
    read_status(process->tgid, &process->status);
    read_namespaces(process);
    forget_credentials(process);
}

/* Returns the process of this number, or NULL. */
struct process *process_by(pid_t tgid) {
    struct process **place = &found[(uint32_t)tgid % SLOTS], *it = *place;
    if (tgid == 0) return NULL;
    if (it != NULL && it->tgid == tgid) return it;
    LIST_FOREACH(it, &processes, entries)
        if (it->tgid == tgid) return *place = it;
    return NULL;
}

/* Binds it to a process of the host. Where that is over, it exits. */
void bind_process(struct process *process, pid_t tgid) {
    struct epoll_event event = {.events = EPOLLIN, .data.ptr = process};
    char path[64];
    snprintf(path, sizeof path, "/proc/%d/fd", tgid);
    close(process->pidfd);
    close(process->spare);
    process->spare = -1;
    process->tgid = tgid;
    read_namespaces(process);
    process->table = opendir(path);
    process->pidfd = (int)syscall(SYS_pidfd_open, tgid, 0);
    if (process->table == NULL || epoll_ctl(watches, EPOLL_CTL_ADD, process->pidfd, &event) < 0)
        forget_process(process);
    else
        note_pids(process);
}

/* Opens the table by the first thread that shows it: one that is over shows none. Returns false
 * where all are over. */
bool find_table(struct process *process) {
    char path[64];
    uint32_t size = 0; /* Of the thread's table. */
    snprintf(path, sizeof path, "/proc/%d/task", process->tgid);
    DIR *threads = opendir(path), *table = NULL;
    if (threads == NULL) return false;
    for (struct dirent *it; table == NULL && (it = readdir(threads)) != NULL;) {
        pid_t tid = atoi(it->d_name);
        if (read_numbers(read_all(tid, "status"), "FDSize", &size, 1) == 0 || size == 0) continue;
        snprintf(path, sizeof path, "/proc/%d/task/%d/fd", process->tgid, tid);
        if ((table = opendir(path)) == NULL) continue;
        close(process->thread);
        process->thread = (int)syscall(SYS_pidfd_open, tid, THREAD_PIDFD);
        closedir(process->table);
        process->table = table;
    }
    closedir(threads);
    return table != NULL;
}

/* Opens a descriptor of a process in unixbox. */
int copy_descriptor(const struct process *process, int fd) {
    int owner = process->thread >= 0 ? process->thread : process->pidfd;
    return (int)syscall(SYS_pidfd_getfd, owner, fd, 0);
}

static void exit_process(struct process *process) {
    if (!process->is_over) record(process->pid, jw_exit(&engine, process->pid), "exit");
    process->is_over = is_collection_due = true;
}

void forget_process(struct process *process) {
    exit_process(process);
    LIST_REMOVE(process, entries);
    struct process **place = &found[(uint32_t)process->tgid % SLOTS];
    if (*place == process) *place = NULL;
    wake(EVERYONE); /* Its calls end. */
    close(process->pidfd);
    if (process->spare >= 0) close(process->spare);
    if (process->thread >= 0) close(process->thread);
    forget_credentials(process);
    if (process->table != NULL) closedir(process->table);
    free(process);
}

/* Forgets processes that are over. Returns false where no program is left. */
bool forget_ended(void) {
    struct epoll_event event;
    while (epoll_wait(watches, &event, 1, 0) == 1) {
        if (event.data.ptr == NULL) return false;
        forget_process(event.data.ptr);
        settle(false);
    }
    return true;
}

static bool is_thread_of(pid_t tid, pid_t tgid) {
    return tgid != 0 && (syscall(SYS_tgkill, tgid, tid, 0) == 0 || errno == EPERM);
}

/* Returns the process of a thread, or NULL where it is over. As a rule, it is the one that the last
 * thread of this number was in. */
struct process *process_of(pid_t tid) {
    static pid_t last[SLOTS];
    pid_t *tgid = &last[tid % SLOTS];
    struct status status;
    bind_children(tid);
    struct process *process = process_by(tid);
    if (process != NULL) return process;
    if (!is_thread_of(tid, *tgid)) *tgid = read_status(tid, &status) ? status.user.pid : 0;
    return process_by(*tgid);
}

/* The layer forks at once; the host's number is bound when the child is there. */
long serve_fork(struct call *call) {
    uint64_t flags = call->number == SYS_clone ? call->args[0] : 0;
    if (call->number == SYS_clone3) read_memory(call, &flags, call->args[0], sizeof flags);
    struct namespaces namespaces = call->process->namespaces;
    namespaces.is_stale = namespaces.is_left || (flags & NEW_NAMESPACES) != 0;
    flags &= CLONE_THREAD | CLONE_FILES | CLONE_PARENT;
    bool is_thread = flags == (CLONE_THREAD | CLONE_FILES); /* No others may share a table. */
    call->process->has_threads |= is_thread;
    if (flags != 0) return is_thread ? KERNEL_DOES_IT : -EINVAL;
    sync_table(call->process);
    long pid = record(call->pid, jw_fork(&engine, call->pid), "fork");
    if (pid < 0) return pid;
    size_t fd_count = call->process->fd_count;
    long result = add_process((uint32_t)pid, fd_count, call->tid, namespaces);
    return result < 0 ? result : KERNEL_DOES_IT;
}

/* unshare(2) and setns(2): threads share their table for good, and namespaces change. */
long serve_unshare(struct call *call) {
    struct process *process = call->process;
    uint64_t flags = call->number == SYS_unshare ? call->args[0] : NEW_NAMESPACES;
    if ((flags & CLONE_FILES) && process->has_threads) return -EINVAL;
    if (!(flags & NEW_NAMESPACES)) return KERNEL_DOES_IT;
    process->has_changed = process->namespaces.is_stale = process->namespaces.is_left = true;
    return KERNEL_DOES_IT;
}

/* Without privileges, nothing of a program that is not dumpable can be read: it stays dumpable. */
long serve_prctl(struct call *call) {
    bool is_hiding = (int)call->args[0] == PR_SET_DUMPABLE && call->args[1] == 0;
    return is_hiding && geteuid() != 0 ? 0 : KERNEL_DOES_IT;
}

/* Looks what exec(2) has closed where the new program has made no call yet: it may make none. */
void look_after_exec(void) {
    struct process *it;
    LIST_FOREACH(it, &processes, entries) {
        if (it->looks == 0 || it->is_over) continue;
        it->looks = it->has_changed ? it->looks - 1 : 0;
        if (!it->has_changed) continue;
        sync_table(it);
        settle(false);
        it->has_changed = true;
    }
}

/* Whether a thread is at an exec(2) that ends others. Meanwhile the table may look empty. */
bool is_executing(struct process *process) {
    char path[64];
    if (process->executor == 0) return false;
    snprintf(path, sizeof path, "/proc/%d/task/%d", process->tgid, process->executor);
    if (access(path, F_OK) < 0) process->executor = 0; /* It is the first thread now. */
    return process->executor != 0;
}

/* exec(2), setuid(2) and the like, and exit_group(2), after which other threads may still call. */
long serve_change(struct call *call) {
    bool is_exec = call->number == SYS_execve || call->number == SYS_execveat;
    bool has_threads = call->process->has_threads;
    call->process->has_changed = true;
    call->process->looks = is_exec && !has_threads ? MOST_LOOKS : 0;
    call->process->executor = is_exec && has_threads ? call->tid : 0;
    if (call->number == SYS_exit_group) exit_process(call->process);
    return KERNEL_DOES_IT;
}

/* prlimit(2) of RLIMIT_NOFILE, which is also what setrlimit(3) calls. */
long serve_limit(struct call *call) {
    struct process *process = call->args[0] ? process_by((pid_t)call->args[0]) : call->process;
    struct rlimit limit = {0, 0}, old = {0, 0};
    bool is_set = read_memory(call, &limit, call->args[2], sizeof limit);
    bool is_of_fds = (unsigned)call->args[1] == RLIMIT_NOFILE;
    if (!is_of_fds || process == NULL || !is_set) return KERNEL_DOES_IT;
    if (limit.rlim_cur > JW_MAX_NOFILE) return -EPERM;
    prlimit(process->tgid, RLIMIT_NOFILE, NULL, &old);
    bool is_raised = limit.rlim_max > old.rlim_max && geteuid() != 0;
    if (limit.rlim_cur > limit.rlim_max || is_raised) return KERNEL_DOES_IT; /* It refuses. */
    sync_table(process); /* The layer opens nothing above a lower limit. */
    int64_t answer = jw_limit(&engine, process->pid, (uint32_t)limit.rlim_cur);
    long result = record(process->pid, answer, "limit %lu", limit.rlim_cur);
    return result < 0 ? result : KERNEL_DOES_IT;
}
