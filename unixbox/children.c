/* Children: which process of the host is which of the layer's. The layer forks when the call comes,
 * before the host does. The child is then found among those of the thread that forked it. Where
 * that thread is over, the kernel has given its children to another thread, or to a subreaper. */
#include "unixbox.h"

static LIST_HEAD(, process) unbound = LIST_HEAD_INITIALIZER(unbound);

/* Forgets a process that has no child of the host: its fork(2) has failed, or it is over. */
static void drop_process(struct process *process) {
    LIST_REMOVE(process, unbound_entries);
    forget_process(process);
}

/* Adds a process of the layer, which this thread is to fork. It keeps the descriptors back that its
 * binding takes. Returns 0, or EAGAIN where too few are left. */
long add_process(uint32_t pid, size_t fd_count, pid_t forker, struct namespaces namespaces) {
    struct process value = {.pid = pid, .fd_count = fd_count, .forker = forker, .thread = -1,
                            .namespaces = namespaces, .has_changed = true};
    value.pidfd = keep_back(fcntl(watches, F_DUPFD_CLOEXEC, 0), KEPT_FOR_CALLS);
    value.spare = keep_back(fcntl(watches, F_DUPFD_CLOEXEC, 0), KEPT_FOR_CALLS);
    struct process *process = copy_of(&value, sizeof value);
    LIST_INSERT_HEAD(&processes, process, entries);
    LIST_INSERT_HEAD(&unbound, process, unbound_entries);
    if (process->pidfd >= 0 && process->spare >= 0) return 0;
    drop_process(process);
    return -EAGAIN;
}

/* Returns how many sockets of the layer's process this one of the host has at the same numbers, or
 * -1 where one is missing. */
static int count_shared(const struct process *process, pid_t pid) {
    char path[64];
    struct stat there, here;
    uint64_t ino;
    int count = 0;
    for (int64_t fd = 0; (fd = jw_next_fd(&engine, process->pid, (uint32_t)fd, &ino)) >= 0; fd++) {
        const struct file *file = file_at(ino);
        if (file->host < 0 || file->kind == JW_PLAIN) continue;
        snprintf(path, sizeof path, "/proc/%d/fd/%ld", pid, fd);
        if (stat(path, &there) < 0 || fstat(file->host, &here) < 0 || there.st_ino != here.st_ino)
            return -1;
        count++;
    }
    return count;
}

static bool is_single(const struct process *process) {
    return process == LIST_FIRST(&unbound) && LIST_NEXT(process, unbound_entries) == NULL;
}

/* Returns the process that a child of this thread is bound to, or NULL: one that the thread forked,
 * or whose forking thread is over. Of several, it is the one that shares most sockets. */
static struct process *process_for(pid_t child, pid_t tid) {
    struct process *it, *best = NULL;
    int most = INT_MIN;
    LIST_FOREACH(it, &unbound, unbound_entries) {
        if (it->forker != tid && !it->is_orphan) continue;
        int count = is_single(it) ? 0 : count_shared(it, child);
        if (count <= most) continue;
        most = count;
        best = it;
    }
    return best;
}

/* Binds the children of a thread, the last first. */
static void bind_children_of(pid_t tid) {
    static char text[1 << 16];
    struct status status;
    snprintf(text, sizeof text, "%s", read_all(tid, "children"));
    for (char *end; (end = strrchr(text, ' ')) != NULL;) { /* Each number has one behind it. */
        *end = '\0';
        const char *last = strrchr(text, ' ');
        pid_t pid = atoi(last != NULL ? last : text);
        if (process_by(pid) != NULL || !read_status(pid, &status)) continue;
        struct process *process = process_for(pid, tid);
        if (process == NULL) return;
        LIST_REMOVE(process, unbound_entries);
        bind_process(process, pid);
    }
}

static void bind_children_of_threads(pid_t tgid) {
    char path[64];
    snprintf(path, sizeof path, "/proc/%d/task", tgid);
    DIR *threads = opendir(path);
    if (threads == NULL) return;
    for (struct dirent *it; (it = readdir(threads)) != NULL;)
        if (it->d_name[0] != '.') bind_children_of(atoi(it->d_name));
    closedir(threads);
}

/* Looks for children at every process, which may have adopted them. */
static void bind_adopted(void) {
    static pid_t tgids[JW_MAX_PROCESSES];
    const struct process *it;
    size_t count = 0;
    LIST_FOREACH(it, &processes, entries)
        if (it->tgid != 0) tgids[count++] = it->tgid;
    bind_children_of_threads(guard);
    while (count > 0) bind_children_of_threads(tgids[--count]);
}

/* Binds the children that are there. What the caller itself has forked is there, or has failed. */
void bind_children(pid_t caller) {
    static pid_t forkers[JW_MAX_PROCESSES];
    struct process *it, *next;
    struct status status;
    size_t count = 0;
    bool has_orphans = false;
    it = LIST_FIRST(&unbound);
    if (it != NULL && is_single(it)) bind_children_of(it->forker); /* As a rule, that is all. */
    LIST_FOREACH(it, &unbound, unbound_entries) {
        it->is_orphan = it->forker != caller && !read_status(it->forker, &status);
        has_orphans = has_orphans || it->is_orphan;
        forkers[count++] = it->forker;
    }
    while (count > 0) bind_children_of(forkers[--count]);
    if (has_orphans) bind_adopted();
    for (it = LIST_FIRST(&unbound); it != NULL; it = next) {
        next = LIST_NEXT(it, unbound_entries);
        if (it->forker == caller || it->is_orphan) drop_process(it);
    }
}
