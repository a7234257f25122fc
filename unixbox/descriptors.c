/* Descriptors: tables of programs, kept the same in the kernel and in the layer. */
#include "unixbox.h"
#include <linux/close_range.h>
#include <linux/kcmp.h>

enum { MOST_LOOKS = 40, LOOK_MICROSECONDS = 50 };

void close_fd(struct process *process, uint32_t fd) {
    struct file *file = file_of(process, fd);
    long result = record(process->pid, jw_close(&engine, process->pid, fd), "close %u", fd);
    process->fd_count -= result >= 0;
    if (file != NULL) close_spare_placeholder(file);
    is_collection_due = true;
}

static long open_lowest(struct process *process) {
    long result = record(process->pid, jw_open(&engine, process->pid), "open");
    process->fd_count += result >= 0;
    return result;
}

static long duplicate_at(struct process *process, uint32_t from, uint32_t to) {
    bool is_free = file_of(process, to) == NULL;
    int64_t answer = jw_dup2(&engine, process->pid, from, to);
    long result = record(process->pid, answer, "dup2 %u %u", from, to);
    process->fd_count += is_free && result >= 0;
    is_collection_due = true;
    return result;
}

/* Moves what the layer has opened at `fd` to another number. If that is an errno, closes it. */
static void move_fd(struct process *process, uint32_t fd, long to) {
    if (to == fd) return;
    if (to >= 0) duplicate_at(process, fd, (uint32_t)to);
    close_fd(process, fd);
}

/* Whether the kernel has this file at that number too, as far as it is known to unixbox. */
static bool is_there(const struct process *process, uint32_t fd, const struct file *file) {
    char name[16];
    struct stat there, here;
    sprintf(name, "%u", fd);
    return file->host < 0 ||
           (fstatat(dirfd(process->table), name, &there, 0) == 0 && fstat(file->host, &here) == 0 &&
            there.st_dev == here.st_dev && there.st_ino == here.st_ino);
}

/* Notes which file the layer has at each number. */
static void list_layer(const struct process *process, uint64_t *inos) {
    uint64_t ino;
    for (int64_t fd = 0; (fd = jw_next_fd(&engine, process->pid, (uint32_t)fd, &ino)) >= 0; fd++)
        inos[fd] = ino;
}

/* Notes at which numbers the kernel has files. Returns how many there are. */
static size_t list_kernel(const struct process *process, bool *is_open) {
    size_t count = 0;
    rewinddir(process->table);
    for (struct dirent *it; (it = readdir(process->table)) != NULL;) {
        if (it->d_name[0] == '.') continue;
        is_open[atoi(it->d_name) % JW_MAX_NOFILE] = true;
        count++;
    }
    return count;
}

/* Returns how many descriptors the kernel has, or 0 where it does not tell that (before 6.2). */
static size_t count_there(const struct process *process) {
    struct stat table = {.st_size = 0};
    fstat(dirfd(process->table), &table);
    return (size_t)table.st_size;
}

/* Whether the kernel has a file at that number. Returns false, too, where this cannot be told. */
static bool is_open_there(const struct process *process, uint64_t fd) {
    return syscall(SYS_kcmp, process->tgid, process->tgid, KCMP_FILE, fd, fd) == 0;
}

/* Opens the lowest free numbers in the layer: a program that has opened by itself has these, if
 * nothing was closed meanwhile. Returns false where the kernel has no file at one of them. Else the
 * tables are the same: they have as many. */
static bool open_lowest_ones(struct process *process, size_t count) {
    for (; count > 0; count--) {
        long fd = open_lowest(process);
        if (fd < 0) return false;
        if (is_open_there(process, (uint64_t)fd)) continue;
        close_fd(process, (uint32_t)fd);
        return false;
    }
    return true;
}

/* Opens and closes in the layer until it has the numbers that the kernel has, and where a program
 * may be another one, the same files. */
static void sync_numbers(struct process *process, bool has_changed) {
    uint64_t inos[JW_MAX_NOFILE] = {0};
    bool is_open[JW_MAX_NOFILE] = {false};
    if (list_kernel(process, is_open) == 0 && process->fd_count > 0) {
        if (!find_table(process)) return; /* All of it is over. */
        list_kernel(process, is_open);
    }
    list_layer(process, inos);
    for (uint32_t fd = 0; fd < JW_MAX_NOFILE; fd++) {
        bool is_known = inos[fd] != 0;
        bool is_same = is_known && is_open[fd] &&
                       (!has_changed || is_there(process, fd, file_at(inos[fd])));
        if (is_known && !is_same) close_fd(process, fd);
        if (is_same || !is_open[fd]) continue;
        long lowest = open_lowest(process);
        if (lowest >= 0) move_fd(process, (uint32_t)lowest, fd);
    }
}

/* Opens in the layer what the program has opened by itself, and closes what an exec(2) has closed.
 * All else that closes is served, so two tables with as many descriptors are the same. */
void sync_table(struct process *process) {
    bool has_changed = process->has_changed;
    if (is_executing(process)) return;
    int looks = process->closer != 0 ? MOST_LOOKS : 0; /* The kernel may not have closed yet. */
    process->closer = 0;
    size_t count = process->fd_count, size = count_there(process);
    for (; size > count && looks > 0; looks--, size = count_there(process))
        usleep(LOOK_MICROSECONDS);
    if (!has_changed && size == count) return;
    if (!has_changed && size > count && open_lowest_ones(process, size - count)) return;
    if (has_changed) refresh_process(process);
    process->has_changed = false;
    sync_numbers(process, has_changed);
}

/* Returns a file of the table as it is now. Where a close(2) of another thread is not done yet, the
 * tables may have as many descriptors, but not the same. */
struct file *sync_file(struct process *process, uint64_t fd) {
    sync_table(process);
    struct file *file = file_of(process, fd);
    if (file != NULL || !process->has_threads) return file;
    process->has_changed = true;
    sync_table(process);
    return file_of(process, fd);
}

/* Returns the lowest number from here on that is free in the layer. */
static uint32_t lowest_free(const struct process *process, uint64_t from) {
    while (from < JW_MAX_NOFILE && file_of(process, from) != NULL) from++;
    return from < JW_MAX_NOFILE ? (uint32_t)from : JW_MAX_NOFILE;
}

/* Gives a file to the caller: at a number, or where that is negative, at one that the kernel
 * chooses. A plain file that was never sent is copied from the caller's descriptor `from`. Returns
 * the number, or a negative errno. */
static long give(const struct call *call, struct file *file, int from, long to,
                 bool closes_on_exec) {
    if (file == NULL) return -EMFILE; /* It had to leave its place, and found none. */
    if (file->host < 0 && file->kind != JW_PLAIN) reopen_placeholder(file);
    int copy = file->host < 0 ? copy_descriptor(call->process, from) : -1;
    struct seccomp_notif_addfd descriptor = {
        .id = call->id, .srcfd = (uint32_t)(copy >= 0 ? copy : file->host),
        .flags = to >= 0 ? SECCOMP_ADDFD_FLAG_SETFD : 0, .newfd = to >= 0 ? (uint32_t)to : 0,
        .newfd_flags = closes_on_exec ? O_CLOEXEC : 0};
    long number = ioctl(notifications, SECCOMP_IOCTL_NOTIF_ADDFD, &descriptor);
    if (number < 0) number = -errno;
    if (copy >= 0) close(copy);
    return number;
}

/* Puts what the layer has opened at these numbers into the caller's table. The kernel chooses the
 * numbers, and chooses others if another thread opens or closes something beside this. Then the
 * layer follows. Returns how many there are, or a negative errno if there is none. */
long install(struct call *call, uint32_t *fds, size_t count, bool closes_on_exec) {
    struct process *process = call->process;
    long number = 0, installed = 0;
    for (size_t i = 0; i < count; i++) {
        number = give(call, file_of(process, fds[i]), -1, -1, closes_on_exec);
        if (number >= 0 && number != fds[i]) counts.other_numbers += !process->has_threads;
        for (size_t j = i + 1; number != fds[i] && j < count; j++) {
            if (fds[j] != number) continue; /* It leaves the place of this one. */
            fds[j] = lowest_free(process, 0);
            move_fd(process, (uint32_t)number, fds[j]);
        }
        move_fd(process, fds[i], number);
        if (number >= 0) fds[installed++] = (uint32_t)number;
    }
    return installed > 0 ? installed : number;
}

/* A close can only be left to the kernel. */
long serve_close(struct call *call) {
    if (file_of(call->process, call->fd) != NULL) close_fd(call->process, call->fd);
    call->process->closer = call->process->has_threads ? call->tid : 0;
    return KERNEL_DOES_IT;
}

/* close_range(2). What it refuses, and flags of descriptors, are the kernel's. */
long serve_close_range(struct call *call) {
    uint32_t first = (uint32_t)call->args[0], last = (uint32_t)call->args[1];
    unsigned flags = (unsigned)call->args[2];
    uint64_t ino;
    bool is_left = (flags & CLOSE_RANGE_UNSHARE) && call->process->has_threads;
    if (is_left) return -EINVAL; /* Threads share a table for good. */
    if (first > last || (flags & ~(unsigned)CLOSE_RANGE_UNSHARE)) return KERNEL_DOES_IT;
    for (int64_t fd = first; (fd = jw_next_fd(&engine, call->pid, (uint32_t)fd, &ino)) >= 0 &&
                             fd <= last; fd++)
        close_fd(call->process, (uint32_t)fd);
    call->process->closer = call->process->has_threads ? call->tid : 0;
    return KERNEL_DOES_IT;
}

/* setrlimit(2) is prlimit(2) of the caller. */
long serve_old_limit(struct call *call) {
    call->args[2] = call->args[1];
    call->args[1] = call->args[0];
    call->args[0] = 0;
    return serve_limit(call);
}

/* dup(2), dup2(2), dup3(2), and fcntl(2) with F_DUPFD. Left to the kernel, they could be behind
 * another thread's look. All that is refused here, the kernel refuses itself. */
long serve_dup(struct call *call) {
    bool is_fcntl = call->number == SYS_fcntl, is_dup3 = call->number == SYS_dup3;
    bool is_fixed = is_dup3 || call->number == SYS_dup2;
    int command = is_fcntl ? (int)call->args[1] : F_DUPFD;
    bool closes_on_exec = command == F_DUPFD_CLOEXEC || (is_dup3 && (call->args[2] & O_CLOEXEC));
    uint64_t from = is_fcntl ? call->args[2] : 0, to = (uint32_t)call->args[1];
    if (command == F_SETFL && (call->args[2] & O_ASYNC)) tell_edges();
    if (command != F_DUPFD && command != F_DUPFD_CLOEXEC) return KERNEL_DOES_IT;
    struct file *file = sync_file(call->process, call->fd);
    if (file == NULL || (is_fixed && (call->fd == to || to >= JW_MAX_NOFILE)) ||
        (is_dup3 && (call->args[2] & ~(uint64_t)O_CLOEXEC)))
        return KERNEL_DOES_IT;
    for (long number = -EBUSY; number == -EBUSY; from = to + 1) { /* An accept(2) has that one. */
        bool has_choice = !is_fixed && lowest_free(call->process, 0) >= from;
        if (!is_fixed) to = lowest_free(call->process, from);
        if (duplicate_at(call->process, call->fd, (uint32_t)to) < 0) break;
        number = give(call, file, (int)call->fd, has_choice ? -1 : (long)to, closes_on_exec);
        if (number == -EBADF) return KERNEL_DOES_IT; /* What O_PATH opened cannot be given. */
        move_fd(call->process, (uint32_t)to, number);
        if (number != -EBUSY || is_fixed) return number;
    }
    return KERNEL_DOES_IT;
}
