/* Rights: unixbox acts on files for a program as the program may, not as it may itself
 * (credentials(7), capabilities(7)). Each of its threads has rights of its own, by system calls
 * that the C library would do for all threads. */
#include "unixbox.h"
#include <linux/capability.h>
#include <sched.h>
#include <sys/fsuid.h>
#include <sys/mman.h>
#include <sys/wait.h>

static struct rights {
    uint32_t user, group; /* Those for the file system. */
    uint64_t capabilities;
    size_t count;
    gid_t groups[NGROUPS_MAX];
} own, lent; /* Of unixbox, and of the caller whom it acts for. */
static bool is_inside; /* This process has entered the caller's user namespace. */

static void read_rights(pid_t tid, struct rights *out) {
    const char *text = read_all(tid, "status");
    uint32_t ids[4] = {0}; /* Real, effective, saved, and for the file system. */
    out->capabilities = read_capabilities(text);
    out->count = read_numbers(text, "Groups", out->groups, NGROUPS_MAX);
    read_numbers(text, "Uid", ids, 4);
    out->user = ids[3];
    read_numbers(text, "Gid", ids, 4);
    out->group = ids[3];
}

static bool is_same(const struct rights *one, const struct rights *other) {
    return one->user == other->user && one->group == other->group &&
           one->capabilities == other->capabilities && one->count == other->count &&
           memcmp(one->groups, other->groups, one->count * sizeof *one->groups) == 0;
}

static void set_capabilities(uint64_t effective) {
    struct __user_cap_header_struct header = {_LINUX_CAPABILITY_VERSION_3, 0};
    struct __user_cap_data_struct sets[2];
    if (syscall(SYS_capget, &header, sets) < 0) return;
    sets[0].effective = (uint32_t)effective & sets[0].permitted;
    sets[1].effective = (uint32_t)(effective >> 32) & sets[1].permitted;
    syscall(SYS_capset, &header, sets);
}

static void set_ids(const struct rights *rights) {
    syscall(SYS_setgroups, rights->count, rights->groups);
    setfsgid(rights->group);
    setfsuid(rights->user);
}

/* Acts with the rights of the caller, or with those of unixbox. */
void act_as_caller(bool as_caller) {
    static _Thread_local bool is_caller;
    if (is_inside) set_capabilities(as_caller ? lent.capabilities : UINT64_MAX);
    if (is_inside || as_caller == is_caller || is_same(&own, &lent)) return;
    is_caller = as_caller;
    if (!as_caller) set_capabilities(own.capabilities);
    set_ids(as_caller ? &lent : &own);
    if (as_caller) set_capabilities(lent.capabilities);
}

/* Lets a process of its own act, which has entered the caller's user namespace: the caller's
 * capabilities hold there alone. It opens descriptors in unixbox's table. */
static long act_inside(const struct call *call, action *act, const char *path, int value) {
    static long *result;
    const int access = PROT_READ | PROT_WRITE;
    if (result == NULL)
        result = mmap(NULL, sizeof *result, access, MAP_SHARED | MAP_ANONYMOUS, -1, 0);
    if (result == MAP_FAILED) abort();
    int namespace = open_namespace(call->tid, "user");
    *result = -EACCES;
    pid_t pid = (pid_t)syscall(SYS_clone, CLONE_FILES | SIGCHLD, NULL, NULL, NULL, NULL);
    if (pid == 0) {
        set_ids(&lent);
        is_inside = setns(namespace, CLONE_NEWUSER) == 0;
        if (is_inside) *result = act(call, path, value);
        _exit(0);
    }
    if (pid > 0) waitpid(pid, NULL, 0);
    close(namespace);
    return *result;
}

/* Acts on a path for a caller, which has rights of its own. */
long act_for_caller(const struct call *call, action *act, const char *path, int value) {
    static bool is_own_known;
    if (!is_own_known) read_rights(getpid(), &own);
    is_own_known = true;
    read_rights(call->tid, &lent);
    if (!shares_users(call->process)) return act_inside(call, act, path, value);
    return act(call, path, value);
}

static bool protects_links(void) {
    char text = '0';
    int file = open("/proc/sys/fs/protected_symlinks", O_RDONLY | O_CLOEXEC);
    bool is_on = read(file, &text, 1) == 1 && text != '0';
    close(file);
    return is_on;
}

/* Returns whether the caller may follow the link at the end of a path: in a sticky folder that all
 * may write to, only its own or the folder's owner's (proc_sys_fs(5), protected_symlinks). */
bool may_follow(int folder, int link) {
    const mode_t shared = S_ISVTX | S_IWOTH;
    struct stat place, found;
    if (fstat(folder, &place) < 0 || fstat(link, &found) < 0) return false;
    return (place.st_mode & shared) != shared || found.st_uid == lent.user ||
           found.st_uid == place.st_uid || !protects_links();
}
