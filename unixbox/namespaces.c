/* Namespaces: unixbox keeps the numbers of processes, users and groups that its own have, and tells
 * each program those of its namespaces (pid_namespaces(7), user_namespaces(7)). */
#include "unixbox.h"
#include <linux/nsfs.h>

enum { OVERFLOW_ID = 65534, MOST_LEVELS = 32, MOST_NESTED = 2 * JW_MAX_PROCESSES };

/* The numbers of a process in other pid namespaces than unixbox's, from the outermost inwards. They
 * are kept in a ring when it is over, since its messages tell them. */
static struct nested {
    pid_t tgid;
    size_t depth;
    uint32_t pids[MOST_LEVELS];
    ino_t namespaces[MOST_LEVELS];
} nested[MOST_NESTED];
static size_t newest; /* Its last entry. */
static ino_t own_pids, own_users; /* unixbox's namespaces. */

int open_namespace(pid_t tid, const char *kind) {
    char path[64];
    snprintf(path, sizeof path, "/proc/%d/ns/%s", tid, kind);
    return open(path, O_RDONLY | O_CLOEXEC);
}

/* Returns the number of a namespace, or 0, and closes its descriptor. */
static ino_t close_namespace(int namespace) {
    struct stat found = {.st_ino = 0};
    if (fstat(namespace, &found) == 0) close(namespace);
    return found.st_ino;
}

/* Returns the number of the namespace that a thread has of this kind, or 0 where it is over. */
ino_t namespace_of(pid_t tid, const char *kind) {
    return close_namespace(open_namespace(tid, kind));
}

void read_own_namespaces(void) {
    own_pids = namespace_of(getpid(), "pid");
    own_users = namespace_of(getpid(), "user");
}

/* Returns whether a process has unixbox's user namespace. */
bool shares_users(const struct process *process) {
    return process->namespaces.users == own_users;
}

/* Returns whether a process's pid namespace belongs to its user namespace, not to an outer one. */
bool owns_pids(const struct process *process) {
    int pids = open_namespace(process->tgid, "pid");
    ino_t owner = close_namespace(ioctl(pids, NS_GET_USERNS));
    close(pids);
    return owner != 0 && owner == process->namespaces.users;
}

/* Reads the namespaces of a process, if it may have others than those that are known. */
void read_namespaces(struct process *process) {
    struct namespaces *it = &process->namespaces;
    if (!it->is_stale) return;
    it->is_stale = false;
    it->pids = namespace_of(process->tgid, "pid");
    it->users = namespace_of(process->tgid, "user");
    it->network = namespace_of(process->tgid, "net");
}

/* Notes the numbers of a process that has others than unixbox sees. */
void note_pids(const struct process *process) {
    if (process->namespaces.pids == own_pids) return;
    do newest = (newest + 1) % MOST_NESTED;
    while (nested[newest].tgid != 0 && process_by(nested[newest].tgid) != NULL);
    struct nested *it = &nested[newest];
    it->tgid = process->tgid;
    it->depth = read_numbers(read_all(process->tgid, "status"), "NSpid", it->pids, MOST_LEVELS);
    int namespace = open_namespace(process->tgid, "pid");
    for (size_t level = it->depth; level-- > 0;) {
        int parent = ioctl(namespace, NS_GET_PARENT);
        it->namespaces[level] = close_namespace(namespace);
        namespace = parent;
    }
    if (namespace >= 0) close(namespace);
}

/* Returns the number that a process has in this pid namespace, or 0. */
static pid_t pid_in(const struct nested *it, ino_t namespace) {
    for (size_t level = 0; level < it->depth; level++)
        if (it->namespaces[level] == namespace) return (pid_t)it->pids[level];
    return 0;
}

/* Returns the number that a process sees for another, or 0 where it sees none. */
pid_t pid_told_to(const struct process *process, pid_t pid) {
    if (process->namespaces.pids == own_pids) return pid;
    for (size_t age = 0; age < MOST_NESTED; age++) {
        const struct nested *it = &nested[(newest - age) % MOST_NESTED];
        if (it->tgid == pid) return pid_in(it, process->namespaces.pids);
    }
    return 0;
}

/* Returns unixbox's number for one that a process sees, or 0 where there is none. */
pid_t pid_meant_by(const struct process *process, pid_t pid) {
    if (pid <= 0) return 0;
    if (process->namespaces.pids == own_pids)
        return kill(pid, 0) == 0 || errno == EPERM ? pid : 0;
    for (size_t age = 0; age < MOST_NESTED; age++) {
        const struct nested *it = &nested[(newest - age) % MOST_NESTED];
        if (pid_in(it, process->namespaces.pids) == pid && kill(it->tgid, 0) == 0) return it->tgid;
    }
    return 0;
}

/* Reads how a process's user namespace numbers users (uid_map) or groups (gid_map). */
void read_map(const struct process *process, const char *name, struct map *out) {
    *out = (struct map){1, {{0, 0, UINT32_MAX}}};
    if (shares_users(process)) return;
    const char *at = read_all(process->tgid, name);
    int length;
    for (out->count = 0; out->count < MOST_RANGES; at += length, out->count++) {
        struct range *it = &out->ranges[out->count];
        if (sscanf(at, "%u %u %u%n", &it->inside, &it->outside, &it->count, &length) < 3) break;
    }
}

/* Returns the number inside for one outside, or 65534 where there is none. */
uint32_t id_told(const struct map *map, uint32_t outside) {
    for (const struct range *it = map->ranges; it < map->ranges + map->count; it++)
        if (outside - it->outside < it->count) return outside - it->outside + it->inside;
    return OVERFLOW_ID;
}

/* Returns the number outside for one inside, or UINT32_MAX where there is none. */
uint32_t id_meant(const struct map *map, uint32_t inside) {
    for (const struct range *it = map->ranges; it < map->ranges + map->count; it++)
        if (inside - it->inside < it->count) return inside - it->inside + it->outside;
    return UINT32_MAX;
}
