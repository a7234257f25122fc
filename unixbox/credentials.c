/* Credentials: whom SO_PEERCRED, SO_PEERGROUPS and SCM_CREDENTIALS tell (unix(7)). */
#include "unixbox.h"
#include <linux/capability.h>

/* The supplementary groups of a process, which its sockets may tell when it is over. */
struct groups {
    unsigned references;
    size_t count;
    gid_t list[];
};

static void drop_groups(struct groups *groups) {
    if (groups != NULL && --groups->references == 0) free(groups);
}

/* Returns the groups of a process, which are read where they may have changed. */
static struct groups *groups_of(struct process *process) {
    static gid_t list[NGROUPS_MAX];
    struct groups header = {.references = 1};
    if (process->groups != NULL) return process->groups;
    header.count = read_numbers(read_all(process->tgid, "status"), "Groups", list, NGROUPS_MAX);
    struct groups *groups = malloc(sizeof header + header.count * sizeof *list);
    if (groups == NULL) abort();
    *groups = header;
    memcpy(groups->list, list, header.count * sizeof *list);
    return process->groups = groups;
}

/* Forgets what is known of the credentials of a process, which may have changed. */
void forget_credentials(struct process *process) {
    drop_groups(process->groups);
    process->groups = NULL;
}

/* Sets whom a socket tells to its owner as its peer. The last is forgotten. */
void set_peer(struct file *file, struct ucred user, struct groups *groups) {
    if (groups != NULL) groups->references++;
    drop_groups(file->peer_groups);
    file->peer_user = user;
    file->peer_groups = groups;
}

/* Lets a socket tell this process, as it is now. */
void set_peer_process(struct file *file, struct process *process) {
    set_peer(file, process->status.user, groups_of(process));
}

/* Returns a user as the caller sees it. */
struct ucred user_told_to(const struct call *call, struct ucred user) {
    struct map users, groups;
    read_map(call->process, "uid_map", &users);
    read_map(call->process, "gid_map", &groups);
    return (struct ucred){pid_told_to(call->process, user.pid), id_told(&users, user.uid),
                          id_told(&groups, user.gid)};
}

/* SO_PEERCRED, which may be cut. */
static long serve_peer_user(const struct call *call, socklen_t room) {
    struct ucred user = {0, (uid_t)-1, (gid_t)-1};
    if (call->file->peer_groups != NULL) user = user_told_to(call, call->file->peer_user);
    if (room > sizeof user) room = sizeof user;
    return write_memory(call, call->args[3], &user, room) &&
           write_memory(call, call->args[4], &room, sizeof room) ? 0 : -EFAULT;
}

static long serve_peer_groups(const struct call *call, socklen_t room) {
    static gid_t list[NGROUPS_MAX];
    const struct groups *groups = call->file->peer_groups;
    struct map map;
    if (groups == NULL) return -ENODATA;
    socklen_t size = (socklen_t)(groups->count * sizeof *list);
    bool is_room = room >= size;
    read_map(call->process, "gid_map", &map);
    for (size_t i = 0; i < groups->count; i++) list[i] = id_told(&map, groups->list[i]);
    if (is_room && !write_memory(call, call->args[3], list, size)) return -EFAULT;
    if (!write_memory(call, call->args[4], &size, sizeof size)) return -EFAULT;
    return is_room ? 0 : -ERANGE;
}

/* getsockopt(2) of SO_PEERCRED and SO_PEERGROUPS. */
long serve_peer(const struct call *call) {
    socklen_t room = 0;
    if (!read_memory(call, &room, call->args[4], sizeof room)) return -EFAULT;
    if (room > INT_MAX) return -EINVAL;
    return call->args[2] == SO_PEERCRED ? serve_peer_user(call, room)
                                        : serve_peer_groups(call, room);
}

/* Returns whom a message tells that claims nobody. Where neither end asks, it is nobody. */
struct ucred user_of(const struct call *call, const struct file *peer) {
    bool is_asked = call->file->passes_users || peer == NULL || peer->is_embryo ||
                    peer->passes_users;
    return is_asked ? call->process->status.real : (struct ucred){0, (uid_t)-1, (gid_t)-1};
}

static bool is_one_of(uint32_t id, const uint32_t *ids) {
    return id == ids[0] || id == ids[1] || id == ids[2]; /* Real, effective and saved. */
}

/* Turns credentials that the caller claims into unixbox's numbers. Returns 0, or EINVAL for numbers
 * without meaning, EPERM for those of others, ESRCH for a process that is not there. */
long check_claim(const struct call *call, struct ucred *user) {
    const struct process *process = call->process;
    const char *text = read_all(call->tid, "status");
    uint64_t all = read_capabilities(text);
    uint32_t uids[4] = {0}, gids[4] = {0};
    struct map users, groups;
    read_numbers(text, "Uid", uids, 4);
    read_numbers(text, "Gid", gids, 4);
    read_map(process, "uid_map", &users);
    read_map(process, "gid_map", &groups);
    user->uid = id_meant(&users, user->uid);
    user->gid = id_meant(&groups, user->gid);
    if (!is_pending(call)) return -ESRCH; /* What was read may be another's. */
    if (user->uid == UINT32_MAX || user->gid == UINT32_MAX) return -EINVAL;
    bool is_own = user->pid == pid_told_to(process, process->tgid);
    bool is_free = (all >> CAP_SYS_ADMIN & 1) && owns_pids(process);
    if ((!is_own && !is_free) || (!is_one_of(user->uid, uids) && !(all >> CAP_SETUID & 1)) ||
        (!is_one_of(user->gid, gids) && !(all >> CAP_SETGID & 1)))
        return -EPERM;
    user->pid = is_own ? process->tgid : pid_meant_by(process, user->pid);
    return user->pid != 0 ? 0 : -ESRCH;
}
