/* Paths: the supervisor walks a pathname from the caller's root or working directory, as the kernel
 * would for the caller (path_resolution(7)): with its rights, with its links, and with its own
 * folder as /proc/self. Each step is a descriptor, so that nothing changes under it. */
#include "unixbox.h"
#include <linux/magic.h>
#include <linux/openat2.h>
#include <sys/vfs.h>

enum { MOST_LINKS = 40, PROC_ROOT = 1 }; /* The inode number of procfs's root. */

struct walk {
    const struct call *call;
    int root, at;             /* The caller's root, and the place of the walk. */
    bool is_folder;           /* It looks for a folder, whose name is not the path's end. */
    bool is_own;              /* It is in the caller's folder of procfs, which is open to it. */
    unsigned links;           /* How many links it has followed. */
    char rest[8 * PATH_MAX];  /* What of the path is left. */
};

static void go_to(struct walk *walk, int next) {
    close(walk->at);
    walk->at = next;
}

static int open_at(const struct walk *walk, const char *name, int flags) {
    act_as_caller(!walk->is_own);
    return openat(walk->at, name, O_PATH | O_CLOEXEC | flags);
}

static int open_caller(const struct call *call, const char *name) {
    char path[64];
    act_as_caller(false);
    snprintf(path, sizeof path, "/proc/%d/%s", call->tid, name);
    return open(path, O_PATH | O_CLOEXEC);
}

static bool is_procfs(int file) {
    struct statfs system;
    return fstatfs(file, &system) == 0 && system.f_type == PROC_SUPER_MAGIC;
}

/* Whether two descriptors are of one place: of a file below one mount. */
static bool is_same_place(int one, int other) {
    const unsigned mask = STATX_INO | STATX_MNT_ID;
    struct statx here, there;
    return statx(one, "", AT_EMPTY_PATH, mask, &here) == 0 &&
           statx(other, "", AT_EMPTY_PATH, mask, &there) == 0 && here.stx_ino == there.stx_ino &&
           here.stx_mnt_id == there.stx_mnt_id;
}

/* Whether a component stands for the caller's folder of procfs. */
static bool is_own_folder(const struct walk *walk, const char *name) {
    const struct process *process = walk->call->process;
    char number[16];
    struct stat place;
    snprintf(number, sizeof number, "%d", pid_told_to(process, process->tgid));
    bool is_name = strcmp(name, "self") == 0 || strcmp(name, "thread-self") == 0;
    return (is_name || strcmp(name, number) == 0) && fstat(walk->at, &place) == 0 &&
           place.st_ino == PROC_ROOT && is_procfs(walk->at);
}

static int open_own_folder(const struct walk *walk, const char *name) {
    char path[32];
    snprintf(path, sizeof path, "task/%d", walk->call->tid);
    return open_caller(walk->call, strcmp(name, "thread-self") == 0 ? path : ".");
}

/* Returns whether a link of procfs leads to its file without a path, as /proc/PID/fd/N does. */
static bool is_magic(const struct walk *walk, const char *name, int link) {
    struct open_how how = {.flags = O_PATH | O_CLOEXEC, .resolve = RESOLVE_NO_MAGICLINKS};
    if (!is_procfs(link)) return false;
    int next = (int)syscall(SYS_openat2, walk->at, name, &how, sizeof how);
    if (next >= 0) close(next);
    return next < 0 && errno == ELOOP;
}

/* Puts the text of a link before the rest of the path. */
static long insert_link(struct walk *walk, int link) {
    char text[PATH_MAX], rest[sizeof walk->rest];
    ssize_t length = readlinkat(link, "", text, sizeof text - 1);
    if (length <= 0) return length < 0 ? -errno : -ENOENT;
    text[length] = '\0';
    if (text[0] == '/') go_to(walk, dup(walk->root));
    if (text[0] == '/') walk->is_own = false;
    strcpy(rest, walk->rest);
    int total = snprintf(walk->rest, sizeof walk->rest, "%s%s", text, rest);
    return total < (int)sizeof walk->rest ? 0 : -ENAMETOOLONG;
}

/* Follows a link, and closes it. */
static long follow(struct walk *walk, const char *name, int link) {
    bool is_last = walk->rest[0] == '\0' && !walk->is_folder;
    long result = ++walk->links > MOST_LINKS ? -ELOOP : 0;
    if (result == 0 && is_last && !may_follow(walk->at, link)) result = -EACCES;
    if (result == 0 && is_magic(walk, name, link)) {
        int next = open_at(walk, name, 0);
        result = next < 0 ? -errno : 0;
        if (next >= 0) go_to(walk, next);
        walk->is_own = false;
    } else if (result == 0) {
        result = insert_link(walk, link);
    }
    close(link);
    return result;
}

/* Takes a component off the rest. Slashes at the end stand for one more, ".". */
static bool take_name(struct walk *walk, char *name) {
    size_t slashes = strspn(walk->rest, "/"), length = strcspn(walk->rest + slashes, "/");
    if (walk->rest[0] == '\0') return false;
    memcpy(name, length > 0 ? walk->rest + slashes : ".", length > 0 ? length : 1);
    name[length > 0 ? length : 1] = '\0';
    memmove(walk->rest, walk->rest + slashes + length, strlen(walk->rest + slashes + length) + 1);
    return true;
}

/* Goes to a component of the path. */
static long step(struct walk *walk, const char *name) {
    struct stat found;
    bool is_up = strcmp(name, "..") == 0;
    if (is_up && is_same_place(walk->at, walk->root)) return 0;
    bool is_own = is_own_folder(walk, name);
    int next = is_own ? open_own_folder(walk, name) : open_at(walk, name, O_NOFOLLOW);
    if (next < 0) return -errno;
    if (fstat(next, &found) == 0 && S_ISLNK(found.st_mode)) return follow(walk, name, next);
    go_to(walk, next);
    walk->is_own = is_own || (walk->is_own && !is_up);
    return 0;
}

/* Returns a descriptor of what the caller means by a pathname, or a negative errno. */
static int open_path(const struct call *call, const char *path, bool is_folder) {
    struct walk walk = {.call = call, .root = open_caller(call, "root"), .is_folder = is_folder};
    char name[sizeof walk.rest];
    walk.at = path[0] == '/' ? dup(walk.root) : open_caller(call, "cwd");
    snprintf(walk.rest, sizeof walk.rest, "%s", path);
    long result = walk.root >= 0 && walk.at >= 0 && is_pending(call) ? 0 : -EACCES;
    while (result == 0 && take_name(&walk, name)) result = step(&walk, name);
    act_as_caller(false);
    close(walk.root);
    if (result < 0) close(walk.at);
    return result < 0 ? (int)result : walk.at;
}

static long open_file(const struct call *call, const char *path, int none) {
    (void)none;
    int file = open_path(call, path, false);
    act_as_caller(true);
    bool may_write = file < 0 || faccessat(file, "", W_OK, AT_EACCESS | AT_EMPTY_PATH) == 0;
    int error = errno;
    act_as_caller(false);
    if (may_write) return file;
    close(file);
    return -error;
}

/* Opens the folder that the last component of a pathname is in. */
static int open_folder(const struct call *call, const char *path, const char **last) {
    char folder[PATH_ROOM];
    size_t start = strlen(path);
    while (start > 0 && path[start - 1] == '/') start--;
    while (start > 0 && path[start - 1] != '/') start--;
    *last = path + start;
    snprintf(folder, sizeof folder, "%.*s", (int)start, path);
    return open_path(call, folder, true);
}

static long make_file(const struct call *call, const char *path, int mode) {
    const char *last;
    int folder = open_folder(call, path, &last);
    if (folder < 0) return folder;
    act_as_caller(true);
    int file = mknodat(folder, last, S_IFSOCK | (mode_t)mode, 0) < 0 ? -errno : 0;
    act_as_caller(false);
    if (file == 0) file = openat(folder, last, O_PATH | O_NOFOLLOW | O_CLOEXEC);
    close(folder);
    return file;
}

static long remove_file(const struct call *call, const char *path, int file) {
    const char *last;
    struct stat there, here;
    int folder = open_folder(call, path, &last);
    if (folder >= 0 && fstatat(folder, last, &there, AT_SYMLINK_NOFOLLOW) == 0 &&
        fstat(file, &here) == 0 && there.st_ino == here.st_ino)
        unlinkat(folder, last, 0);
    if (folder >= 0) close(folder);
    return close(file);
}

/* Opens the file of a socket that the caller may connect to. Returns a descriptor of it, or a
 * negative errno. */
int open_socket_file(const struct call *call, const char *path) {
    return (int)act_for_caller(call, open_file, path, 0);
}

/* Makes the file of a socket for the caller. Returns a descriptor of it, or a negative errno. */
int make_socket_file(const struct call *call, const char *path, mode_t mode) {
    return (int)act_for_caller(call, make_file, path, (int)mode);
}

/* Removes the file of a socket, and closes its descriptor. */
void remove_socket_file(const struct call *call, const char *path, int file) {
    act_for_caller(call, remove_file, path, file);
}
