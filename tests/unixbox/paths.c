/* Binds and connects sockets by pathnames that mean something else to another process, or that need
 * rights, and says what comes out.
 *
 * Each check prints a line, the same natively and under unixbox. The status is 0 if all hold. */
#define _GNU_SOURCE
#include "must.h"
#include <fcntl.h>
#include <grp.h>
#include <sched.h>
#include <stdbool.h>
#include <sys/socket.h>
#include <sys/stat.h>
#include <sys/un.h>
#include <sys/wait.h>
#include <unistd.h>

enum { MOST_FDS = 64, NOBODY = 65534 };

static char folder[] = "/tmp/paths.XXXXXX";

/* Fills in a name by a format. Returns whether the call with it is done. */
static bool names(int (*call)(int, const struct sockaddr *, socklen_t), int on, const char *format,
                  int number) {
    struct sockaddr_un name = {.sun_family = AF_UNIX};
    snprintf(name.sun_path, sizeof name.sun_path, format, number);
    return call(on, (struct sockaddr *)&name, sizeof name) == 0;
}

static int new_socket(void) {
    int on = socket(AF_UNIX, SOCK_STREAM, 0);
    MUST(on >= 0);
    return on;
}

static bool binds(const char *format, int number) {
    int on = new_socket();
    bool is_done = names(bind, on, format, number);
    int error = errno;
    MUST(close(on) == 0);
    errno = error;
    return is_done;
}

static bool connects(const char *format, int number) {
    int on = new_socket();
    bool is_done = names(connect, on, format, number);
    int error = errno;
    MUST(close(on) == 0);
    errno = error;
    return is_done;
}

/* Makes a listener that others may connect to. */
static int listen_at(const char *path) {
    int on = new_socket();
    MUST(names(bind, on, path, 0) && chmod(path, 0777) == 0 && listen(on, MOST_FDS) == 0);
    return on;
}

/* The caller's own folder of procfs has its descriptors, its working directory and its root. */
static const char *check_self(void) {
    int file = open("listener", O_PATH), place = open(".", O_PATH);
    MUST(connects("/proc/self/fd/%d", file) && connects("/dev/fd/%d", file));
    MUST(connects("/proc/thread-self/fd/%d", file) && connects("/proc/self/fd/%d/listener", place));
    MUST(connects("/proc/self/cwd/listener", 0) && connects("/proc/self/../self/fd/%d", file));
    MUST(binds("/proc/self/fd/%d/new", place) && access("new", F_OK) == 0 && unlink("new") == 0);
    MUST(!binds("/proc/self/fd/%d", file) && errno == EADDRINUSE);
    MUST(close(file) == 0 && close(place) == 0);
    return "a path below /proc/self is the caller's";
}

/* A number of the supervisor's descriptors is none of the caller's. */
static const char *check_numbers(void) {
    int reached = 0;
    for (int fd = 3; fd < MOST_FDS; fd++) {
        if (fcntl(fd, F_GETFD) >= 0) continue;
        reached += connects("/proc/self/fd/%d", fd);
    }
    MUST(reached == 0);
    return "no descriptor of another is reached";
}

/* Links are followed, but for the last of a new name. */
static const char *check_links(void) {
    MUST(symlink("listener", "link") == 0 && symlink(folder, "place") == 0);
    MUST(symlink("loop", "loop") == 0 && connects("link", 0) && connects("place/link", 0));
    MUST(connects(".//place/./link", 0));
    MUST(!connects("loop", 0) && errno == ELOOP);
    MUST(!connects("listener/", 0) && errno == ENOTDIR);
    MUST(!connects("listener/..", 0) && errno == ENOTDIR);
    MUST(!connects("nothing", 0) && errno == ENOENT);
    MUST(!connects(".", 0) && errno == ECONNREFUSED);
    MUST(!binds("link", 0) && errno == EADDRINUSE);
    MUST(!binds("nothing/new", 0) && errno == ENOENT);
    MUST(!binds("listener/new", 0) && errno == ENOTDIR);
    MUST(binds("place/new", 0) && unlink("new") == 0);
    MUST(unlink("link") == 0 && unlink("loop") == 0 && unlink("place") == 0);
    return "links are followed, and failures are named";
}

/* The file of a socket has the mode that fchmod(2) and umask(2) leave. */
static const char *check_mode(void) {
    struct stat found;
    mode_t old = umask(027);
    int on = new_socket();
    MUST(fchmod(on, 0775) == 0 && names(bind, on, "mode", 0) && stat("mode", &found) == 0);
    MUST((found.st_mode & 07777) == 0750 && unlink("mode") == 0 && close(on) == 0);
    MUST(binds("mode", 0) && stat("mode", &found) == 0 && (found.st_mode & 07777) == 0750);
    MUST(unlink("mode") == 0 && umask(old) == 027);
    return "a socket's file has its mode";
}

/* Runs a check in a child, which may change what it is. */
static void in_child(void (*run)(void)) {
    int status;
    pid_t child = fork();
    if (child == 0) {
        run();
        _exit(0);
    }
    MUST(waitpid(child, &status, 0) == child && status == 0);
}

static void become_nobody(void) {
    MUST(setgroups(0, NULL) == 0 && setgid(NOBODY) == 0 && setuid(NOBODY) == 0);
}

static void use_rights(void) {
    struct stat found;
    int file = open("closed/listener", O_PATH);
    become_nobody();
    MUST(!connects("closed/listener", 0) && errno == EACCES);
    MUST(!binds("closed/new", 0) && errno == EACCES);
    MUST(!connects("mine", 0) && errno == EACCES);
    MUST(!connects("/proc/%d/fd/0", 1) && errno == EACCES);
    MUST(connects("/proc/self/fd/%d", file) && connects("listener", 0));
    MUST(binds("open/new", 0) && stat("open/new", &found) == 0);
    MUST(found.st_uid == NOBODY && found.st_gid == NOBODY && unlink("open/new") == 0);
}

/* A program has the rights of its user, not those that unixbox has. */
static const char *check_rights(void) {
    MUST(mkdir("closed", 0700) == 0 && mkdir("open", 0777) == 0 && chmod("open", 0777) == 0);
    int listener = listen_at("closed/listener"), mine = listen_at("mine");
    MUST(chmod("mine", 0700) == 0);
    if (geteuid() == 0) in_child(use_rights);
    MUST(close(listener) == 0 && close(mine) == 0 && unlink("mine") == 0);
    MUST(unlink("closed/listener") == 0 && rmdir("closed") == 0 && rmdir("open") == 0);
    return "a path needs the rights of the caller";
}

static void link_as_nobody(void) {
    become_nobody();
    MUST(symlink("../listener", "shared/link") == 0 && connects("shared/link", 0));
}

/* Who follows another's link in a folder of all gets an error, where links are protected. */
static const char *check_protection(void) {
    static char line[64];
    MUST(mkdir("shared", 0777) == 0 && chmod("shared", 01777) == 0 && chmod("listener", 0777) == 0);
    if (geteuid() != 0) {
        MUST(rmdir("shared") == 0);
        return "not tried";
    }
    MUST(chown("shared", 1, 1) == 0);
    in_child(link_as_nobody);
    bool is_followed = connects("shared/link", 0);
    MUST(symlink("shared", "way") == 0 && binds("way/new", 0) && unlink("shared/new") == 0);
    MUST(unlink("way") == 0 && unlink("shared/link") == 0 && rmdir("shared") == 0);
    snprintf(line, sizeof line, "another's link %s followed", is_followed ? "is" : "is not");
    return line;
}

static void write_file(const char *path, const char *format, unsigned number) {
    FILE *file = fopen(path, "w");
    MUST(file != NULL && fprintf(file, format, number) > 0 && fclose(file) == 0);
}

/* Is root of a user namespace, where that may be: over what is its own. */
static void use_namespace(void) {
    const unsigned user = geteuid(), group = getegid();
    if (unshare(CLONE_NEWUSER) < 0) return;
    write_file("/proc/self/setgroups", "deny%.0u", 0);
    write_file("/proc/self/uid_map", "0 %u 1", user);
    write_file("/proc/self/gid_map", "0 %u 1", group);
    MUST(mkdir("hidden", 0) == 0 && binds("hidden/new", 0) && !connects("hidden/new", 0));
    MUST(errno == ECONNREFUSED && connects("../../proc/self/cwd/listener", 0));
    MUST(unlink("hidden/new") == 0 && rmdir("hidden") == 0 && !binds("/sys/new", 0));
    printf("namespace: %s\n", strerror(errno));
}

static bool names_abstract(int (*call)(int, const struct sockaddr *, socklen_t), int on) {
    const struct sockaddr_un name = {.sun_family = AF_UNIX, .sun_path = "\0paths"};
    return call(on, (const struct sockaddr *)&name, sizeof name) == 0;
}

static void use_network(void) {
    int client = new_socket(), same = new_socket();
    if (unshare(CLONE_NEWUSER | CLONE_NEWNET) < 0) return;
    int other = new_socket();
    MUST(!names_abstract(connect, other) && errno == ECONNREFUSED && names_abstract(bind, other));
    MUST(!names_abstract(bind, same) && errno == EADDRINUSE && names_abstract(connect, client));
    MUST(close(client) == 0 && close(same) == 0 && close(other) == 0);
}

/* A socket keeps the network namespace that it was made in. Each has its abstract names. */
static const char *check_network(void) {
    int listener = new_socket();
    MUST(names_abstract(bind, listener) && listen(listener, 2) == 0);
    in_child(use_network);
    MUST(close(listener) == 0);
    return "a network namespace has its own abstract names";
}

static void leave_root(void) {
    MUST(chroot(folder) == 0 && binds("/jail/link/new", 0) && access("/run/new", F_OK) == 0);
    MUST(binds("/../../run/other", 0) && access("/run/other", F_OK) == 0);
    MUST(chdir("/jail") == 0 && connects("../../listener", 0) && unlink("/run/new") == 0);
    MUST(unlink("/run/other") == 0);
}

/* An absolute link leads below the caller's root. */
static const char *check_root(void) {
    MUST(mkdir("jail", 0700) == 0 && mkdir("run", 0700) == 0 && symlink("/run", "jail/link") == 0);
    if (geteuid() == 0) in_child(leave_root);
    MUST(unlink("jail/link") == 0 && rmdir("jail") == 0 && rmdir("run") == 0);
    return "an absolute link stays below the caller's root";
}

int main(void) {
    setvbuf(stdout, NULL, _IOLBF, 0); /* No child inherits a line. */
    MUST(mkdtemp(folder) != NULL && chmod(folder, 0755) == 0 && chdir(folder) == 0);
    int listener = listen_at("listener");
    printf("self: %s\n", check_self());
    printf("numbers: %s\n", check_numbers());
    printf("links: %s\n", check_links());
    printf("mode: %s\n", check_mode());
    printf("rights: %s\n", check_rights());
    printf("protection: %s\n", check_protection());
    in_child(use_namespace);
    printf("network: %s\n", check_network());
    printf("root: %s\n", check_root());
    MUST(close(listener) == 0 && unlink("listener") == 0 && rmdir(folder) == 0);
    return 0;
}
