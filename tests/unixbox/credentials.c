/* Asks whom a socket's peer and its messages are from, in other namespaces too, and claims others.
 *
 * Each check prints a line, the same natively and under unixbox. The status is 0 if all hold. */
#define _GNU_SOURCE
#include "must.h"
#include <grp.h>
#include <sched.h>
#include <sys/socket.h>
#include <sys/wait.h>
#include <unistd.h>

enum { NOBODY = 65534, OTHER = 1234, NOT_THERE = 4194303, GROUPS = 3 }; /* The largest pid_max. */

static int pair[2];

/* Receives a byte's credentials. */
static struct ucred next_user(void) {
    _Alignas(struct cmsghdr) char control[CMSG_SPACE(sizeof(struct ucred))];
    char byte;
    struct iovec part = {&byte, 1};
    struct msghdr message = {.msg_iov = &part, .msg_iovlen = 1, .msg_control = control};
    struct ucred user;
    message.msg_controllen = sizeof control;
    MUST(recvmsg(pair[1], &message, 0) == 1 && CMSG_FIRSTHDR(&message) != NULL);
    memcpy(&user, CMSG_DATA(CMSG_FIRSTHDR(&message)), sizeof user);
    return user;
}

/* Sends a byte that claims to be of this user. Returns 0 or the error. */
static int claim(pid_t pid, uid_t uid, gid_t gid) {
    _Alignas(struct cmsghdr) char control[CMSG_SPACE(sizeof(struct ucred))] = {0};
    struct iovec part = {"x", 1};
    struct msghdr message = {.msg_iov = &part, .msg_iovlen = 1, .msg_control = control};
    struct ucred user = {pid, uid, gid};
    message.msg_controllen = sizeof control;
    *CMSG_FIRSTHDR(&message) = (struct cmsghdr){CMSG_LEN(sizeof user), SOL_SOCKET, SCM_CREDENTIALS};
    memcpy(CMSG_DATA(CMSG_FIRSTHDR(&message)), &user, sizeof user);
    return sendmsg(pair[0], &message, 0) == 1 ? 0 : errno;
}

static struct ucred peer_user(void) {
    struct ucred user;
    socklen_t size = sizeof user;
    MUST(getsockopt(pair[0], SOL_SOCKET, SO_PEERCRED, &user, &size) == 0 && size == sizeof user);
    return user;
}

static void print_user(const char *what, struct ucred user) {
    printf("%s: %s, user %u, group %u\n", what, user.pid == getpid() ? "this process" : "none",
           user.uid, user.gid);
}

static void make_pair(void) {
    MUST(socketpair(AF_UNIX, SOCK_SEQPACKET, 0, pair) == 0);
    MUST(setsockopt(pair[1], SOL_SOCKET, SO_PASSCRED, &(int){1}, sizeof(int)) == 0);
}

static void close_pair(void) {
    MUST(close(pair[0]) == 0 && close(pair[1]) == 0);
}

/* Runs a check in a child, which may change what it is. */
static void in_child(void (*run)(void)) {
    int status;
    fflush(stdout);
    pid_t child = fork();
    if (child == 0) {
        run();
        fflush(stdout);
        _exit(0);
    }
    MUST(waitpid(child, &status, 0) == child && status == 0);
}

/* Claims what only some may. */
static void check_claims(void) {
    const uid_t user = getuid();
    const gid_t group = getgid();
    make_pair();
    printf("own: %d", claim(getpid(), user, group));
    printf(", another's pid: %d", claim(1, user, group));
    printf(", no process: %d, %d", claim(0, user, group), claim(NOT_THERE, user, group));
    printf(", user: %d, group: %d", claim(getpid(), OTHER, group), claim(getpid(), user, OTHER));
    printf(", no user: %d\n", claim(getpid(), (uid_t)-1, group));
    close_pair();
}

static void claim_as_nobody(void) {
    MUST(setgroups(0, NULL) == 0 && setgid(NOBODY) == 0 && setuid(NOBODY) == 0);
    check_claims();
}

/* A message tells the real user, and a peer the effective one. */
static void check_effective(void) {
    make_pair();
    MUST(seteuid(OTHER) == 0 && write(pair[0], "x", 1) == 1);
    print_user("real", next_user());
    close_pair();
    make_pair();
    print_user("effective", peer_user());
    close_pair();
}

/* A message that was sent when nobody asked tells nobody. */
static void check_late(void) {
    MUST(socketpair(AF_UNIX, SOCK_SEQPACKET, 0, pair) == 0 && write(pair[0], "x", 1) == 1);
    MUST(setsockopt(pair[1], SOL_SOCKET, SO_PASSCRED, &(int){1}, sizeof(int)) == 0);
    MUST(write(pair[0], "x", 1) == 1);
    print_user("before SO_PASSCRED", next_user());
    print_user("after it", next_user());
    MUST(setsockopt(pair[1], SOL_SOCKET, SO_PASSCRED, &(int){0}, 1) < 0 && errno == EINVAL);
    MUST(close(pair[1]) == 0);
    print_user("peer that is over", peer_user());
    MUST(close(pair[0]) == 0);
}

/* SO_PEERGROUPS tells the groups that the peer had. */
static void check_groups(void) {
    gid_t groups[GROUPS] = {7, 8, 9}, told[GROUPS] = {0};
    socklen_t size = sizeof told, small = 1;
    if (geteuid() == 0) MUST(setgroups(GROUPS, groups) == 0);
    int own = getgroups(GROUPS, groups);
    make_pair();
    if (geteuid() == 0) MUST(setgroups(0, NULL) == 0);
    MUST(getsockopt(pair[0], SOL_SOCKET, SO_PEERGROUPS, told, &size) == 0);
    MUST((int)(size / sizeof *told) == own && memcmp(told, groups, size) == 0);
    int result = getsockopt(pair[0], SOL_SOCKET, SO_PEERGROUPS, told, &small);
    MUST(own == 0 ? result == 0 : result < 0 && errno == ERANGE && small == size);
    int lonely = socket(AF_UNIX, SOCK_STREAM, 0);
    MUST(getsockopt(lonely, SOL_SOCKET, SO_PEERGROUPS, told, &size) < 0 && errno == ENODATA);
    MUST(close(lonely) == 0);
    close_pair();
    printf("groups: %d\n", own);
}

static void write_file(const char *path, const char *format, unsigned number) {
    FILE *file = fopen(path, "w");
    MUST(file != NULL && fprintf(file, format, number) > 0 && fclose(file) == 0);
}

/* The first process of a pid namespace sees no outer one, and inner ones also after their end. */
static void show_users(void) {
    print_user("outer peer", peer_user());
    close_pair();
    make_pair();
    print_user("peer", peer_user());
    pid_t child = fork();
    if (child == 0) _exit(write(pair[0], "x", 1) != 1);
    MUST(waitpid(child, NULL, 0) == child && next_user().pid == child);
    check_claims();
}

/* Becomes root of a user namespace, where that may be, and the first process of a pid namespace. */
static void check_namespaces(void) {
    const unsigned user = geteuid(), group = getegid();
    make_pair();
    MUST(write(pair[0], "x", 1) == 1);
    if (unshare(CLONE_NEWUSER | CLONE_NEWPID) < 0) {
        printf("no namespaces\n");
        return;
    }
    write_file("/proc/self/setgroups", "deny%.0u", 0);
    write_file("/proc/self/uid_map", "0 %u 1", user);
    write_file("/proc/self/gid_map", "0 %u 1", group);
    print_user("outer process", next_user());
    in_child(show_users);
    close_pair();
}

int main(void) {
    setvbuf(stdout, NULL, _IOLBF, 0); /* No child inherits a line. */
    check_claims();
    if (geteuid() == 0) in_child(claim_as_nobody);
    if (geteuid() == 0) in_child(check_effective);
    check_late();
    in_child(check_groups);
    in_child(check_namespaces);
    return 0;
}
