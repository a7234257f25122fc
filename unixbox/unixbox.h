/* unixbox: runs an unmodified Linux program, and all that it forks, with its AF_UNIX sockets on
 * the layer of libjaywardrobe.a. A seccomp filter hands calls that concern descriptors to this
 * supervisor (seccomp_unotify(2)). It asks the layer, and answers in place of the kernel. Where a
 * call opens a socket, it installs a placeholder: a socket of the host that is ready for what the
 * layer's socket is ready for, so that poll(2), select(2) and epoll(7) work by themselves. Kernel
 * and layer choose the numbers of descriptors each for itself, and these are compared. */
#pragma once
#define _GNU_SOURCE
#include <dirent.h>
#include <errno.h>
#include <fcntl.h>
#include <limits.h>
#include <linux/seccomp.h>
#include <jaywardrobe.h>
#include <poll.h>
#include <pthread.h>
#include <signal.h>
#include <stdio.h>
#include <stdlib.h>
#include <string.h>
#include <sys/ioctl.h>
#include <sys/prctl.h>
#include <sys/queue.h>
#include <sys/resource.h>
#include <sys/socket.h>
#include <sys/stat.h>
#include <sys/syscall.h>
#include <sys/uio.h>
#include <sys/un.h>
#include <unistd.h>

/* The first two are answers of handlers, beside a value or a negative errno. */
enum { KERNEL_DOES_IT = -100001, CALL_WAITS = -100002, EVERYONE = 0, FILE_SLOTS = 4096 };
#define NOTHING UINT64_MAX /* What a call waits for that looks again at ticks alone. */
/* How many descriptors sockets leave to processes and calls, and processes to calls. */
enum { KEPT_FOR_PROCESSES = 96, KEPT_FOR_CALLS = 32 };
enum { PATH_ROOM = 109, MOST_RANGES = 340 }; /* Of a pathname; of a user namespace's map. */

/* Statuses, as sh has the last two; and the signal that unixbox's end sends to the guard alone. */
enum { FAILED = 125, NOT_RUN = 126, NOT_FOUND = 127, KILL_ALL = SIGSTKFLT };

extern struct options {
    enum { COLLECT_NEVER, COLLECT_SLICES, COLLECT_PASSES } collector;
    uint32_t budget;                       /* Of a slice, in files. */
    int verifies, checks;                  /* Whether all is recounted after each call. */
    int oob, networks;                     /* What is served beside the usual. */
    int is_quiet;
    FILE *script, *graph;                  /* Where steps and the picture go, or NULL. */
} options;

extern struct counts { /* Of calls of programs, of calls of the layer (steps), and so on. */
    uint64_t calls, steps, passes, reclaimed, other_numbers, wrong_counts, failed_checks, lost;
    uint64_t unknown; /* Calls of processes that the layer does not know. */
} counts;

/* What /proc/PID/status says of a thread and its process. */
struct status {
    char name[16];
    struct ucred user, real; /* Their pid is the number of the process. The first is effective. */
    mode_t umask;
};

/* Whether a signal waits for a thread that neither blocks nor ignores it. */
enum signal_state { NO_SIGNAL, MAY_HAVE_SIGNAL, HAS_SIGNAL };

struct process {
    pid_t tgid;           /* The host's number. 0 until it is known. */
    uint32_t pid;         /* The layer's number. */
    size_t fd_count;      /* How many descriptors the layer has open for it. */
    pid_t forker;         /* The thread that forked it. */
    int pidfd, spare;     /* Until it is bound, these keep back what its binding takes. */
    DIR *table;           /* /proc/TGID/fd, or that of a thread where the first one is over. */
    int thread;           /* A pidfd of that thread, or -1. */
    bool is_orphan;       /* It is not bound, and the thread that forked it is over. */
    bool is_over, has_threads, has_changed; /* By exec(2) or setuid(2): what follows is stale. */
    struct status status;
    struct groups *groups; /* NULL until they are asked for. */
    struct namespaces {
        ino_t pids, users, network;
        bool is_stale;    /* They are to be read again. */
        bool is_left;     /* unshare(2) or setns(2) was called: children may have others. */
    } namespaces;
    unsigned looks;       /* How many ticks more it is looked at, since it runs a new program. */
    pid_t executor;       /* The thread at an exec(2) that ends others, or 0. */
    pid_t closer;         /* The thread whose close(2) the kernel may not have done yet, or 0. */
    LIST_ENTRY(process) entries, unbound_entries;
};

struct address {
    struct sockaddr_un name;
    socklen_t length; /* 0 where there is none. */
};

/* What is known of a message that a socket has not received. */
struct parcel {
    struct ucred sender;
    struct address from;   /* The name of the socket that sent it. */
    size_t length, charge; /* Bytes that are left of it, and what it takes of a send buffer. */
    uint8_t *bytes;        /* Where it is held back, else NULL: the layer has it. */
    TAILQ_ENTRY(parcel) entries;
};

/* What the supervisor keeps for a file of the layer. */
struct file {
    uint64_t ino;
    uint32_t kind;        /* enum jw_kind */
    bool is_embryo, listens;
    int host;             /* The placeholder, or a copy of a plain file that was sent, or -1. */
    int path;             /* Keeps the inode of a pathname from being used again, or -1. */
    uint64_t messages;    /* How many messages its placeholder was refreshed for last. */
    uint64_t tokens;      /* Bytes in the placeholder. */
    bool is_stale;        /* Its placeholder is to be refreshed. */
    struct address own, peer; /* Its name; that of its peer, also after the end of that. */
    uint64_t target;      /* The datagram socket to whose placeholder its own is connected, or 0. */
    int shut;             /* Which ends of a datagram socket are closed: 1 input, 2 output. */
    ino_t network;        /* The network namespace that its abstract name is in. */
    struct ucred peer_user; /* SO_PEERCRED, also of a peer that is over. */
    struct groups *peer_groups; /* SO_PEERGROUPS. NULL where it has had no peer. */
    bool passes_users;    /* SO_PASSCRED */
    size_t send_buffer;   /* SO_SNDBUF, or 0 until it is asked for. */
    size_t low_water;     /* SO_RCVLOWAT */
    bool may_give_up;     /* SO_RCVTIMEO or SO_SNDTIMEO may be set. */
    TAILQ_HEAD(parcel_list, parcel) queue; /* The messages that it has not received, in order. */
    struct parcel *held;  /* The first of them that is held back, or NULL. */
    size_t charge;        /* What all of them take of a send buffer. */
    struct status sender; /* Who sent this file last. */
    uint64_t places;      /* How many places in tables a recount finds. */
    LIST_ENTRY(file) entries, stale_entries;
};

/* How a user namespace numbers users or groups. */
struct map {
    size_t count;
    struct range {
        uint32_t inside, outside, count;
    } ranges[MOST_RANGES];
};

struct call {
    uint64_t id, args[6];
    int number;
    pid_t tid;
    struct process *process;
    uint32_t pid, fd;     /* The layer's number of the process; the first argument. */
    struct file *file;    /* The socket of the layer that the first argument names, or NULL. */
    uint64_t waits_for;   /* The socket whose change it waits for, EVERYONE or NOTHING. */
    bool is_sure;         /* Its caller was there a moment ago: it is not asked for again. */
    bool raises_sigpipe;
    size_t moved, room;   /* Bytes that it has moved, and of control data that are left. */
    struct ucred sender;  /* Who sent what it has received. */
    uint64_t done;        /* Messages that a sendmmsg(2) or a recvmmsg(2) is done with. */
    uint64_t deadline;    /* In milliseconds. 0 until it waits. */
    long result;          /* Its answer, where it is only to be sent. */
    TAILQ_ENTRY(call) entries;
};

/* What a send or a receive carries. One is served at a time. */
enum { MOST_CONTROL = 20480 };
extern struct message {
    uint64_t at; /* Where the caller's msghdr is. 0: it has none. */
    struct msghdr header;
    struct iovec parts[IOV_MAX];
    size_t total, length, fd_count; /* Bytes left in all parts, and how many to move. */
    int flags;
    uint32_t fds[JW_MAX_FD];
    uint8_t bytes[JW_MAX_BYTES];
    _Alignas(struct cmsghdr) char control[MOST_CONTROL];
    struct ucred user; /* SCM_CREDENTIALS */
    struct address from; /* Who sent it. */
    bool has_files;    /* What is next to receive has descriptors. */
    bool is_end;       /* Nothing is left, and nobody sends more. */
} message;
long read_message(struct call *call);
long refusal_of_send(struct call *call, const struct file *peer);
long refusal_of_any_send(const struct call *call);
long send_bytes(struct call *call);
long look(const struct call *call, size_t length, size_t *queued);
long take(const struct call *call, size_t length, size_t queued, size_t room);
long receive_nothing(struct call *call, long result);
long answer_of_batch(struct call *call, long result);

extern jw_engine engine;
extern bool is_collection_due; /* Something was closed since the last pass began. */
extern LIST_HEAD(process_list, process) processes;
extern LIST_HEAD(file_list, file) files[FILE_SLOTS]; /* By inode number modulo FILE_SLOTS. */
extern int notifications, watches; /* The filter's listener; an epoll(7) of it and all pidfds. */
extern pid_t guard;
extern int program; /* A pidfd of the first. */
extern pthread_mutex_t serving; /* Whoever has it may use all else. */

long record(uint32_t pid, int64_t answer, const char *line, ...)
    __attribute__((format(printf, 3, 4)));
void settle(bool is_collected);
bool collect(void);
bool conclude(void);

int read_options(int argc, char **argv);

void start_programs(char **arguments);
int wait_for_guard(int flags);
void kill_children(void);

void take_signals(sigset_t *unblocked);
void pass_signals(void);
int status_after_signals(int status);

int install_filter(void);
void *serve_calls(void *none);
void lock_first(void);
long wait_for(struct call *call, int flags, uint64_t ino);
uint64_t now(void);
void wake(uint64_t ino);
void wake_ends(const struct file *file);
void rerun_woken_calls(void);
bool is_pending(const struct call *call);
bool read_memory(const struct call *call, void *to, uint64_t from, size_t length);
bool write_memory(const struct call *call, uint64_t to, const void *from, size_t length);

long add_process(uint32_t pid, size_t fd_count, pid_t forker, struct namespaces namespaces);
void bind_children(pid_t caller);

const char *read_all(pid_t tid, const char *name);
size_t read_numbers(const char *text, const char *name, uint32_t *out, size_t most);
uint64_t read_capabilities(const char *text);
bool read_status(pid_t tid, struct status *out);
enum signal_state signal_for(pid_t tid, pid_t tgid);
void refresh_process(struct process *process);
void bind_process(struct process *process, pid_t tgid);
struct process *process_by(pid_t tgid);
struct process *process_of(pid_t tid);
void forget_process(struct process *process);
bool forget_ended(void);
void look_after_exec(void);
bool is_executing(struct process *process);
bool find_table(struct process *process);
int copy_descriptor(const struct process *process, int fd);

int open_namespace(pid_t tid, const char *kind);
ino_t namespace_of(pid_t tid, const char *kind);
void read_own_namespaces(void);
bool shares_users(const struct process *process);
bool owns_pids(const struct process *process);
void read_namespaces(struct process *process);
void note_pids(const struct process *process);
pid_t pid_told_to(const struct process *process, pid_t pid);
pid_t pid_meant_by(const struct process *process, pid_t pid);
void read_map(const struct process *process, const char *name, struct map *out);
uint32_t id_told(const struct map *map, uint32_t outside);
uint32_t id_meant(const struct map *map, uint32_t inside);

void forget_credentials(struct process *process);
void set_peer(struct file *file, struct ucred user, struct groups *groups);
void set_peer_process(struct file *file, struct process *process);
struct ucred user_told_to(const struct call *call, struct ucred user);
struct ucred user_of(const struct call *call, const struct file *peer);
long check_claim(const struct call *call, struct ucred *user);
long serve_peer(const struct call *call);

typedef long action(const struct call *call, const char *path, int value);
long act_for_caller(const struct call *call, action *act, const char *path, int value);
void act_as_caller(bool as_caller);
bool may_follow(int folder, int link);
int open_socket_file(const struct call *call, const char *path);
int make_socket_file(const struct call *call, const char *path, mode_t mode);
void remove_socket_file(const struct call *call, const char *path, int file);

static inline size_t lesser(size_t one, size_t other) {
    return one < other ? one : other;
}

int keep_back(int host, int count);
void *copy_of(const void *value, size_t size);
struct jw_file state_of(uint64_t ino);
struct file *file_at(uint64_t ino);
struct file *file_of(const struct process *process, uint64_t fd);
struct file *peer_of(const struct file *file);
void free_file(struct file *file);
void close_spare_placeholder(struct file *file);
void reopen_placeholder(struct file *file);
void touch(struct file *file);
void refresh(struct file *file);
void refresh_touched(void);
void turn_placeholder(struct file *file, const struct file *target, bool loses);
void tell_edges(void);
void look_for_epoll(void);

bool is_same_user(const struct ucred *one, const struct ucred *other);
struct parcel *note_message(struct file *file, const struct ucred *sender, size_t length);
bool has_room(const struct file *file, struct file *sender);
struct parcel *hold_message(struct file *file, const struct ucred *sender, const void *from,
                            size_t length);
size_t bytes_waiting(const struct file *file);
long push_held(const struct call *call, struct file *file);
size_t copy_held(const struct file *file, uint8_t *to, size_t room);
void drop_received(struct file *file, size_t length);
void drop_queue(struct file *file);
size_t bytes_of_sender(const struct file *file, const struct ucred *sender);
size_t bytes_of_whole_messages(const struct file *file, size_t most);

size_t send_buffer_of(struct file *file);
bool take_reset(const struct file *file);

long write_address(const struct call *call, uint64_t at, uint64_t length_at,
                   const struct address *address);
bool names_target(const struct call *call, uint64_t at, socklen_t length);

void close_fd(struct process *process, uint32_t fd);
void sync_table(struct process *process);
struct file *sync_file(struct process *process, uint64_t fd);
long install(struct call *call, uint32_t *fds, size_t count, bool closes_on_exec);

typedef long handler(struct call *call);
handler serve_socket, serve_bind, serve_listen, serve_connect, serve_accept, serve_shutdown,
    serve_name, serve_set_option, serve_get_option, serve_send, serve_recv, serve_batch,
    serve_unread, serve_sendfile, serve_sendfile_elsewhere, serve_splice, serve_close,
    serve_close_range, serve_wait, serve_dup, serve_fork, serve_unshare, serve_prctl, serve_change,
    serve_limit, serve_old_limit, serve_epoll;
