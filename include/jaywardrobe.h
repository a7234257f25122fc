/* Written by tools/bindings from jaywardrobe.h.in and the sources of scm_c and af_base. */
/* jaywardrobe.h: an in-memory AF_UNIX layer that keeps account of descriptors in flight.
 *
 * Link with libjaywardrobe.a (pkg-config jaywardrobe), and with nothing else but the C library.
 *
 * An engine has processes, tables, sockets and queues of its own, and touches nothing outside: no
 * descriptor of the program, no file, no clock, no global state. Processes, users, descriptors and
 * files go by numbers of the engine: pids from 1, descriptors from 0, inode numbers from 1.
 *
 *     jw_engine engine = JW_ENGINE_INIT;
 *     if (jw_engine_new(&engine) < 0) ...
 *     int64_t pid = jw_spawn(&engine, 1000, 1024, false);
 *     ...
 *     jw_engine_free(&engine);
 *
 * Every call answers 0 or more, or a negative error: the negative of one of `enum jw_error`. After
 * an error the engine is as it was, and nothing was written to the caller's places. jw_engine_new
 * alone differs: an engine that was in the handle is freed, also where the new one is refused.
 * Where several errors fit, the first of those that a call lists here is answered.
 *
 * The caller owes what no call can test:
 * - A pointer may be null where its length is 0, and where jw_engine_free gets it. No other is.
 * - Each pointer is aligned, and points to as much as its type and its length say. No two of one
 *   call overlap.
 * - A bool is 0 or 1.
 * - A handle is set by JW_ENGINE_INIT and then written by the calls alone. It is not copied. A call
 *   with a const handle does not change the engine, but it writes to the handle, so the handle is
 *   no const object.
 * - Any thread may use a handle, with one call at a time. Each call on it happens before the next:
 *   by a lock as that of jaywardrobe_shared.h, by the start or join of a thread, or by a
 *   sequentially consistent atomic.
 * - No call is made from a signal handler, and none in the child of a fork(2) of a process that had
 *   threads.
 * - malloc, realloc and free are one allocator. They align a block to each power of two up to 16
 *   that divides its size.
 */
#ifndef JAYWARDROBE_H
#define JAYWARDROBE_H

#include <errno.h>
#include <stdbool.h>
#include <stddef.h>
#include <stdint.h>

#ifdef __cplusplus
extern "C" {
#endif

/* The version of this header. jw_version answers that of the library. */
#define JW_VERSION_MAJOR 0
#define JW_VERSION_MINOR 2
#define JW_VERSION_PATCH 0
#define JW_VERSION (JW_VERSION_MAJOR * 1000000 + JW_VERSION_MINOR * 1000 + JW_VERSION_PATCH)

/* What a compiler is told of a call: which pointers, counted from 1, are not null; and that its
 * answer is not to be ignored, as an error or all that the call is for. */
#if defined(__GNUC__)
#define JW_NONNULL(...) __attribute__((nonnull(__VA_ARGS__)))
#define JW_MUST_USE __attribute__((warn_unused_result))
#else
#define JW_NONNULL(...)
#define JW_MUST_USE
#endif

/* A handle: no engine, or one. */
typedef struct jw_engine {
    void *at;
} jw_engine;

/* A handle without an engine. */
#define JW_ENGINE_INIT { NULL }

/* What a call may be refused by. The numbers are this library's own; the names are those of
 * errno(3), but for JW_EIDLE and those from 100 on. */
enum jw_error {
    JW_EBADF = 1,         /* The descriptor is not open, or the new one of a dup2(2) is not below
                           * the limit. */
    JW_ENOTSOCK = 2,      /* The file is no socket. */
    JW_EINVAL = 3,        /* An argument is out of range, or does not fit the socket's state. */
    JW_EMFILE = 4,        /* The table of the process is full. */
    JW_ENFILE = 5,        /* There are too many files, or no inode number is left. */
    JW_EAGAIN = 6,        /* Not now: a queue or a backlog is full or empty, or no further process
                           * may start. */
    JW_EMSGSIZE = 7,      /* The message has too many bytes. */
    JW_ETOOMANYREFS = 8,  /* The user has too many descriptors in flight (unix(7)). */
    JW_ENOBUFS = 9,       /* All users together have too many descriptors in flight. */
    JW_ENOTCONN = 10,     /* The socket was never connected. */
    JW_EPIPE = 11,        /* The peer is gone, or its input or the socket's output is closed. */
    JW_EISCONN = 12,      /* The socket is connected, or was. */
    JW_EADDRINUSE = 13,   /* A live socket has this name. */
    JW_ECONNREFUSED = 14, /* No live socket of this name listens, or its input is closed. */
    JW_EPROTOTYPE = 15,   /* The listener is of the other type. */
    JW_ESRCH = 16,        /* No such process. */
    JW_ENOMEM = 17,       /* Memory ran out. */
    JW_EBUSY = 18,        /* A pass runs. */
    JW_EIDLE = 19,        /* No pass runs. */
    JW_ERANGE = 20,       /* The limit on descriptors is too large. */
    JW_EPERM = 21,        /* The datagram socket sends to another one, and takes from that one
                           * alone. */
    JW_EOPNOTSUPP = 22,   /* Sockets of this type cannot do that. */
    JW_ENOENGINE = 100,   /* The handle has no engine: none was made, or it was freed. */
    JW_EDIFFERS = 101     /* A kept number is not its recount: proved never to be answered. */
};

/* What there may be at once, and how long things may be. */
enum jw_limit {
    JW_MAX_PROCESSES = 1024,   /* Processes at once. */
    JW_MAX_NOFILE = 1024,      /* The largest limit on descriptors (RLIMIT_NOFILE) that a process
                                * may have. */
    JW_MAX_FILES = 65536,      /* Live open file descriptions. */
    JW_MAX_MESSAGES = 64,      /* Messages in a queue. */
    JW_MAX_BYTES = 65536,      /* Bytes of a message, and of a receive's buffer. */
    JW_MAX_FD = 253,           /* Descriptors of a message, as Linux has it (unix(7),
                                * SCM_RIGHTS). */
    JW_MAX_BACKLOG = 128,      /* Embryos in a backlog: connections that wait at a listener. */
    JW_MAX_INFLIGHT = 1048576, /* Descriptors in flight, of all users together. */
    JW_MAX_NAME = 107,         /* Bytes of a name. */
    JW_MAX_BUDGET = 65536      /* The largest budget of a slice, in units. The smallest is 1. */
};

/* What a file is: its kind, which is also the type of a new socket. */
enum jw_kind {
    JW_NO_FILE = 0,   /* No live file has this number. */
    JW_STREAM = 1,    /* SOCK_STREAM: bytes in order, with no borders between messages. */
    JW_SEQPACKET = 2, /* SOCK_SEQPACKET: connected, keeps the borders between messages. */
    JW_PLAIN = 3,     /* A plain file. */
    JW_DGRAM = 4      /* SOCK_DGRAM: sends to a target, keeps the borders between messages. */
};

/* The connection state of a socket. */
enum jw_state {
    JW_IDLE = 0,      /* Was never connected, and does not listen. */
    JW_LISTENING = 1, /* Waits for connections. */
    JW_CONNECTED = 2, /* Is connected to a live peer, or has a target, live or freed. */
    JW_HUNG_UP = 3    /* Was connected; the peer is gone. */
};

/* Which ends of a socket jw_shutdown closes. The numbers are those of sys/socket.h. */
enum jw_how {
    JW_SHUT_RD = 0,  /* SHUT_RD: its input. */
    JW_SHUT_WR = 1,  /* SHUT_WR: its output. */
    JW_SHUT_RDWR = 2 /* SHUT_RDWR: both. */
};

/* The descriptors of two connected sockets. */
struct jw_pair {
    uint32_t first;  /* The lower descriptor. */
    uint32_t second; /* The higher descriptor. */
};

/* The outcome of a receive or a peek, beside its bytes and descriptors. */
struct jw_received {
    size_t fds;  /* How many descriptors were installed. */
    bool trunc;  /* Whether bytes of the packet did not fit (recvmsg(2), MSG_TRUNC). */
    bool ctrunc; /* Whether descriptors did not fit and were not installed (recvmsg(2),
                  * MSG_CTRUNC). */
};

/* A pass of the collector that is over. */
struct jw_finished {
    uint64_t pass;      /* The number of the pass, from 1 on. */
    uint64_t reclaimed; /* How many sockets were garbage when it began. */
};

/* The readiness of a descriptor. */
struct jw_ready {
    bool readable; /* Whether a receive of a byte, or an accept, has something to give, or the end
                    * to tell (POLLIN). */
    bool writable; /* Whether a send of a byte without descriptors has room (POLLOUT). */
    bool hung_up;  /* Whether the peer is gone, or both ends of the socket are closed (POLLHUP). */
};

/* A file. All fields but the kind are 0 where it is no socket. */
struct jw_file {
    uint32_t kind;     /* The kind of the file (enum jw_kind). */
    uint32_t state;    /* The state of the socket (enum jw_state). */
    uint64_t peer;     /* The inode number of the peer of a connected socket, or of the target, live
                        * or freed, of a datagram socket; else 0. */
    uint64_t messages; /* How many messages the socket can receive. */
    uint64_t embryos;  /* How many connections wait to be accepted at the listener. */
};

/* The counts of a check. */
struct jw_checked {
    uint64_t live;    /* How many files are live. */
    uint64_t garbage; /* How many of them no chain of queues and backlogs reaches from any table. */
};

/* ---- The engine ---- */

/* Makes an engine to which nothing has happened. An engine that was in the handle is freed, also
 * where the new one is refused. Answers 0.
 * Errors: JW_ENOMEM; the handle has no engine then. */
JW_MUST_USE JW_NONNULL(1)
int64_t jw_engine_new(jw_engine *engine);

/* Frees the engine, if there is one. The handle has no engine then. */
JW_NONNULL(1)
void jw_engine_free(jw_engine *engine);

/* Answers the version of the library that the program runs with, as JW_VERSION has that of the
 * header: the major number times 1000000, the minor number times 1000, and the patch. It needs no
 * engine. */
JW_MUST_USE
int64_t jw_version(void);

/* Returns the number of errno(3) for what a call answered: EBADF for -JW_EBADF and so on, and 0 for
 * 0 and more. Three errors are this library's own: JW_EIDLE becomes EINVAL, JW_ENOENGINE becomes
 * ENXIO, and JW_EDIFFERS, as all that no call answers, becomes EIO. */
static inline int jw_errno(int64_t answer) {
    switch (answer < 0 && answer > -1000 ? (int)-answer : 0) {
    case 0: return answer < 0 ? EIO : 0;
    case JW_EBADF: return EBADF;
    case JW_ENOTSOCK: return ENOTSOCK;
    case JW_EINVAL: return EINVAL;
    case JW_EMFILE: return EMFILE;
    case JW_ENFILE: return ENFILE;
    case JW_EAGAIN: return EAGAIN;
    case JW_EMSGSIZE: return EMSGSIZE;
    case JW_ETOOMANYREFS: return ETOOMANYREFS;
    case JW_ENOBUFS: return ENOBUFS;
    case JW_ENOTCONN: return ENOTCONN;
    case JW_EPIPE: return EPIPE;
    case JW_EISCONN: return EISCONN;
    case JW_EADDRINUSE: return EADDRINUSE;
    case JW_ECONNREFUSED: return ECONNREFUSED;
    case JW_EPROTOTYPE: return EPROTOTYPE;
    case JW_ESRCH: return ESRCH;
    case JW_ENOMEM: return ENOMEM;
    case JW_EBUSY: return EBUSY;
    case JW_ERANGE: return ERANGE;
    case JW_EPERM: return EPERM;
    case JW_EOPNOTSUPP: return EOPNOTSUPP;
    case JW_EIDLE: return EINVAL;
    case JW_ENOENGINE: return ENXIO;
    default: return EIO;
    }
}

/* Names what a call answered: "EBADF" for -JW_EBADF and so on, "OK" for 0 and more, and "unknown"
 * for what no call answers (strerrorname_np(3)). */
static inline const char *jw_strerror(int64_t answer) {
    switch (answer < 0 && answer > -1000 ? (int)-answer : 0) {
    case 0: return answer < 0 ? "unknown" : "OK";
    case JW_EBADF: return "EBADF";
    case JW_ENOTSOCK: return "ENOTSOCK";
    case JW_EINVAL: return "EINVAL";
    case JW_EMFILE: return "EMFILE";
    case JW_ENFILE: return "ENFILE";
    case JW_EAGAIN: return "EAGAIN";
    case JW_EMSGSIZE: return "EMSGSIZE";
    case JW_ETOOMANYREFS: return "ETOOMANYREFS";
    case JW_ENOBUFS: return "ENOBUFS";
    case JW_ENOTCONN: return "ENOTCONN";
    case JW_EPIPE: return "EPIPE";
    case JW_EISCONN: return "EISCONN";
    case JW_EADDRINUSE: return "EADDRINUSE";
    case JW_ECONNREFUSED: return "ECONNREFUSED";
    case JW_EPROTOTYPE: return "EPROTOTYPE";
    case JW_ESRCH: return "ESRCH";
    case JW_ENOMEM: return "ENOMEM";
    case JW_EBUSY: return "EBUSY";
    case JW_EIDLE: return "EIDLE";
    case JW_ERANGE: return "ERANGE";
    case JW_EPERM: return "EPERM";
    case JW_EOPNOTSUPP: return "EOPNOTSUPP";
    case JW_ENOENGINE: return "ENOENGINE";
    case JW_EDIFFERS: return "EDIFFERS";
    default: return "unknown";
    }
}

/* ---- Processes and their tables ---- */

/* Starts a process of this user, as after fork(2) and setuid(2), with an empty table and a limit on
 * its descriptors (RLIMIT_NOFILE, getrlimit(2)). A privileged process is not held to its user's
 * share of descriptors in flight (unix(7), CAP_SYS_RESOURCE). Answers its pid.
 * Errors: JW_ERANGE, JW_EAGAIN, JW_ENOMEM. */
JW_MUST_USE JW_NONNULL(1)
int64_t jw_spawn(jw_engine *engine, uint32_t uid, uint32_t nofile, bool privileged);

/* Opens a plain file (open(2)). Answers its descriptor, the lowest that is free.
 * Errors: JW_ESRCH, JW_EMFILE, JW_ENFILE, JW_ENOMEM. */
JW_MUST_USE JW_NONNULL(1)
int64_t jw_open(jw_engine *engine, uint32_t pid);

/* Duplicates a descriptor (dup(2)). Answers the new descriptor, the lowest that is free. Needs no
 * memory where a higher one is open.
 * Errors: JW_ESRCH, JW_EBADF, JW_EMFILE, JW_ENOMEM. */
JW_MUST_USE JW_NONNULL(1)
int64_t jw_dup(jw_engine *engine, uint32_t pid, uint32_t fd);

/* Duplicates a descriptor at a given number, in place of what that number had (dup2(2)). Answers
 * that number. Needs no memory where it or a higher one is open: so one such call reserves room for
 * all below.
 * Errors: JW_ESRCH, JW_EBADF, JW_ENOMEM. */
JW_MUST_USE JW_NONNULL(1)
int64_t jw_dup2(jw_engine *engine, uint32_t pid, uint32_t from, uint32_t to);

/* Closes a descriptor (close(2)). Answers 0.
 * Errors: JW_ESRCH, JW_EBADF. */
JW_NONNULL(1)
int64_t jw_close(jw_engine *engine, uint32_t pid, uint32_t fd);

/* Makes a child of the process, with a copy of its table (fork(2)). Answers the child's pid.
 * Errors: JW_ESRCH, JW_EAGAIN, JW_ENOMEM. */
JW_MUST_USE JW_NONNULL(1)
int64_t jw_fork(jw_engine *engine, uint32_t pid);

/* Changes the limit on the process's descriptors, to a lower or a higher one (setrlimit(2),
 * RLIMIT_NOFILE). There is no hard limit. Open descriptors stay open, also at or above the limit.
 * Answers 0.
 * Errors: JW_ESRCH, JW_ERANGE. */
JW_MUST_USE JW_NONNULL(1)
int64_t jw_limit(jw_engine *engine, uint32_t pid, uint32_t nofile);

/* Ends the process and closes its descriptors (_exit(2)). Answers 0.
 * Errors: JW_ESRCH. */
JW_NONNULL(1)
int64_t jw_exit(jw_engine *engine, uint32_t pid);

/* ---- Sockets ---- */

/* Makes two connected sockets of type JW_STREAM, JW_SEQPACKET or JW_DGRAM (socketpair(2)), and
 * writes their descriptors. Answers 0.
 * Errors: JW_EINVAL for another type, before all else; JW_ESRCH, JW_EMFILE, JW_ENFILE,
 * JW_ENOMEM. */
JW_MUST_USE JW_NONNULL(1, 4)
int64_t jw_pair(jw_engine *engine, uint32_t pid, uint32_t kind, struct jw_pair *out);

/* Makes a socket of type JW_STREAM, JW_SEQPACKET or JW_DGRAM (socket(2)). Answers its descriptor.
 * Errors: JW_EINVAL for another type, before all else; JW_ESRCH, JW_EMFILE, JW_ENFILE,
 * JW_ENOMEM. */
JW_MUST_USE JW_NONNULL(1)
int64_t jw_socket(jw_engine *engine, uint32_t pid, uint32_t kind);

/* Gives a socket an abstract name (bind(2), unix(7)): 1 to 107 letters, digits, '-', '.' and '_'.
 * Answers 0.
 * Errors: JW_ESRCH, JW_EBADF, JW_ENOTSOCK, JW_EINVAL, JW_EADDRINUSE, JW_ENOMEM. */
JW_MUST_USE JW_NONNULL(1)
int64_t jw_bind(jw_engine *engine, uint32_t pid, uint32_t fd, const void *name, size_t len);

/* Lets a socket with a name wait for connections, with room for 1 to 128 (listen(2)). Answers 0.
 * Errors: JW_ESRCH, JW_EBADF, JW_ENOTSOCK, JW_EOPNOTSUPP for a datagram socket, JW_EINVAL,
 * JW_ENOMEM. */
JW_MUST_USE JW_NONNULL(1)
int64_t jw_listen(jw_engine *engine, uint32_t pid, uint32_t fd, uint32_t backlog);

/* Closes an end of a socket, or both (shutdown(2)): its input for JW_SHUT_RD, its output for
 * JW_SHUT_WR, both for JW_SHUT_RDWR; and with them the peer's output or input, but not a target's.
 * What waits can still be received. An end is never opened again. Answers 0.
 * Errors: JW_EINVAL for another number, before all else; JW_ESRCH, JW_EBADF, JW_ENOTSOCK. */
JW_MUST_USE JW_NONNULL(1)
int64_t jw_shutdown(jw_engine *engine, uint32_t pid, uint32_t fd, uint32_t how);

/* Leaves a datagram socket without a target (connect(2) to AF_UNSPEC). If it had one, what waits
 * there is lost. Answers 0.
 * Errors: JW_ESRCH, JW_EBADF, JW_ENOTSOCK, JW_EINVAL for a socket of another type. */
JW_MUST_USE JW_NONNULL(1)
int64_t jw_unconnect(jw_engine *engine, uint32_t pid, uint32_t fd);

/* Connects a socket to the listener of this name, without waiting (connect(2)). The socket is
 * connected immediately, and the other end waits to be accepted. Answers 0.
 * A datagram socket sends to the one of this name from now on, its target. If it sent to another,
 * what waits at it is lost.
 * Errors: JW_ESRCH, JW_EBADF, JW_ENOTSOCK, JW_EINVAL, JW_EISCONN; for a datagram socket
 * JW_ECONNREFUSED, and JW_EPERM where the target sends to another; for others JW_ECONNREFUSED,
 * JW_EPROTOTYPE, JW_EAGAIN, JW_ENFILE, JW_ENOMEM. */
JW_MUST_USE JW_NONNULL(1)
int64_t jw_connect(jw_engine *engine, uint32_t pid, uint32_t fd, const void *name, size_t len);

/* Accepts the connection that waits longest at a listener (accept(2)). Answers the new socket's
 * descriptor, the lowest that is free. Needs no memory where a higher one is open.
 * Errors: JW_ESRCH, JW_EBADF, JW_ENOTSOCK, JW_EOPNOTSUPP for a datagram socket, JW_EINVAL,
 * JW_EAGAIN, JW_EMFILE, JW_ENOMEM. */
JW_MUST_USE JW_NONNULL(1)
int64_t jw_accept(jw_engine *engine, uint32_t pid, uint32_t fd);

/* ---- Messages ---- */

/* Sends 1 to 65536 bytes, and with them the files of at most 253 descriptors (sendmsg(2) with
 * SCM_RIGHTS; unix(7), cmsg(3)). The bytes are copied once. Memory is requested after all other
 * tests. Answers how many bytes were sent, which is all of them.
 * Errors: JW_ESRCH, JW_EBADF, JW_ENOTSOCK, JW_EINVAL, JW_EMSGSIZE, JW_EBADF for one of fds,
 * JW_ENOTCONN, JW_EPIPE where the peer is gone or the socket's output is closed; for a datagram
 * socket JW_ENOTCONN without a target, JW_ECONNREFUSED where it is gone, JW_EPERM where it sends to
 * another; JW_ETOOMANYREFS, JW_ENOBUFS, JW_EPIPE where the peer's input is closed, JW_EAGAIN,
 * JW_ENOMEM. */
JW_MUST_USE JW_NONNULL(1)
int64_t jw_send(jw_engine *engine, uint32_t pid, uint32_t fd, const void *bytes, size_t len,
                const uint32_t *fds, size_t nfds);

/* Receives at most len bytes, 1 or more, and at most nfds descriptors (recvmsg(2) with SCM_RIGHTS).
 * More room than 65536 bytes is taken for 65536. Writes the bytes and the new descriptors, and to
 * out how many descriptors there are and what did not fit. Answers how many bytes it wrote, or 0
 * where nothing is left, and the peer is gone or the socket's input closed.
 * A packet's bytes beyond len are dropped; a stream's wait for the next receive. Descriptors beyond
 * nfds or beyond the free ones are closed. Needs no memory for a packet that brings no descriptors,
 * or up to 4 where the highest below the process's limit is open.
 * Errors: JW_ESRCH, JW_EBADF, JW_ENOTSOCK, JW_EINVAL, JW_ENOTCONN, JW_EAGAIN, JW_ENOMEM. */
JW_MUST_USE JW_NONNULL(1, 8)
int64_t jw_recv(jw_engine *engine, uint32_t pid, uint32_t fd, void *bytes, size_t len,
                uint32_t *fds, size_t nfds, struct jw_received *out);

/* Writes and answers what jw_recv would, but takes nothing from the queue (recvmsg(2), MSG_PEEK).
 * The descriptors are installed and also stay in the queue, where they are still charged. A second
 * peek installs them again. Bytes and descriptors that do not fit stay in the queue too.
 * Errors: JW_ESRCH, JW_EBADF, JW_ENOTSOCK, JW_EINVAL, JW_ENOTCONN, JW_EAGAIN, JW_ENOMEM. */
JW_MUST_USE JW_NONNULL(1, 8)
int64_t jw_peek(jw_engine *engine, uint32_t pid, uint32_t fd, void *bytes, size_t len,
                uint32_t *fds, size_t nfds, struct jw_received *out);

/* ---- The collector ---- */

/* Begins a pass of the collector, and writes its number. It costs the same with few files and with
 * many, except once in 2^32 passes. Answers 0.
 * Errors: JW_EBUSY. */
JW_MUST_USE JW_NONNULL(1, 2)
int64_t jw_begin(jw_engine *engine, uint64_t *pass);

/* Continues the pass by at most budget units, 1 to 65536; a unit visits, scans or sweeps one file.
 * Answers 1 while the pass runs. Answers 0 when it is over, and writes what jw_pass writes.
 * Errors: JW_EIDLE, JW_EINVAL. */
JW_MUST_USE JW_NONNULL(1, 3)
int64_t jw_slice(jw_engine *engine, uint32_t budget, struct jw_finished *out);

/* Does a whole pass at once: reclaims what no process can reach. Writes the number of the pass, and
 * how many sockets were garbage. Answers 0.
 * Errors: JW_EBUSY. */
JW_MUST_USE JW_NONNULL(1, 2)
int64_t jw_pass(jw_engine *engine, struct jw_finished *out);

/* ---- What can be seen. None changes the engine; jw_check and jw_graph take memory. ---- */

/* Writes the inode number of the file that a descriptor refers to, or 0 where the descriptor is not
 * open or there is no such process. Answers 0. */
JW_NONNULL(1, 4)
int64_t jw_ino(const jw_engine *engine, uint32_t pid, uint32_t fd, uint64_t *ino);

/* Answers the lowest open descriptor of a process that is not below from, and writes the inode
 * number of its file. A walk over a table asks again from the next number.
 * Errors: JW_EBADF; no descriptor is open from there on, or there is no such process. */
JW_MUST_USE JW_NONNULL(1, 4)
int64_t jw_next_fd(const jw_engine *engine, uint32_t pid, uint32_t from, uint64_t *ino);

/* Writes what a descriptor is ready for (poll(2)): what its next receive, accept or send finds. So
 * an idle or hung-up socket is not writable, unlike in Linux. A datagram socket is writable where a
 * send would not be JW_EAGAIN. A plain file is always readable and writable. Answers 0.
 * Errors: JW_ESRCH, JW_EBADF. */
JW_MUST_USE JW_NONNULL(1, 4)
int64_t jw_poll(const jw_engine *engine, uint32_t pid, uint32_t fd, struct jw_ready *out);

/* Writes how many places in tables, queues and backlogs hold the file: its reference count. Writes
 * 0 for an unknown file. Answers 0. */
JW_NONNULL(1, 3)
int64_t jw_refs(const jw_engine *engine, uint64_t ino, uint64_t *count);

/* Writes how often the file is in flight, repeats included (unix(7), SCM_RIGHTS). Writes 0 for an
 * unknown file. Answers 0. */
JW_NONNULL(1, 3)
int64_t jw_inflight(const jw_engine *engine, uint64_t ino, uint64_t *count);

/* Writes how many descriptors in flight are charged to the user (unix(7), ETOOMANYREFS). Writes 0
 * for an unknown user. Answers 0. */
JW_NONNULL(1, 3)
int64_t jw_charged(const jw_engine *engine, uint32_t uid, uint64_t *count);

/* Writes how many descriptors are in flight. Answers 0. */
JW_NONNULL(1, 2)
int64_t jw_total(const jw_engine *engine, uint64_t *count);

/* Writes how many files are live. Answers 0. */
JW_NONNULL(1, 2)
int64_t jw_live(const jw_engine *engine, uint64_t *count);

/* Writes the least live file above ino, or 0 where there is none. A walk from 0 on comes to every
 * live file. Answers 0. */
JW_NONNULL(1, 3)
int64_t jw_next_after(const jw_engine *engine, uint64_t ino, uint64_t *next);

/* Answers the pid that the next process gets. */
JW_MUST_USE JW_NONNULL(1)
int64_t jw_next_pid(const jw_engine *engine);

/* Writes what the file is. Writes JW_NO_FILE as the kind of an unknown file. Answers 0. */
JW_NONNULL(1, 3)
int64_t jw_file(const jw_engine *engine, uint64_t ino, struct jw_file *out);

/* Writes the abstract name of a socket (unix(7)), as many bytes as there is room for. Answers how
 * many bytes the name has: 0 where the file has none, or is unknown. It needs no memory. */
JW_MUST_USE JW_NONNULL(1)
int64_t jw_name(const jw_engine *engine, uint64_t ino, void *name, size_t len);

/* Writes a picture of all files, with what refers to each, in the language of Graphviz; garbage is
 * pink. Writes as many bytes as there is room for. Answers how many bytes the picture has.
 * Errors: JW_ENOMEM. */
JW_MUST_USE JW_NONNULL(1)
int64_t jw_graph(const jw_engine *engine, void *text, size_t len);

/* Counts all places anew, compares each number that the engine keeps with that count, and writes
 * how many files are live and how many of them are garbage. Answers 0.
 * Errors: JW_ENOMEM. */
JW_MUST_USE JW_NONNULL(1, 2)
int64_t jw_check(const jw_engine *engine, struct jw_checked *out);

/* ---- Freed files, and sockets whose readiness may have changed ---- */

/* Asks for the list of freed files, which jw_released writes, and empties both lists. A call that
 * makes a file reserves room in the list from now on, so a call that frees files needs no memory.
 * Answers 0.
 * Errors: JW_ENOMEM. */
JW_MUST_USE JW_NONNULL(1)
int64_t jw_tell_released(jw_engine *engine);

/* Asks for the list of sockets whose readiness may have changed (poll(2)), which jw_changed writes,
 * and empties both lists. A call that makes a file reserves room in the list from now on, so no
 * other call needs memory for it. Answers 0.
 * Errors: JW_ENOMEM. */
JW_MUST_USE JW_NONNULL(1)
int64_t jw_tell_changed(jw_engine *engine);

/* Writes the inode numbers of the files that were freed since the lists were emptied last, each
 * once, as many as there is room for. Answers the length of the list, which is 0 before
 * jw_tell_released. It needs no memory. */
JW_MUST_USE JW_NONNULL(1)
int64_t jw_released(const jw_engine *engine, uint64_t *inos, size_t ninos);

/* Writes the inode numbers of the live sockets whose readiness may have changed since the lists
 * were emptied last, each once, as many as there is room for. Answers the length of the list, which
 * is 0 before jw_tell_changed. It needs no memory.
 * For a socket that is not in the list, and whose peer or target is not, jw_poll writes what it did
 * then; but not where its target was freed since, which jw_released tells. */
JW_MUST_USE JW_NONNULL(1)
int64_t jw_changed(const jw_engine *engine, uint64_t *inos, size_t ninos);

/* Empties both lists. It needs no memory. Answers 0. */
JW_NONNULL(1)
int64_t jw_clear_told(jw_engine *engine);

/* ---- Null pointers ---- */

/* The functions in the library take no null pointer, also where a length is 0. C and C++ call them
 * by what follows, which takes one; other languages call them by name. */

/* Returns where to read so much from: where it is nothing, a place that is not null. */
static inline const void *jw_source(const void *at, size_t length) {
    static const uint64_t nothing = 0;
    return length > 0 ? at : &nothing;
}

/* Returns where to write so much to: where it is nothing, a place that is not null. */
static inline void *jw_target(void *at, size_t length) {
    static uint64_t nothing;
    return length > 0 ? at : &nothing;
}

static inline void jw_inline_engine_free(jw_engine *engine) {
    if (engine)
        jw_engine_free(engine);
}
#define jw_engine_free jw_inline_engine_free

JW_MUST_USE JW_NONNULL(1)
static inline int64_t jw_inline_send(jw_engine *engine, uint32_t pid, uint32_t fd,
                                     const void *bytes, size_t len, const uint32_t *fds,
                                     size_t nfds) {
    return jw_send(engine, pid, fd, jw_source(bytes, len), len,
                   (const uint32_t *)jw_source(fds, nfds), nfds);
}
#define jw_send jw_inline_send

JW_MUST_USE JW_NONNULL(1, 8)
static inline int64_t jw_inline_recv(jw_engine *engine, uint32_t pid, uint32_t fd, void *bytes,
                                     size_t len, uint32_t *fds, size_t nfds,
                                     struct jw_received *out) {
    return jw_recv(engine, pid, fd, jw_target(bytes, len), len, (uint32_t *)jw_target(fds, nfds),
                   nfds, out);
}
#define jw_recv jw_inline_recv

JW_MUST_USE JW_NONNULL(1, 8)
static inline int64_t jw_inline_peek(jw_engine *engine, uint32_t pid, uint32_t fd, void *bytes,
                                     size_t len, uint32_t *fds, size_t nfds,
                                     struct jw_received *out) {
    return jw_peek(engine, pid, fd, jw_target(bytes, len), len, (uint32_t *)jw_target(fds, nfds),
                   nfds, out);
}
#define jw_peek jw_inline_peek

JW_MUST_USE JW_NONNULL(1)
static inline int64_t jw_inline_bind(jw_engine *engine, uint32_t pid, uint32_t fd, const void *name,
                                     size_t len) {
    return jw_bind(engine, pid, fd, jw_source(name, len), len);
}
#define jw_bind jw_inline_bind

JW_MUST_USE JW_NONNULL(1)
static inline int64_t jw_inline_connect(jw_engine *engine, uint32_t pid, uint32_t fd,
                                        const void *name, size_t len) {
    return jw_connect(engine, pid, fd, jw_source(name, len), len);
}
#define jw_connect jw_inline_connect

JW_MUST_USE JW_NONNULL(1)
static inline int64_t jw_inline_name(const jw_engine *engine, uint64_t ino, void *name,
                                     size_t len) {
    return jw_name(engine, ino, jw_target(name, len), len);
}
#define jw_name jw_inline_name

JW_MUST_USE JW_NONNULL(1)
static inline int64_t jw_inline_graph(const jw_engine *engine, void *text, size_t len) {
    return jw_graph(engine, jw_target(text, len), len);
}
#define jw_graph jw_inline_graph

JW_MUST_USE JW_NONNULL(1)
static inline int64_t jw_inline_released(const jw_engine *engine, uint64_t *inos, size_t ninos) {
    return jw_released(engine, (uint64_t *)jw_target(inos, ninos), ninos);
}
#define jw_released jw_inline_released

JW_MUST_USE JW_NONNULL(1)
static inline int64_t jw_inline_changed(const jw_engine *engine, uint64_t *inos, size_t ninos) {
    return jw_changed(engine, (uint64_t *)jw_target(inos, ninos), ninos);
}
#define jw_changed jw_inline_changed

#ifdef __cplusplus
}
#endif

#endif
