/* Placeholders: sockets of the host that stand for the layer's in tables of programs. They are
 * connected as the layer's are, and bytes between two stand for messages. Their buffers are so large
 * that one is writable exactly if the peer's has fewer bytes than the layer's queue has room for. */
#include "unixbox.h"

enum { FEW_DATAGRAMS = 8 }; /* They do not fill a placeholder. */

struct file_list files[FILE_SLOTS];
static struct file_list stale = LIST_HEAD_INITIALIZER(stale);
static bool tells_edges; /* A program may see each message come, not only whether there is one. */

void *copy_of(const void *value, size_t size) {
    void *copy = malloc(size);
    if (copy == NULL) abort();
    return memcpy(copy, value, size);
}

/* Returns the supervisor's limit, which it sets at its start only. */
static long most_descriptors(void) {
    static long most;
    if (most == 0) most = sysconf(_SC_OPEN_MAX);
    return most;
}

/* Returns a new descriptor of the supervisor, or closes it where fewer than `count` would be left
 * for other uses. Then the error is EMFILE. */
int keep_back(int host, int count) {
    if (host < 0 || host < most_descriptors() - count) return host;
    close(host);
    errno = EMFILE;
    return -1;
}

struct jw_file state_of(uint64_t ino) {
    struct jw_file state;
    jw_file(&engine, ino, &state);
    return state;
}

struct file *file_at(uint64_t ino) {
    struct file_list *slot = &files[ino % FILE_SLOTS];
    struct file *it;
    LIST_FOREACH(it, slot, entries)
        if (it->ino == ino) return it;
    struct file file = {.ino = ino, .kind = state_of(ino).kind, .host = -1, .path = -1,
                        .low_water = 1};
    if (file.kind == JW_NO_FILE) return NULL;
    it = copy_of(&file, sizeof file);
    TAILQ_INIT(&it->queue);
    LIST_INSERT_HEAD(slot, it, entries);
    return it;
}

struct file *file_of(const struct process *process, uint64_t fd) {
    uint64_t ino = 0;
    if (fd < JW_MAX_NOFILE) jw_ino(&engine, process->pid, (uint32_t)fd, &ino);
    return ino != 0 ? file_at(ino) : NULL;
}

struct file *peer_of(const struct file *file) {
    uint64_t peer = state_of(file->ino).peer;
    return peer != 0 ? file_at(peer) : NULL;
}

void free_file(struct file *file) {
    LIST_REMOVE(file, entries);
    if (file->is_stale) LIST_REMOVE(file, stale_entries);
    if (file->host >= 0) close(file->host);
    if (file->path >= 0) close(file->path);
    set_peer(file, file->peer_user, NULL);
    free(file);
}

/* Closes the placeholder of a socket that is hung up and only in flight, if few descriptors are
 * left. Such a socket is ready for what any other is. */
void close_spare_placeholder(struct file *file) {
    uint64_t refs, inflight;
    if (state_of(file->ino).state != JW_HUNG_UP) return;
    jw_refs(&engine, file->ino, &refs);
    jw_inflight(&engine, file->ino, &inflight);
    if (refs > inflight || file->host < most_descriptors() / 2) return;
    close(file->host);
    file->host = -1;
}

/* Opens the placeholder of a socket once more, if that is hung up. */
void reopen_placeholder(struct file *file) {
    int hosts[2], type = file->kind == JW_STREAM ? SOCK_STREAM : SOCK_SEQPACKET;
    if (state_of(file->ino).state != JW_HUNG_UP) return;
    if (socketpair(AF_UNIX, type | SOCK_CLOEXEC, 0, hosts) < 0) return;
    close(hosts[1]);
    file->host = hosts[0];
}

/* Notes that a socket may be ready for something else than its placeholder is. */
void touch(struct file *file) {
    if (file->is_stale) return;
    file->is_stale = true;
    LIST_INSERT_HEAD(&stale, file, stale_entries);
}

/* Adds bytes to a placeholder. They come from the peer's; to a datagram socket's from the one to
 * which it is connected, or else from itself. */
static void add_tokens(struct file *file, uint64_t peer, uint64_t count) {
    struct sockaddr_un name, *to = NULL;
    socklen_t length = 0;
    if (file->kind == JW_DGRAM) {
        peer = file->target != 0 ? file->target : file->ino;
        length = sizeof name;
        getsockname(file->host, (struct sockaddr *)(to = &name), &length);
    }
    const struct file *from = peer != 0 ? file_at(peer) : NULL;
    while (from != NULL && count-- > 0 && sendto(from->host, "", 1, MSG_DONTWAIT | MSG_NOSIGNAL,
                                                 (struct sockaddr *)to, length) == 1)
        file->tokens++;
}

/* Takes bytes out of a placeholder until so many are left: many by one call on a stream. */
static void drop_tokens(struct file *file, uint64_t count) {
    char dropped[2 * JW_MAX_MESSAGES];
    while (file->tokens > count) {
        uint64_t most = file->kind == JW_STREAM ? file->tokens - count : 1;
        ssize_t length = recv(file->host, dropped, lesser(most, sizeof dropped), MSG_DONTWAIT);
        if (length <= 0) return;
        file->tokens -= (uint64_t)length;
    }
}

/* Connects the placeholder of a datagram socket as the socket is, or to none. Where this loses what
 * waits at the socket, the kernel loses the bytes. */
void turn_placeholder(struct file *file, const struct file *target, bool loses) {
    struct sockaddr_un name = {.sun_family = AF_UNSPEC};
    socklen_t length = sizeof name;
    if (target != NULL) getsockname(target->host, (struct sockaddr *)&name, &length);
    connect(file->host, (struct sockaddr *)&name, length);
    file->target = target != NULL ? target->ino : 0;
    if (loses) drop_queue(file);
    if (loses) file->tokens = file->messages = 0;
    touch(file);
}

/* Makes a placeholder ready for what its socket is ready for. There are bytes in it where there are
 * messages, if only one that is held back, and as many as fill it where the queue is full. Bytes of
 * received messages may stay meanwhile. Where edges are told, each new message adds a byte. Many
 * bytes fill the placeholder of a datagram socket, as net.unix.max_dgram_qlen says. */
void refresh(struct file *file) {
    struct jw_file state = state_of(file->ino);
    uint64_t few = file->kind == JW_DGRAM ? FEW_DATAGRAMS : JW_MAX_MESSAGES - 1;
    uint64_t count = state.messages > 0 ? state.messages : file->held != NULL;
    bool is_full = count >= JW_MAX_MESSAGES;
    uint64_t least = is_full ? JW_MAX_MESSAGES : count > 0;
    uint64_t most = is_full ? UINT64_MAX : count > 0 ? few : 0;
    uint64_t added = tells_edges && count > file->messages ? count - file->messages : 0;
    if (file->tokens + added < least) added = least - file->tokens;
    if (file->tokens + added > most) drop_tokens(file, count - added);
    if (added > 0) add_tokens(file, state.peer, added);
    file->messages = count;
}

/* Refreshes all that were touched, before a caller goes on. */
void refresh_touched(void) {
    for (struct file *it; (it = LIST_FIRST(&stale)) != NULL;) {
        LIST_REMOVE(it, stale_entries);
        it->is_stale = false;
        refresh(it);
    }
}

/* Lets placeholders tell each message from now on, which SIGIO and epoll(7) with EPOLLET or
 * EPOLLEXCLUSIVE do. Without these, one byte is enough for a queue that is not full. */
void tell_edges(void) {
    tells_edges = true;
}

/* Looks for an instance of epoll(7) that the program inherits. */
void look_for_epoll(void) {
    char kind[32];
    DIR *table = opendir("/proc/self/fd");
    if (table == NULL) return tell_edges();
    for (struct dirent *it; (it = readdir(table)) != NULL;) {
        ssize_t length = readlinkat(dirfd(table), it->d_name, kind, sizeof kind);
        if (length > 0 && memmem(kind, (size_t)length, "[eventpoll]", 11) != NULL) tell_edges();
    }
    closedir(table);
}

/* epoll_create(2) */
long serve_epoll(struct call *call) {
    (void)call;
    tell_edges();
    return KERNEL_DOES_IT;
}
