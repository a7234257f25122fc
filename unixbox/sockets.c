/* Sockets: their making, their names, and their connections. */
#include "unixbox.h"

enum { TOKEN = 768 }; /* What a byte takes of a buffer (SIOCOUTQ). */
enum { KEY_ROOM = JW_MAX_NAME + 1, PATH_START = offsetof(struct sockaddr_un, sun_path) };

static const struct address unnamed = {{.sun_family = AF_UNIX}, PATH_START};

/* A socket is writable while at most a quarter of twice this number is taken. */
static void size_buffer(int host) {
    int bytes = 2 * JW_MAX_MESSAGES * TOKEN - 1;
    setsockopt(host, SOL_SOCKET, SO_SNDBUF, &bytes, sizeof bytes);
}

/* Gives a pair to the caller. Its numbers are written first: no descriptor can be taken back. */
static long give_pair(struct call *call, uint32_t *fds, bool closes_on_exec) {
    const uint32_t expected[] = {fds[0], fds[1]};
    if (!write_memory(call, call->args[3], fds, sizeof expected)) {
        close_fd(call->process, fds[0]);
        close_fd(call->process, fds[1]);
        return -EFAULT;
    }
    long result = install(call, fds, 2, closes_on_exec);
    if (result < 2) return result < 0 ? result : -EMFILE;
    if (memcmp(fds, expected, sizeof expected) == 0) return 0;
    return write_memory(call, call->args[3], fds, sizeof expected) ? 0 : -EFAULT;
}

/* Opens the placeholders of a socket or a pair. Of the supervisor's descriptors some are kept back:
 * without them, the error is ENFILE. */
static long open_placeholders(const struct call *call, bool is_pair, int *hosts) {
    int flags = (int)call->args[1] | SOCK_CLOEXEC, protocol = (int)call->args[2];
    hosts[0] = hosts[1] = -1;
    if (options.networks) setns(call->process->pidfd, CLONE_NEWNET); /* To be counted there. */
    int result = is_pair ? socketpair(AF_UNIX, flags, protocol, hosts)
                         : (hosts[0] = socket(AF_UNIX, flags, protocol));
    if (result >= 0 && keep_back(is_pair ? hosts[1] : hosts[0], KEPT_FOR_PROCESSES) >= 0) return 0;
    if (is_pair && result >= 0) close(hosts[0]);
    return errno == EMFILE ? -ENFILE : -errno;
}

/* Returns the layer's type for one of socket(2). Linux takes SOCK_RAW for SOCK_DGRAM, too. */
static uint32_t kind_of(int type) {
    if (type == SOCK_STREAM) return JW_STREAM;
    return type == SOCK_DGRAM || type == SOCK_RAW ? JW_DGRAM : JW_SEQPACKET;
}

/* Prepares a placeholder. That of a datagram socket has a name, by which others reach it. */
static void prepare_placeholder(const struct file *file) {
    struct sockaddr any = {.sa_family = AF_UNIX};
    size_buffer(file->host);
    if (file->kind == JW_DGRAM) bind(file->host, &any, sizeof any.sa_family);
}

long serve_socket(struct call *call) {
    static const char *const types[] = {[JW_STREAM] = "stream", [JW_SEQPACKET] = "seqpacket",
                                        [JW_DGRAM] = "dgram"};
    int flags = (int)call->args[1], hosts[2];
    bool is_pair = call->number == SYS_socketpair;
    uint32_t kind = kind_of(flags & 0xf);
    size_t count = is_pair ? 2 : 1;
    if ((int)call->args[0] != AF_UNIX) return KERNEL_DOES_IT;
    if (flags & ~(0xf | SOCK_CLOEXEC | SOCK_NONBLOCK)) return -EINVAL;
    long result = open_placeholders(call, is_pair, hosts);
    if (result < 0) return result;
    sync_table(call->process);
    struct jw_pair pair = {0, 0};
    int64_t answer = is_pair ? jw_pair(&engine, call->pid, kind, &pair)
                             : jw_socket(&engine, call->pid, kind);
    result = record(call->pid, answer, "%s %s", is_pair ? "pair" : "socket", types[kind]);
    for (size_t i = 0; result < 0 && i < count; i++)
        close(hosts[i]);
    if (result < 0) return result;
    call->process->fd_count += count;
    uint32_t fds[] = {is_pair ? pair.first : (uint32_t)result, pair.second};
    for (size_t i = 0; i < count; i++) {
        struct file *file = file_of(call->process, fds[i]);
        file->network = call->process->namespaces.network;
        if (is_pair) set_peer_process(file, call->process);
        if (is_pair) file->peer = unnamed;
        if (is_pair && kind == JW_DGRAM) file->target = state_of(file->ino).peer;
        file->host = hosts[i];
        prepare_placeholder(file);
    }
    if (is_pair) return give_pair(call, fds, flags & SOCK_CLOEXEC);
    result = install(call, fds, 1, flags & SOCK_CLOEXEC);
    return result < 0 ? result : fds[0];
}

/* A name as a call gives it, and the layer's. */
struct name {
    struct address address;
    char path[PATH_ROOM], key[KEY_ROOM]; /* The path is empty where the name is abstract. */
};

/* Reads a name of this length at an address. It has no key yet. */
static long read_name_at(const struct call *call, uint64_t at, socklen_t length, struct name *out) {
    const char *path = out->address.name.sun_path;
    out->address = (struct address){.length = length};
    out->path[0] = '\0';
    if (length < PATH_START || length > sizeof out->address.name) return -EINVAL;
    if (!read_memory(call, &out->address.name, at, length)) return -EFAULT;
    if (out->address.name.sun_family != AF_UNIX) return -EINVAL;
    if (length == PATH_START || path[0] == '\0') return 0;
    snprintf(out->path, sizeof out->path, "%.*s", (int)(length - PATH_START), path);
    out->address.length = PATH_START + (socklen_t)strlen(out->path) + 1;
    return 0;
}

/* Reads the name of a bind(2) or a connect(2). */
static long read_name(const struct call *call, struct name *out) {
    return read_name_at(call, call->args[1], (socklen_t)call->args[2], out);
}

/* Whether this is the name of the socket that a datagram socket sends to. */
bool names_target(const struct call *call, uint64_t at, socklen_t length) {
    const struct address *target = &call->file->peer;
    struct name name;
    return target->length > PATH_START && read_name_at(call, at, length, &name) == 0 &&
           name.address.length == target->length &&
           memcmp(&name.address.name, &target->name, target->length) == 0;
}

/* Gives a name its key: of a pathname, the device and the inode of its file. An abstract name has
 * any bytes, and each network namespace and each type its own: the key is a hash (FNV-1a). */
static long find_key(struct name *name, const struct file *socket, int file) {
    const uint8_t *bytes = (const uint8_t *)&name->address.name;
    uint64_t hash = 14695981039346656037u;
    struct stat found = {.st_mode = S_IFSOCK};
    if (file >= 0 && fstat(file, &found) < 0) return -errno;
    for (socklen_t i = PATH_START; i < name->address.length; i++)
        hash = (hash ^ bytes[i]) * 1099511628211u;
    hash = (hash ^ socket->network) * 1099511628211u;
    if (file >= 0)
        sprintf(name->key, "f.%lx.%lx", found.st_dev, found.st_ino);
    else
        sprintf(name->key, "%c.%016lx", " sq d"[socket->kind], hash);
    return S_ISSOCK(found.st_mode) ? 0 : -ECONNREFUSED;
}

/* Writes a name as far as there is room, and its length. */
long write_address(const struct call *call, uint64_t at, uint64_t length_at,
                   const struct address *address) {
    socklen_t length = address->length, room;
    if (!read_memory(call, &room, length_at, sizeof room)) return -EFAULT;
    if (room > INT_MAX) return -EINVAL;
    return write_memory(call, at, &address->name, room < length ? room : length) &&
           write_memory(call, length_at, &length, sizeof length) ? 0 : -EFAULT;
}

/* Makes the file of a socket that is bound to a pathname. */
static int make_file(const struct call *call, const struct name *name) {
    struct stat host = {.st_mode = 0777}; /* fchmod(2) may have changed it. */
    fstat(call->file->host, &host);
    read_status(call->tid, &call->process->status);
    mode_t mode = host.st_mode & 07777 & ~call->process->status.umask;
    int file = make_socket_file(call, name->path, mode);
    if (file < 0) return file == -EEXIST ? -EADDRINUSE : file;
    if (keep_back(file, KEPT_FOR_PROCESSES) >= 0) return file;
    remove_socket_file(call, name->path, file);
    return -ENFILE;
}

long serve_bind(struct call *call) {
    static unsigned next;
    struct name name;
    int file = -1;
    long result = read_name(call, &name);
    if (result < 0) return result;
    if (call->file->own.length > 0) return name.address.length == PATH_START ? 0 : -EINVAL;
    if (name.address.length == PATH_START) { /* The kernel would choose a name. */
        sprintf(name.address.name.sun_path + 1, "%05x", next++ & 0xfffff);
        name.address.length = PATH_START + 6;
    }
    if (name.path[0] != '\0' && (file = make_file(call, &name)) < 0) return file;
    result = find_key(&name, call->file, file);
    if (result == 0) {
        int64_t answer = jw_bind(&engine, call->pid, call->fd, name.key, strlen(name.key));
        result = record(call->pid, answer, "bind %u %s", call->fd, name.key);
    }
    if (result < 0 && file >= 0) remove_socket_file(call, name.path, file);
    if (result < 0) return result;
    call->file->own = name.address;
    call->file->path = file;
    return 0;
}

long serve_name(struct call *call) {
    const struct file *file = call->file;
    const struct address *own = file->own.length > 0 ? &file->own : &unnamed;
    bool is_peer = call->number == SYS_getpeername;
    if (is_peer && file->peer.length == 0) return -ENOTCONN;
    return write_address(call, call->args[1], call->args[2], is_peer ? &file->peer : own);
}

long serve_listen(struct call *call) {
    struct sockaddr any = {.sa_family = AF_UNIX};
    uint32_t most = (uint32_t)call->args[1] + 1; /* Linux lets one more wait, too. */
    if (most == 0 || most > JW_MAX_BACKLOG) most = JW_MAX_BACKLOG;
    if (call->file->listens) return 0;
    long result = record(call->pid, jw_listen(&engine, call->pid, call->fd, most),
                         "listen %u %u", call->fd, most);
    if (result < 0) return result;
    call->file->listens = true;
    set_peer_process(call->file, call->process); /* Whom its clients see. */
    bind(call->file->host, &any, sizeof any.sa_family);
    listen(call->file->host, INT_MAX);
    return 0;
}

/* connect(2) of a datagram socket to AF_UNSPEC. */
static long unconnect(struct call *call) {
    struct file *file = call->file;
    bool loses = state_of(file->ino).peer != 0;
    long result = record(call->pid, jw_unconnect(&engine, call->pid, call->fd), "unconnect %u",
                         call->fd);
    if (result < 0) return result;
    file->peer.length = 0;
    turn_placeholder(file, NULL, loses);
    return 0;
}

/* Lets the placeholder of a datagram socket, which had this target before, follow it to another. */
static long follow_target(struct file *file, uint64_t before) {
    const struct file *target = peer_of(file);
    file->peer = target->own;
    turn_placeholder(file, target, before != 0 && before != target->ino);
    return 0;
}

/* Whether a connect(2) is of a datagram socket to AF_UNSPEC. */
static bool is_to_none(const struct call *call) {
    sa_family_t family = AF_UNIX;
    return call->file->kind == JW_DGRAM && call->args[2] >= sizeof family &&
           read_memory(call, &family, call->args[1], sizeof family) && family == AF_UNSPEC;
}

long serve_connect(struct call *call) {
    struct name name;
    struct file *client = call->file, *listener = client;
    struct sockaddr_un host;
    socklen_t length = sizeof host;
    uint64_t inos[4], before = state_of(client->ino).peer;
    if (is_to_none(call)) return unconnect(call);
    long result = read_name(call, &name);
    if (result == 0 && name.address.length == PATH_START) result = -EINVAL;
    if (result < 0) return result;
    int file = name.path[0] != '\0' ? open_socket_file(call, name.path) : -1;
    if (name.path[0] != '\0' && file < 0) return file;
    result = find_key(&name, client, file);
    if (file >= 0) close(file);
    if (result < 0) return result;
    int64_t answer = jw_connect(&engine, call->pid, call->fd, name.key, strlen(name.key));
    result = record(call->pid, answer, "connect %u %s", call->fd, name.key);
    if (result < 0) return result == -EAGAIN ? wait_for(call, 0, EVERYONE) : result;
    if (client->kind == JW_DGRAM) return follow_target(client, before);
    int64_t count = jw_changed(&engine, inos, 4); /* One of these is the listener. */
    for (int64_t i = 0; i < count && i < 4; i++)
        if (file_at(inos[i])->listens) listener = file_at(inos[i]);
    getsockname(listener->host, (struct sockaddr *)&host, &length);
    connect(client->host, (struct sockaddr *)&host, length);
    struct file *embryo = peer_of(client);
    embryo->is_embryo = true;
    embryo->own = client->peer = listener->own;
    embryo->peer = client->own.length > 0 ? client->own : unnamed;
    embryo->passes_users = listener->passes_users;
    embryo->network = client->network;
    set_peer(client, listener->peer_user, listener->peer_groups);
    set_peer_process(embryo, call->process);
    return 0;
}

long serve_accept(struct call *call) {
    int flags = call->number == SYS_accept4 ? (int)call->args[3] : 0;
    struct pollfd ask = {call->file->host, POLLIN | POLLRDHUP, 0};
    if (flags & ~(SOCK_CLOEXEC | SOCK_NONBLOCK)) return -EINVAL;
    sync_table(call->process);
    long result = record(call->pid, jw_accept(&engine, call->pid, call->fd), "accept %u", call->fd);
    poll(&ask, 1, 0);
    if (result == -EAGAIN && (ask.revents & POLLRDHUP)) return -EINVAL; /* None is to come. */
    if (result < 0) return result == -EAGAIN ? wait_for(call, 0, call->file->ino) : result;
    uint32_t fd = (uint32_t)result;
    call->process->fd_count++;
    struct file *file = file_of(call->process, fd);
    file->is_embryo = false;
    int host = -1;
    if (ask.revents & POLLIN) /* Connections wait in the order of the layer. */
        host = accept4(ask.fd, NULL, NULL, flags | SOCK_CLOEXEC);
    file->host = keep_back(host, KEPT_FOR_PROCESSES);
    if (file->host >= 0) size_buffer(file->host);
    bool has_place = call->args[1] != 0;
    result = has_place ? write_address(call, call->args[1], call->args[2], &file->peer) : 0;
    if (result < 0) close_fd(call->process, fd); /* Linux loses the connection, too. */
    if (result == 0) result = install(call, &fd, 1, flags & SOCK_CLOEXEC);
    if (result < 0) return file->host < 0 ? -ENFILE : result;
    return fd;
}

/* The placeholder is shut, too: poll(2) tells more of an end than the layer. One of a datagram
 * socket may have to send itself bytes as long as its input is open. */
long serve_shutdown(struct call *call) {
    static const char *const ends[] = {"read", "write", "both"};
    uint32_t how = (uint32_t)call->args[1];
    if (how > JW_SHUT_RDWR) return -EINVAL;
    long result = record(call->pid, jw_shutdown(&engine, call->pid, call->fd, how),
                         "shutdown %u %s", call->fd, ends[how]);
    if (result < 0) return result;
    bool is_datagram = call->file->kind == JW_DGRAM;
    call->file->shut |= is_datagram ? (int)how + 1 : 0;
    if (is_datagram) how = call->file->shut == 3 ? JW_SHUT_RDWR : JW_SHUT_RD;
    if (!is_datagram || call->file->shut != 2) shutdown(call->file->host, (int)how);
    return 0;
}
