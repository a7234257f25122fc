/* Receives. Bytes are written to the caller before they leave their queue, and numbers of
 * descriptors before these are installed. So a bad address loses no bytes of a stream, and leaves
 * no descriptor that the program does not know of. */
#include "unixbox.h"

enum { USER_SPACE = CMSG_SPACE(sizeof(struct ucred)) };

/* Copies what there is to receive, at most so many bytes, and leaves it where it is. Returns how
 * many bytes that is, 0 at the end, or a negative errno, and how many of them the layer has. */
long look(const struct call *call, size_t length, size_t *queued) {
    struct jw_received got = {0, false, false};
    int64_t answer = jw_peek(&engine, call->pid, call->fd, message.bytes, length, NULL, 0, &got);
    bool is_stream = call->file->kind == JW_STREAM;
    size_t held = 0;
    message.has_files = got.ctrunc; /* There was no room for them. */
    *queued = answer > 0 ? (size_t)answer : 0;
    if (answer < 0 && answer != -JW_EAGAIN) return -jw_errno(answer);
    if (*queued == 0 || (is_stream && !message.has_files)) /* Descriptors end a receive. */
        held = copy_held(call->file, message.bytes + *queued, length - *queued);
    return *queued + held > 0 ? (long)(*queued + held) : -jw_errno(answer);
}

/* Takes so many bytes of the layer's queue, or a packet. Returns 0 or a negative errno. */
static long take_queued(const struct call *call, size_t length, size_t room) {
    struct jw_received got = {0, false, false};
    bool peeks = message.flags & MSG_PEEK;
    int64_t answer = (peeks ? jw_peek : jw_recv)(&engine, call->pid, call->fd, message.bytes,
                                                 length, message.fds, room, &got);
    long result = record(call->pid, answer, "%s %u %zu %zu", peeks ? "peek" : "recv", call->fd,
                         length, room);
    message.fd_count = got.fds;
    call->process->fd_count += got.fds;
    message.header.msg_flags |= got.ctrunc ? MSG_CTRUNC : 0;
    is_collection_due = is_collection_due || got.ctrunc;
    return result < 0 ? result : 0;
}

/* Takes so many bytes, or a packet, with at most so many descriptors. The first of the bytes are
 * those that the layer has. Returns 0 or a negative errno. */
long take(const struct call *call, size_t length, size_t queued, size_t room) {
    long result = queued > 0 ? take_queued(call, lesser(length, queued), room) : 0;
    if (result < 0 || (message.flags & MSG_PEEK)) return result;
    drop_received(call->file, length);
    if (queued > 0) return 0;
    touch(call->file); /* Of what was held back, the layer tells no change. */
    wake_ends(call->file);
    return 0;
}

/* Returns how many bytes a receive asks for at most. A packet without room is taken like one with
 * room for a byte. With SO_PASSCRED, a receive from a stream ends where another has sent. */
static size_t wanted(const struct call *call, bool has_user) {
    const struct file *file = call->file;
    if (file->kind != JW_STREAM) return message.length > 0 ? message.length : 1;
    const struct parcel *first = TAILQ_FIRST(&file->queue);
    if (!has_user || first == NULL) return message.length;
    const struct ucred *sender = call->moved > 0 ? &call->sender : &first->sender;
    return lesser(message.length, bytes_of_sender(file, sender));
}

/* Answers where there is nothing to receive: by 0 at the end, by an errno, or later. */
long receive_nothing(struct call *call, long result) {
    const struct file *file = call->file;
    message.is_end = result == 0;
    if (message.is_end) return take_reset(file) ? -ECONNRESET : 0;
    if (result != -EAGAIN) return file->kind == JW_STREAM && result == -ENOTCONN ? -EINVAL : result;
    result = wait_for(call, message.flags, file->ino);
    message.is_end = result == CALL_WAITS && (file->shut & 1); /* Of a datagram socket. */
    return message.is_end ? 0 : result;
}

/* Receives into the caller's places, with at most so many descriptors. Of a stream, only messages
 * that are written whole are taken where an address is bad. A packet is lost then. */
static long receive(struct call *call, size_t room, bool has_user) {
    struct file *file = call->file;
    const struct parcel *first = TAILQ_FIRST(&file->queue);
    size_t length = wanted(call, has_user), queued;
    bool is_packet = file->kind != JW_STREAM, peeks = message.flags & MSG_PEEK;
    if (length == 0) return 0; /* What is next, another has sent. */
    if (is_packet && take_reset(file)) return -ECONNRESET;
    long result = look(call, length, &queued);
    if (result <= 0) return receive_nothing(call, result);
    if (message.has_files && room > 0) sync_table(call->process);
    length = lesser((size_t)result, message.length);
    struct iovec here = {message.bytes, length};
    ssize_t written = process_vm_writev(call->tid, &here, 1, message.parts,
                                        message.header.msg_iovlen, 0);
    if (written < 0 && errno == ESRCH) return -ESRCH; /* The caller is over, and takes nothing. */
    if (written < (ssize_t)length) {
        length = is_packet ? 0 : bytes_of_whole_messages(file, written > 0 ? (size_t)written : 0);
        if (is_packet && !peeks) take(call, 1, queued, 0);
        if (length == 0) return -EFAULT;
    }
    call->sender = first->sender;
    message.from = first->from;
    size_t all = is_packet ? first->length : length;
    message.header.msg_flags |= all > length ? MSG_TRUNC : 0;
    result = take(call, is_packet ? (size_t)result : length, queued, room);
    if (result < 0) return result;
    return is_packet && (message.flags & MSG_TRUNC) ? (long)all : (long)length;
}

/* Adds a control message as far as there is room for it. Returns the length of all. */
static size_t add_control(size_t used, int type, const void *data, size_t size) {
    struct cmsghdr *header = (struct cmsghdr *)(message.control + used);
    size_t left = message.header.msg_controllen - used;
    message.header.msg_flags |= left < CMSG_LEN(size) ? MSG_CTRUNC : 0;
    if (left < CMSG_LEN(0)) return used;
    if (left < CMSG_LEN(size)) size = left - CMSG_LEN(0);
    memset(header, 0, CMSG_SPACE(size));
    *header = (struct cmsghdr){CMSG_LEN(size), SOL_SOCKET, type};
    memcpy(CMSG_DATA(header), data, size);
    return lesser(used + CMSG_SPACE(size), message.header.msg_controllen);
}

/* Writes so much control data, and its length and the flags into the msghdr. Returns how much of
 * the control data could be written. */
static size_t write_control(const struct call *call, size_t length) {
    struct msghdr header = message.header;
    const size_t start = offsetof(struct msghdr, msg_controllen), size = sizeof header - start;
    struct iovec here[] = {{message.control, length}, {(char *)&header + start, size}};
    struct iovec there[] = {{header.msg_control, length}, {(char *)message.at + start, size}};
    header.msg_controllen = length;
    ssize_t written = process_vm_writev(call->tid, here, 2, there, 2, 0);
    if (written != (ssize_t)(length + size))
        write_memory(call, message.at + start, here[1].iov_base, size);
    return written > 0 ? lesser((size_t)written, length) : 0;
}

/* Writes control data with the numbers of descriptors, and gives the caller those whose numbers are
 * written. Linux closes the others, too. */
static void give_files(struct call *call, size_t used) {
    uint32_t expected[JW_MAX_FD];
    size_t count = message.fd_count, size = count * sizeof *expected, start = used + CMSG_LEN(0);
    memcpy(expected, message.fds, size);
    size_t end = add_control(used, SCM_RIGHTS, message.fds, size);
    size_t written = write_control(call, end);
    size_t places = written > start ? lesser(count, (written - start) / sizeof *expected) : 0;
    for (size_t i = places; i < count; i++) close_fd(call->process, message.fds[i]);
    long given = install(call, message.fds, places, message.flags & MSG_CMSG_CLOEXEC);
    size_t given_size = given > 0 ? (size_t)given * sizeof *expected : 0;
    if (given_size == size && memcmp(message.fds, expected, size) == 0) return;
    message.header.msg_flags |= given_size < size ? MSG_CTRUNC : 0;
    end = given > 0 ? add_control(used, SCM_RIGHTS, message.fds, given_size) : used;
    write_control(call, end);
}

/* Writes the name of the sender where a receive asks for it. It is empty where there is none. */
static void write_sender(const struct call *call) {
    bool is_datagram = call->file->kind == JW_DGRAM;
    const struct address nobody = {.length = 0};
    const struct address *peer = is_datagram ? &message.from : &call->file->peer;
    bool has_name = !message.is_end && peer->length > sizeof peer->name.sun_family;
    bool has_header = message.at != 0;
    uint64_t at = has_header ? (uint64_t)message.header.msg_name : call->args[4];
    uint64_t length_at = has_header ? message.at + offsetof(struct msghdr, msg_namelen)
                                    : call->args[5];
    if (at != 0 && (has_header || call->number == SYS_recvfrom))
        write_address(call, at, length_at, has_name ? peer : &nobody);
}

/* Writes what a receive by a msghdr tells beside its bytes, and gives its descriptors. */
static void write_header(struct call *call, bool has_user) {
    struct ucred user = {0}; /* At the end. */
    if (has_user && !message.is_end) user = user_told_to(call, call->sender);
    size_t used = has_user ? add_control(0, SCM_CREDENTIALS, &user, sizeof user) : 0;
    if (message.fd_count > 0)
        give_files(call, used);
    else
        write_control(call, used);
}

/* Whether a receive ends with this part. Descriptors end it, too. */
static bool is_enough(const struct call *call, size_t length) {
    size_t all = call->moved + message.total - length, least = call->file->low_water;
    bool is_cut = message.fd_count > 0 || (message.header.msg_flags & MSG_CTRUNC);
    if (call->file->kind != JW_STREAM || (message.flags & MSG_PEEK) || is_cut) return true;
    return length == 0 || call->moved >= (message.flags & MSG_WAITALL ? all : lesser(least, all));
}

long serve_recv(struct call *call) {
    long result = read_message(call);
    bool is_stream = call->file->kind == JW_STREAM, has_user = call->file->passes_users;
    bool takes_empty = !is_stream && call->number != SYS_read && call->number != SYS_readv;
    if (result == 0 && (message.flags & MSG_OOB)) result = -EINVAL;
    if (result < 0 || (message.total == 0 && !takes_empty)) return result;
    message.header.msg_flags = message.flags & MSG_CMSG_CLOEXEC;
    message.is_end = false;
    size_t room = message.header.msg_controllen, other = CMSG_LEN(0) + (has_user ? USER_SPACE : 0);
    room = room > other ? (room - other) / sizeof(int) : 0;
    result = receive(call, lesser(room, JW_MAX_FD), has_user);
    if (result < 0 || (result == 0 && call->moved > 0)) return result;
    write_sender(call);
    if (message.at != 0) write_header(call, has_user && (is_stream || !message.is_end));
    call->moved += message.flags & MSG_PEEK ? 0 : (size_t)result;
    return is_enough(call, (size_t)result) ? result : serve_recv(call);
}

/* ioctl(2): FIONREAD tells how many bytes there are to receive. */
long serve_unread(struct call *call) {
    int length = (int)bytes_waiting(call->file);
    if ((unsigned)call->args[1] == FIOASYNC) tell_edges();
    if ((unsigned)call->args[1] != FIONREAD) return KERNEL_DOES_IT;
    if (call->file->listens) return -EINVAL;
    return write_memory(call, call->args[2], &length, sizeof length) ? 0 : -EFAULT;
}
