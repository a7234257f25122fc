/* Messages: what sends and receives carry, and sends. The layer moves at most JW_MAX_BYTES at once,
 * so longer sends on a stream, and receives with MSG_WAITALL, are served in parts. */
#include "unixbox.h"

enum { PAGE = 4096, NEAR = 1024 };

struct message message;

/* Returns descriptors as a line of the script has them. */
static const char *fds_text(const uint32_t *fds, size_t count) {
    static char text[8 * JW_MAX_FD];
    int length = 0;
    text[0] = '\0';
    for (size_t i = 0; options.script != NULL && i < count; i++)
        length += sprintf(text + length, " %u", fds[i]);
    return text;
}

/* Memory of a caller around its msghdr. As a rule, that is on a stack, with all that it points to:
 * then one system call reads all of it. */
static struct {
    uint64_t at;
    size_t length;
    char bytes[2 * NEAR];
} near;

/* Reads what is near a msghdr, within its page, so that all of it can be read or nothing. */
static void read_near(const struct call *call, uint64_t header) {
    uint64_t start = header & ~(uint64_t)(PAGE - 1), end = start + PAGE;
    if (header - start > NEAR) start = header - NEAR;
    if (end - header > NEAR) end = header + NEAR;
    near.at = start;
    near.length = read_memory(call, near.bytes, start, end - start) ? end - start : 0;
}

/* Copies what is known to be at an address. Returns false where it is to be read. */
static bool copy_near(void *to, uint64_t from, size_t length) {
    uint64_t place = from - near.at;
    bool is_near = from >= near.at && length <= near.length && place <= near.length - length;
    if (is_near) memcpy(to, near.bytes + place, length);
    return is_near || length == 0;
}

/* Finds where a call's bytes are, and its flags: in a msghdr, in a vector, or in its arguments. */
static long read_header(const struct call *call) {
    struct msghdr *header = &message.header;
    const uint64_t *args = call->args;
    message.at = message.flags = near.length = 0;
    message.parts[0] = (struct iovec){(void *)args[1], args[2]};
    *header = (struct msghdr){.msg_iov = (void *)args[1], .msg_iovlen = args[2]};
    switch (call->number) {
    case SYS_sendmsg:
    case SYS_recvmsg:
        message.at = args[1];
        message.flags = (int)args[2];
        read_near(call, message.at);
        return copy_near(header, message.at, sizeof *header) ||
               read_memory(call, header, message.at, sizeof *header) ? 0 : -EFAULT;
    case SYS_preadv2:
    case SYS_pwritev2:
        message.flags = args[5] & RWF_NOWAIT ? MSG_DONTWAIT : 0;
        if (args[3] != UINT64_MAX) return -ESPIPE; /* A place in a file. */
        return args[5] & ~(uint64_t)(RWF_NOWAIT | RWF_HIPRI) ? -EOPNOTSUPP : 0;
    case SYS_readv:
    case SYS_writev:
        return 0;
    case SYS_sendto:
        header->msg_namelen = args[4] != 0 ? (socklen_t)args[5] : 0; /* fall through */
    case SYS_recvfrom:
        message.flags = (int)args[3];
    }
    header->msg_iov = NULL; /* The one part is known. */
    header->msg_iovlen = 1;
    return 0;
}

/* Reads the parts of a call's bytes, and the control data of a sendmsg(2). */
static long read_parts(const struct call *call) {
    const struct msghdr *header = &message.header;
    size_t length = call->number == SYS_sendmsg ? header->msg_controllen : 0;
    size_t size = header->msg_iov != NULL ? header->msg_iovlen * sizeof *message.parts : 0;
    if (header->msg_iovlen > IOV_MAX) return message.at != 0 ? -EMSGSIZE : -EINVAL;
    if (length > sizeof message.control) return -ENOBUFS;
    if (copy_near(message.parts, (uint64_t)header->msg_iov, size) &&
        copy_near(message.control, (uint64_t)header->msg_control, length))
        return 0;
    const struct iovec here[] = {{message.parts, size}, {message.control, length}};
    const struct iovec there[] = {{header->msg_iov, size}, {header->msg_control, length}};
    ssize_t read = process_vm_readv(call->tid, here, 2, there, 2, 0);
    return read == (ssize_t)(size + length) ? 0 : -EFAULT;
}

/* Reads what a call is to move, without what it has moved before. */
long read_message(struct call *call) {
    struct msghdr *header = &message.header;
    size_t moved = call->moved;
    message.total = message.fd_count = 0;
    long result = read_header(call);
    if (result < 0) return result;
    if (header->msg_control == NULL) header->msg_controllen = 0;
    if (moved == 0) call->room = header->msg_controllen;
    header->msg_controllen = call->room;
    result = read_parts(call);
    if (result < 0) return result;
    for (struct iovec *it = message.parts; it < message.parts + header->msg_iovlen; it++) {
        size_t skipped = moved < it->iov_len ? moved : it->iov_len;
        size_t left = it->iov_len - skipped, most = INT_MAX - message.total;
        if (it->iov_len > SSIZE_MAX) return -EINVAL;
        *it = (struct iovec){(char *)it->iov_base + skipped, left < most ? left : most};
        moved -= skipped;
        message.total += it->iov_len;
    }
    message.length = message.total < JW_MAX_BYTES ? message.total : JW_MAX_BYTES;
    return 0;
}

/* Finds the descriptors and the credentials that go with a message. */
static long read_control(const struct call *call, const struct file *peer) {
    struct msghdr copy = {.msg_control = message.control,
                          .msg_controllen = message.header.msg_controllen};
    char *end = message.control + copy.msg_controllen;
    message.user = user_of(call, peer);
    for (struct cmsghdr *it = CMSG_FIRSTHDR(&copy); it != NULL; it = CMSG_NXTHDR(&copy, it)) {
        size_t size = it->cmsg_len - CMSG_LEN(0), count = size / sizeof(int);
        if (it->cmsg_len < CMSG_LEN(0) || it->cmsg_len > (size_t)(end - (char *)it)) return -EINVAL;
        if (it->cmsg_level != SOL_SOCKET) continue;
        if (it->cmsg_type == SCM_RIGHTS && message.fd_count + count <= JW_MAX_FD) {
            memcpy(message.fds + message.fd_count, CMSG_DATA(it), count * sizeof(int));
            message.fd_count += count;
        } else if (it->cmsg_type == SCM_CREDENTIALS && size == sizeof message.user) {
            memcpy(&message.user, CMSG_DATA(it), size);
            long result = check_claim(call, &message.user);
            if (result < 0) return result;
        } else {
            return -EINVAL;
        }
    }
    return 0;
}

/* Copies the plain files that a message sends, for its receiver. */
static long copy_files(struct process *process) {
    for (size_t i = 0; i < message.fd_count; i++) {
        struct file *file = sync_file(process, message.fds[i]);
        if (file == NULL || file->host >= 0) continue; /* The layer refuses what is not open. */
        int copy = copy_descriptor(process, (int)message.fds[i]);
        file->host = keep_back(copy, KEPT_FOR_PROCESSES);
        if (file->host < 0) return errno == EMFILE ? -ENFILE : -errno;
    }
    return 0;
}

/* Sends a part, or holds it back where the layer's queue is full. Descriptors are never held back:
 * the layer has to count them. */
static long send_part(struct call *call, struct file *peer) {
    long result = peer != NULL ? push_held(call, peer) : 0;
    if (result == 0) {
        int64_t answer = jw_send(&engine, call->pid, call->fd, message.bytes, message.length,
                                 message.fds, message.fd_count);
        result = record(call->pid, answer, "send %u *%zu%s", call->fd, message.length,
                        fds_text(message.fds, message.fd_count));
    }
    bool is_held = result == -EAGAIN && message.fd_count == 0 && has_room(peer, call->file);
    if (result < 0 && !is_held) return result;
    struct parcel *parcel =
        is_held ? hold_message(peer, &message.user, message.bytes, message.length)
                : note_message(peer, &message.user, message.length);
    parcel->from = call->file->own;
    return (long)message.length;
}

/* Returns what refuses a send to a name, or 0. Seqpackets ignore it. The layer sends datagrams to
 * the target of their socket alone. */
static long refusal_of_name(const struct call *call, const struct file *peer) {
    const struct msghdr *header = &message.header;
    uint64_t at = message.at != 0 ? (uint64_t)header->msg_name : call->args[4];
    if (header->msg_namelen == 0 || call->file->kind == JW_SEQPACKET) return 0;
    if (call->file->kind == JW_STREAM) return peer != NULL ? -EISCONN : -EOPNOTSUPP;
    return names_target(call, at, header->msg_namelen) ? 0 : -EOPNOTSUPP;
}

/* Returns what refuses a send before the layer is asked, or 0. */
long refusal_of_send(struct call *call, const struct file *peer) {
    bool is_stream = call->file->kind == JW_STREAM, has_waited = call->waits_for == call->file->ino;
    if ((message.flags & MSG_OOB) && !(options.oob && is_stream)) return -EOPNOTSUPP;
    long result = refusal_of_name(call, peer);
    if (result < 0) return result;
    if (message.total > JW_MAX_BYTES && !is_stream) return -EMSGSIZE;
    if (!is_stream && take_reset(call->file)) return -ECONNRESET;
    call->raises_sigpipe = is_stream && !has_waited && !(message.flags & MSG_NOSIGNAL);
    return 0;
}

/* Returns what refuses each send from a socket, or 0. The layer is asked by a send where the socket
 * is not writable, so nothing is sent. */
long refusal_of_any_send(const struct call *call) {
    struct jw_ready ready = {false, false, false};
    if (jw_poll(&engine, call->pid, call->fd, &ready) == 0 && ready.writable) return 0;
    int64_t answer = jw_send(&engine, call->pid, call->fd, "", 1, NULL, 0);
    return answer == -JW_EAGAIN ? 0 : -jw_errno(answer);
}

/* Answers a send without bytes and descriptors, which the layer does not have. On a stream, nothing
 * is sent, so its placeholder answers. */
static long send_nothing(const struct call *call) {
    if (call->file->kind == JW_STREAM)
        return send(call->file->host, "", 0, MSG_NOSIGNAL) < 0 ? -errno : 0;
    long result = refusal_of_any_send(call);
    return result < 0 ? result : -EINVAL;
}

/* Sends what was read of a message, or a part of it. */
long send_bytes(struct call *call) {
    struct file *peer = peer_of(call->file);
    if (message.fd_count + message.total == 0) return send_nothing(call);
    long result = send_part(call, peer);
    bool is_datagram = call->file->kind == JW_DGRAM;
    if (result == -EAGAIN) /* Of a datagram socket, no other may be the target's peer. */
        return wait_for(call, message.flags, is_datagram ? EVERYONE : call->file->ino);
    if (result < 0) return result;
    for (size_t i = 0; i < message.fd_count; i++)
        file_of(call->process, message.fds[i])->sender = call->process->status;
    touch(peer); /* Of what is held back, the layer tells no change. */
    call->moved += (size_t)result;
    call->room = 0; /* Descriptors go with the first part. */
    return result;
}

/* Reads the bytes of a message, or of a part of it. */
static bool read_bytes(const struct call *call) {
    const struct iovec here = {message.bytes, message.length}, *parts = message.parts;
    size_t count = message.header.msg_iovlen;
    if (count == 1 && copy_near(message.bytes, (uint64_t)parts->iov_base, message.length))
        return true;
    return process_vm_readv(call->tid, &here, 1, parts, count, 0) == (ssize_t)message.length;
}

long serve_send(struct call *call) {
    const struct file *peer = peer_of(call->file);
    long result = read_message(call);
    if (result == 0) result = read_control(call, peer);
    if (result == 0) result = refusal_of_send(call, peer);
    if (result == 0) result = copy_files(call->process);
    if (result < 0) return result;
    if (!read_bytes(call)) {
        result = refusal_of_any_send(call);
        return result < 0 ? result : -EFAULT;
    }
    result = send_bytes(call);
    bool is_part = result >= 0 && (size_t)result < message.total;
    return is_part ? serve_send(call) : result;
}
