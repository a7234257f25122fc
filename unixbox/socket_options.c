/* Options of sockets that the supervisor heeds itself. Placeholders keep the others. */
#include "unixbox.h"

enum { PASS_PIDFD = 76, PEER_PIDFD = 77 }; /* SO_PASSPIDFD and SO_PEERPIDFD of Linux 6.5. */

/* Returns the send buffer that Linux gives for this size, or without one where that is negative. */
static size_t send_buffer_for(int size) {
    int host = socket(AF_UNIX, SOCK_STREAM | SOCK_CLOEXEC, 0), result = 0;
    if (size >= 0) setsockopt(host, SOL_SOCKET, SO_SNDBUF, &size, sizeof size);
    getsockopt(host, SOL_SOCKET, SO_SNDBUF, &result, &(socklen_t){sizeof result});
    if (host >= 0) close(host);
    return (size_t)result;
}

/* Returns SO_SNDBUF: how many bytes the unread messages of a socket take of memory, at most. */
size_t send_buffer_of(struct file *file) {
    if (file->send_buffer == 0) file->send_buffer = send_buffer_for(-1);
    return file->send_buffer;
}

/* Whether the peer has closed the socket with unread messages, or, of a datagram socket, the target
 * has lost them by turning away. Linux tells it once. */
bool take_reset(const struct file *file) {
    int error = 0;
    if (file->kind != JW_DGRAM && state_of(file->ino).state != JW_HUNG_UP) return false;
    getsockopt(file->host, SOL_SOCKET, SO_ERROR, &error, &(socklen_t){sizeof error});
    return error == ECONNRESET;
}

/* Leaves an option to the kernel, if the layer has it. */
static long serve_kept_option(int option) {
    bool is_refused = option == SO_PEEK_OFF || option == PASS_PIDFD || option == PEER_PIDFD;
    return is_refused ? -ENOPROTOOPT : KERNEL_DOES_IT;
}

static bool is_timeout(int option) {
    return option == SO_RCVTIMEO_OLD || option == SO_RCVTIMEO_NEW || option == SO_SNDTIMEO_OLD ||
           option == SO_SNDTIMEO_NEW;
}

/* setsockopt(2). A placeholder keeps its buffer: it is as large as the layer's queue. */
long serve_set_option(struct call *call) {
    struct file *file = call->file;
    int option = (int)call->args[2], value;
    bool is_buffer = option == SO_SNDBUF || option == SO_SNDBUFFORCE;
    bool is_heeded = is_buffer || option == SO_PASSCRED || option == SO_RCVLOWAT;
    if ((int)call->args[1] != SOL_SOCKET) return KERNEL_DOES_IT;
    file->may_give_up |= is_timeout(option);
    if (!is_heeded) return serve_kept_option(option);
    if ((int)call->args[4] < (int)sizeof value) return -EINVAL;
    if (!read_memory(call, &value, call->args[3], sizeof value)) return -EFAULT;
    if (is_buffer)
        file->send_buffer = send_buffer_for(value >= 0 ? value : INT_MAX);
    else if (setsockopt(file->host, SOL_SOCKET, option, &value, sizeof value) < 0)
        return -errno;
    if (option == SO_PASSCRED) file->passes_users = value != 0;
    if (option == SO_RCVLOWAT) file->low_water = value >= 0 ? (size_t)value : INT_MAX;
    return 0;
}

/* getsockopt(2) */
long serve_get_option(struct call *call) {
    socklen_t room;
    int option = (int)call->args[2], value;
    if ((int)call->args[1] != SOL_SOCKET) return KERNEL_DOES_IT;
    if (option == SO_PEERCRED || option == SO_PEERGROUPS) return serve_peer(call);
    if (option != SO_SNDBUF) return serve_kept_option(option);
    value = (int)send_buffer_of(call->file);
    if (!read_memory(call, &room, call->args[4], sizeof room)) return -EFAULT;
    if (room > INT_MAX) return -EINVAL;
    if (room > sizeof value) room = sizeof value;
    return write_memory(call, call->args[3], &value, room) &&
           write_memory(call, call->args[4], &room, sizeof room) ? 0 : -EFAULT;
}
