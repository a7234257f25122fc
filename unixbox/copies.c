/* Copies: sendfile(2) to a socket of the layer, and splice(2) between one and a pipe. The bytes go
 * through the supervisor, which waits for no pipe: a call does that, and is served once more. */
#include "unixbox.h"

enum { MOST_AT_ONCE = 0x7ffff000 }; /* Bytes that Linux moves by one call. */

static int way[2] = {-1, -1}; /* A pipe of the supervisor, which is empty between two calls. */

static bool open_way(void) {
    if (way[0] >= 0) return true;
    return pipe2(way, O_CLOEXEC | O_NONBLOCK) == 0;
}

/* Opens a descriptor of the caller in the supervisor. Returns it or a negative errno. */
static int open_copy(const struct call *call, uint64_t fd) {
    int copy = copy_descriptor(call->process, (int)fd);
    return copy >= 0 ? copy : errno == EMFILE ? -ENFILE : -errno;
}

/* Prepares a message of at most so many bytes, without descriptors. */
static void start_message(struct call *call, uint64_t length, int flags) {
    message.header = (struct msghdr){0};
    message.at = message.fd_count = 0;
    message.flags = flags;
    message.user = user_of(call, peer_of(call->file));
    message.total = length < JW_MAX_BYTES ? length : JW_MAX_BYTES;
    message.length = message.total;
}

/* Sends a part of a file from this place on. Returns its length, or a negative errno. */
static long send_file_part(struct call *call, int source, off_t at) {
    start_message(call, call->args[3] - call->moved, 0);
    long result = refusal_of_send(call, peer_of(call->file));
    if (result < 0) return result;
    ssize_t length = pread(source, message.bytes, message.length, at);
    if (length <= 0) return length < 0 ? -errno : 0;
    message.total = message.length = (size_t)length;
    return send_bytes(call);
}

/* Sends a file in parts. After each, the place in the file is up to date. */
static long send_file(struct call *call, int source) {
    uint64_t place = call->args[2];
    off_t at = lseek(source, 0, SEEK_CUR);
    if (at < 0) return -EINVAL; /* It has no places. */
    if (place != 0 && !read_memory(call, &at, place, sizeof at)) return -EFAULT;
    if (at < 0) return -EINVAL;
    while (call->moved < call->args[3]) {
        long result = send_file_part(call, source, at);
        if (result <= 0) return result;
        at += result;
        if (place == 0)
            lseek(source, at, SEEK_SET);
        else if (!write_memory(call, place, &at, sizeof at))
            return -EFAULT;
    }
    return 0;
}

/* sendfile(2) to a socket of the layer. */
long serve_sendfile(struct call *call) {
    int source = open_copy(call, call->args[1]);
    if (source < 0) return source;
    if (call->args[3] > MOST_AT_ONCE) call->args[3] = MOST_AT_ONCE;
    long result = send_file(call, source);
    close(source);
    return result;
}

/* Moves the first bytes of the message into a pipe of the caller, as many as it has room for. Where
 * that is full, the answer is EAGAIN. */
static long fill_pipe(struct call *call, int pipe, size_t length) {
    ssize_t moved = write(way[1], message.bytes, length);
    if (moved > 0) moved = splice(way[0], NULL, pipe, NULL, (size_t)moved, SPLICE_F_NONBLOCK);
    long result = moved >= 0 ? moved : -errno;
    while (read(way[0], message.bytes, JW_MAX_BYTES) > 0) continue; /* They are still queued. */
    call->raises_sigpipe = true;
    return result;
}

/* Moves received bytes into a pipe, at most so many. */
static long splice_out(struct call *call, int pipe, size_t length, int flags) {
    size_t queued;
    start_message(call, length, flags);
    long result = look(call, message.length, &queued);
    if (result <= 0) return receive_nothing(call, result);
    result = fill_pipe(call, pipe, (size_t)result);
    if (result == -EAGAIN) return wait_for(call, flags, NOTHING);
    if (result > 0) take(call, (size_t)result, queued, 0);
    return result;
}

/* Sends bytes of a pipe, at most so many, if there is room: they cannot be put back. */
static long splice_in(struct call *call, int pipe, size_t length, int flags) {
    const struct file *peer = peer_of(call->file);
    start_message(call, length, flags);
    long result = refusal_of_send(call, peer);
    if (result == 0) result = refusal_of_any_send(call);
    if (result < 0) return result;
    if (!has_room(peer, call->file)) return wait_for(call, flags, call->file->ino);
    ssize_t moved = splice(pipe, NULL, way[1], NULL, message.length, SPLICE_F_NONBLOCK);
    if (moved < 0 && errno == EAGAIN) return wait_for(call, flags, NOTHING);
    if (moved <= 0) return moved < 0 ? -errno : 0;
    message.total = message.length = (size_t)read(way[0], message.bytes, (size_t)moved);
    return send_bytes(call);
}

/* Moves bytes between a socket of the layer and a pipe of the caller. */
static long move(struct call *call, uint64_t fd, uint64_t pipe_fd, size_t length, bool is_out) {
    int flags = call->args[5] & SPLICE_F_NONBLOCK ? MSG_DONTWAIT : 0;
    call->fd = (uint32_t)fd;
    call->file = file_of(call->process, fd);
    int pipe = open_copy(call, pipe_fd);
    if (pipe < 0) return pipe;
    long result = !open_way() ? -ENFILE : fcntl(pipe, F_GETPIPE_SZ) < 0 ? -EINVAL
                : is_out ? splice_out(call, pipe, length, flags)
                         : splice_in(call, pipe, length, flags);
    close(pipe);
    return result;
}

static bool is_socket(const struct call *call, uint64_t fd) {
    const struct file *file = file_of(call->process, (uint32_t)fd);
    return file != NULL && file->kind != JW_PLAIN;
}

/* splice(2). Where no socket of the layer is concerned, the kernel does it. */
long serve_splice(struct call *call) {
    uint64_t source = call->args[0], target = call->args[2];
    bool is_out = is_socket(call, source), is_in = is_socket(call, target);
    if (!is_out && !is_in) return KERNEL_DOES_IT;
    if (is_out && is_in) return -EINVAL;
    if (call->args[is_out ? 3 : 1] != 0) return -ESPIPE; /* A place in a pipe. */
    if (call->args[is_out ? 1 : 3] != 0) return -EINVAL;
    if (call->args[4] == 0) return 0;
    return move(call, is_out ? source : target, is_out ? target : source, call->args[4], is_out);
}

/* sendfile(2) to what is no socket of the layer: from one it goes to pipes only. */
long serve_sendfile_elsewhere(struct call *call) {
    if (!is_socket(call, call->args[1])) return KERNEL_DOES_IT;
    if (call->args[2] != 0) return -ESPIPE; /* A place in a socket. */
    call->args[5] = 0;                      /* It has no flags. */
    return move(call, call->args[1], call->args[0], call->args[3], true);
}
