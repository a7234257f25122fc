/* Queues: what is known of the messages of a socket, and those that are held back. A queue of the
 * layer has room for 64 messages, however short. Linux counts the memory that they take, and
 * programs count on that. So a message without descriptors for which the layer's queue has no room
 * is held back here, as long as Linux would queue it. A later send pushes it on when there is room,
 * or a receive takes it when the layer's queue is empty. */
#include "unixbox.h"

enum { HEADER = 256, LEAST_BLOCK = 512, BLOCK_END = 320, LONGEST_IN_BLOCK = 3776, PAGE = 4096 };

/* Returns what a message takes of a send buffer of Linux: a header, a block, and whole pages. */
static size_t charge_of(size_t length) {
    size_t block = LEAST_BLOCK;
    if (length > LONGEST_IN_BLOCK) return HEADER + block + (length + PAGE - 1) / PAGE * PAGE;
    while (block < length + BLOCK_END) block *= 2;
    return HEADER + block;
}

bool is_same_user(const struct ucred *one, const struct ucred *other) {
    return one->pid == other->pid && one->uid == other->uid && one->gid == other->gid;
}

static struct parcel *add_parcel(struct file *file, const struct ucred *sender) {
    struct parcel value = {.sender = *sender}, *parcel = copy_of(&value, sizeof value);
    TAILQ_INSERT_TAIL(&file->queue, parcel, entries);
    return parcel;
}

static void add_length(struct file *file, struct parcel *parcel, size_t length) {
    parcel->length += length;
    parcel->charge += charge_of(length);
    file->charge += charge_of(length);
}

/* Notes a message that the layer has queued. */
struct parcel *note_message(struct file *file, const struct ucred *sender, size_t length) {
    struct parcel *it = add_parcel(file, sender);
    add_length(file, it, length);
    return it;
}

/* Whether a message without descriptors is queued or held back, as in Linux. */
bool has_room(const struct file *file, struct file *sender) {
    bool is_full = file->held != NULL || state_of(file->ino).messages == JW_MAX_MESSAGES;
    return !is_full || file->charge < send_buffer_of(sender);
}

/* Holds a message back. On a stream, it joins the last one, if that is held and of this sender. */
struct parcel *hold_message(struct file *file, const struct ucred *sender, const void *from,
                            size_t length) {
    struct parcel *last = file->held != NULL ? TAILQ_LAST(&file->queue, parcel_list) : NULL;
    if (last == NULL || file->kind != JW_STREAM || !is_same_user(&last->sender, sender) ||
        last->length + length > JW_MAX_BYTES)
        last = add_parcel(file, sender);
    if (file->held == NULL) file->held = last;
    uint8_t *grown = realloc(last->bytes, last->length + length);
    if (grown == NULL) abort();
    memcpy(grown + last->length, from, length);
    last->bytes = grown;
    add_length(file, last, length);
    return last;
}

/* Pushes what is held back for a socket into the layer's queue, as far as there is room. The caller
 * has the other end open. Returns 0 once none is left, or why the layer refuses the next one. */
long push_held(const struct call *call, struct file *file) {
    while (file->held != NULL) {
        struct parcel *it = file->held;
        int64_t answer = jw_send(&engine, call->pid, call->fd, it->bytes, it->length, NULL, 0);
        long result = record(call->pid, answer, "send %u *%zu", call->fd, it->length);
        if (result < 0) return result;
        free(it->bytes);
        it->bytes = NULL;
        file->held = TAILQ_NEXT(it, entries);
    }
    return 0;
}

/* Copies held bytes: of one message, or of as many as there is room for on a stream. */
size_t copy_held(const struct file *file, uint8_t *to, size_t room) {
    size_t length = 0;
    for (struct parcel *it = file->held; it != NULL && length < room;) {
        size_t part = it->length < room - length ? it->length : room - length;
        memcpy(to + length, it->bytes, part);
        length += part;
        it = file->kind == JW_STREAM ? TAILQ_NEXT(it, entries) : NULL;
    }
    return length;
}

static void drop_parcel(struct file *file, struct parcel *parcel) {
    if (file->held == parcel) file->held = TAILQ_NEXT(parcel, entries);
    TAILQ_REMOVE(&file->queue, parcel, entries);
    file->charge -= parcel->charge;
    free(parcel->bytes);
    free(parcel);
}

/* Drops what a receive has taken: so many bytes of a stream, or one packet. */
void drop_received(struct file *file, size_t length) {
    struct parcel *first = TAILQ_FIRST(&file->queue);
    if (file->kind != JW_STREAM) length = first->length;
    for (; first != NULL && length >= first->length; first = TAILQ_FIRST(&file->queue)) {
        length -= first->length;
        drop_parcel(file, first);
        if (file->kind != JW_STREAM) return;
    }
    if (first == NULL) return;
    first->length -= length;
    if (first->bytes != NULL) memmove(first->bytes, first->bytes + length, first->length);
}

void drop_queue(struct file *file) {
    while (!TAILQ_EMPTY(&file->queue)) drop_parcel(file, TAILQ_FIRST(&file->queue));
}

/* Returns how many bytes there are to receive, of a datagram socket in the first message. */
size_t bytes_waiting(const struct file *file) {
    const struct parcel *it = TAILQ_FIRST(&file->queue);
    size_t length = 0;
    if (file->kind == JW_DGRAM) return it != NULL ? it->length : 0;
    TAILQ_FOREACH(it, &file->queue, entries) length += it->length;
    return length;
}

/* Returns how many bytes of a queue this sender has sent before any other. */
size_t bytes_of_sender(const struct file *file, const struct ucred *sender) {
    const struct parcel *it;
    size_t length = 0;
    TAILQ_FOREACH(it, &file->queue, entries) {
        if (!is_same_user(&it->sender, sender)) break;
        length += it->length;
    }
    return length;
}

/* Returns how many of the first bytes of a queue are of messages that are whole among them. */
size_t bytes_of_whole_messages(const struct file *file, size_t most) {
    const struct parcel *it;
    size_t length = 0;
    TAILQ_FOREACH(it, &file->queue, entries) {
        if (length + it->length > most) break;
        length += it->length;
    }
    return length;
}
