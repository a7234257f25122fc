/* sendmmsg(2) and recvmmsg(2): a call for each message, until one fails. */
#include "unixbox.h"

/* Writes the length of the message that is done into its place, and goes on to the next. */
static long finish_message(struct call *call, size_t length) {
    unsigned value = (unsigned)length;
    uint64_t at = call->args[1] + call->done * sizeof(struct mmsghdr);
    call->moved = call->deadline = 0;
    if (!write_memory(call, at + offsetof(struct mmsghdr, msg_len), &value, sizeof value))
        return -EFAULT;
    call->done++;
    return 0;
}

/* Serves the next message, as a call of its own would. A receive with a timeout waits for the first
 * message only: that it may give up later is no promise. */
static long serve_message(struct call *call) {
    bool is_send = call->number == SYS_sendmmsg;
    const struct call batch = *call;
    int flags = (int)batch.args[3], once = MSG_WAITFORONE;
    bool waits = is_send || batch.done == 0 || (!(flags & once) && batch.args[4] == 0);
    call->number = is_send ? SYS_sendmsg : SYS_recvmsg;
    call->args[1] += batch.done * sizeof(struct mmsghdr);
    call->args[2] = (uint64_t)((flags & ~once) | (waits ? 0 : MSG_DONTWAIT));
    long result = is_send ? serve_send(call) : serve_recv(call);
    call->number = batch.number;
    memcpy(call->args, batch.args, sizeof call->args);
    return result;
}

long serve_batch(struct call *call) {
    uint64_t count = (uint32_t)call->args[2];
    long result = 0;
    if (count > IOV_MAX) count = IOV_MAX;
    while (result >= 0 && call->done < count) {
        result = serve_message(call);
        size_t length = call->moved > 0 ? call->moved : (size_t)result;
        if (result >= 0) result = finish_message(call, length);
    }
    return result;
}

/* Returns the answer of a batch that ends so: how many messages are done, if one is. */
long answer_of_batch(struct call *call, long result) {
    if (call->moved > 0) finish_message(call, call->moved);
    return call->done > 0 ? (long)call->done : result;
}
