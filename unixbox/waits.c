/* Waits for children. A program that has waited for the end of a child sees at once what ended with
 * it: so the kernel is left to answer when unixbox has seen the end, too. */
#include "unixbox.h"
#include <sys/wait.h>

/* Returns whether this process of the host is a child of the caller that has not ended. Another may
 * trace it, and is told of its stops. */
static bool is_living_child(const struct call *call, pid_t pid) {
    uint32_t parent = 0, tracer = 0;
    struct status status;
    if (process_by(pid) == NULL || !read_status(pid, &status)) return false;
    const char *text = read_all(pid, "status");
    read_numbers(text, "PPid", &parent, 1);
    read_numbers(text, "TracerPid", &tracer, 1);
    return (pid_t)parent == call->process->tgid && tracer == 0;
}

/* wait4(2) and waitid(2) for the end of one child. Others are the kernel's at once. */
long serve_wait(struct call *call) {
    bool has_kind = call->number == SYS_waitid;
    uint64_t options = has_kind ? call->args[3] & ~(uint64_t)WEXITED : call->args[2];
    pid_t pid = (pid_t)call->args[has_kind ? 1 : 0];
    if (pid <= 0 || options != 0 || (has_kind && call->args[0] != P_PID)) return KERNEL_DOES_IT;
    bool waits = is_living_child(call, pid_meant_by(call->process, pid));
    if (waits) return wait_for(call, 0, NOTHING);
    forget_ended(); /* It may have ended a moment ago. */
    return KERNEL_DOES_IT;
}
