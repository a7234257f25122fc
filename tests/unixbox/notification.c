/* Says whether a program without privileges may hand its calls to a supervisor, as unixbox needs it
 * (seccomp_unotify(2), Linux 5.19). The status is 0 if so. */
#define _GNU_SOURCE
#include <linux/filter.h>
#include <linux/seccomp.h>
#include <stdio.h>
#include <sys/prctl.h>
#include <sys/syscall.h>
#include <unistd.h>

int main(void) {
#ifdef SECCOMP_FILTER_FLAG_WAIT_KILLABLE_RECV
    unsigned flags = SECCOMP_FILTER_FLAG_NEW_LISTENER | SECCOMP_FILTER_FLAG_WAIT_KILLABLE_RECV;
    struct sock_filter allow = BPF_STMT(BPF_RET | BPF_K, SECCOMP_RET_ALLOW);
    struct sock_fprog filter = {1, &allow};

    if (prctl(PR_SET_NO_NEW_PRIVS, 1, 0, 0, 0) == 0 &&
        syscall(SYS_seccomp, SECCOMP_SET_MODE_FILTER, flags, &filter) >= 0)
        return 0;
    perror("seccomp(2)");
#else
    fputs("the kernel's headers are older than Linux 5.19\n", stderr);
#endif
    return 1;
}
