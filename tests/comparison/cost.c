/* Nanoseconds that a caller pays, the least of seven turns.
 *
 *                                           Linux 6.18.44     gVisor 0.0~20221219 by ptrace
 *     an empty call                                           12,100
 *     a file sent, received and closed      1,700             44,000
 *     a pair made and closed                7,700             47,000
 *     a byte sent and received, a packet    680 to 1,000
 *     the same with a plain file            960 to 1,500, and 100 to 140 to close it
 *
 * The last two rows are of another program. */
#include "sockets.h"
#include <sys/syscall.h>

enum { TURNS = 7, ROUNDS = 3000 };

static int ends[2], file;

static void empty(void) {
    syscall(SYS_getppid);
}

static void pass_a_file(void) {
    MUST(send_text(ends[0], "a", &file, 1) == 1);
    receive(ends[1], 16, MAX_FD, 0);
}

static void make_a_pair(void) {
    int pair[2];
    new_pair(SOCK_STREAM, pair);
    close(pair[0]);
    close(pair[1]);
}

static void measure(const char *name, void (*round)(void)) {
    double least = 1e18;
    for (int turn = 0; turn < TURNS; turn++) {
        double start = now();
        for (int k = 0; k < ROUNDS; k++)
            round();
        double took = (now() - start) / ROUNDS;
        least = took < least ? took : least;
    }
    printf("%s: %.0f ns\n", name, least);
}

int main(void) {
    new_pair(SOCK_SEQPACKET, ends);
    file = open("/dev/null", O_RDONLY);
    MUST(file >= 0);
    measure("an empty call", empty);
    measure("a file sent, received and closed", pass_a_file);
    measure("a pair made and closed", make_a_pair);
    return 0;
}
