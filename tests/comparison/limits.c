/* Limits: files in a message, files in flight, descriptors, backlogs, queues, sizes of messages.
 *
 * One line for each question. Where the two differ:
 *
 *                                       Linux 6.18.44         gVisor 0.0~20221219
 *     in flight, limit 16, a user       ETOOMANYREFS at 24    20,000, then the probe stops
 *     in flight, limit 16, root         2,224, a full queue   20,000, then the probe stops
 *     a charge after the sender exits   stays                 nothing is charged
 *     dup2(2) to the limit              EBADF                 EMFILE
 *     the most that wait at a listener  4,097                 1,025
 *     blocking connect, full backlog    waits                 EAGAIN at once
 *     messages of 1 byte in a queue     278                   212,992
 *     messages of 1,024 bytes           93                    208
 *     the largest packet                212,960 bytes         212,992 bytes
 *     one send of 1,048,576, a stream   219,264 are sent      212,992 are sent
 *
 * Run it as root: it becomes user 12345 where it asks for the charge of a user. */
#include "sockets.h"
#include <grp.h>

enum { USER = 12345, MOST_SENT = 20000 };

/* Returns a descriptor of a file of which nothing is asked. */
static int some_file(void) {
    int fd = open("/dev/null", O_RDONLY);
    MUST(fd >= 0);
    return fd;
}

static void files_in_a_message(void) {
    int ends[2], fds[MAX_FD + 1], file = some_file();
    new_pair(SOCK_SEQPACKET, ends);
    for (int k = 0; k <= MAX_FD; k++)
        fds[k] = file;
    printf("files in a message: %d %s", MAX_FD, answer(send_text(ends[0], "a", fds, MAX_FD)));
    printf(", %d %s", MAX_FD + 1, answer(send_text(ends[0], "a", fds, MAX_FD + 1)));
    fds[0] = 9999;
    printf(", with one not open %s", answer(send_text(ends[0], "a", fds, MAX_FD + 1)));
    printf(", 1 not open %s\n", answer(send_text(ends[0], "a", fds, 1)));
    printf("received: %s\n", receive(ends[1], 10, MAX_FD, 0));
    close(file);
    close(ends[0]);
    close(ends[1]);
}

static void become_user(void) {
    if (geteuid() == 0)
        MUST(setgroups(0, NULL) == 0 && setgid(USER) == 0 && setuid(USER) == 0);
}

/* Eight files a message, until one is refused. */
static void in_flight(bool is_user) {
    if (fork() == 0) {
        int ends[2], fds[8], file = some_file();
        long sent = 0;
        const char *end = "the probe stops";
        if (is_user)
            become_user();
        set_limit(16);
        new_pair(SOCK_STREAM, ends);
        for (int k = 0; k < 8; k++)
            fds[k] = file;
        while (sent < MOST_SENT && send_text(ends[0], "a", fds, 8) == 1)
            sent += 8;
        if (sent < MOST_SENT)
            end = answer(-1);
        printf("in flight, limit 16, %s: %ld files", is_user ? "a user" : "root", sent);
        printf(", then %s", end);
        printf("; a byte without files %s\n", answer(send_text(ends[0], "a", NULL, 0)));
        exit(0);
    }
    MUST(wait(NULL) > 0);
}

/* A user's first process sends 24 files and exits; what is in flight stays charged to the user. */
static void charge_of_a_user(void) {
    int ends[2];
    new_pair(SOCK_SEQPACKET, ends);
    for (int turn = 1; turn <= 2; turn++) {
        if (fork() == 0) {
            int fds[24];
            become_user();
            set_limit(16);
            for (int k = 0; k < 24; k++)
                fds[k] = STDIN_FILENO;
            printf("charge of a user: process %d sends 24 files %s\n", turn,
                answer(send_text(ends[0], "a", fds, 24)));
            exit(0);
        }
        MUST(wait(NULL) > 0);
    }
    close(ends[0]);
    close(ends[1]);
}

static void descriptors(void) {
    int lowest = dup(0);
    MUST(dup2(0, 100) == 100);
    set_limit((rlim_t)lowest + 1);
    printf("limit reached: dup %s", answer(dup(0)));
    printf(", dup2 to the limit %s", answer(dup2(0, lowest + 1)));
    printf(", to an open number above it %s", answer(dup2(0, 100)));
    printf(", onto itself %s\n", answer(dup2(100, 100)));
    set_limit(LIMIT);
    close(100);
    close(lowest);
}

static void backlog(int type, int asked) {
    static int fds[6000];
    char name[40];
    int listener, count = 0, result = 0;
    set_limit(7000);
    listener = new_listener(type, asked, name);
    while (result == 0 && count < 6000) {
        fds[count] = new_socket(type);
        result = connect_name(fds[count++], name);
    }
    printf("%s listen %d: %d wait, then %s\n", type_name(type), asked, count - 1, answer(result));
    while (count > 0)
        close(fds[--count]);
    close(listener);
    set_limit(LIMIT);
}

static void blocking_connect(void) {
    char name[40];
    struct timeval second = {1, 0};
    int listener = new_listener(SOCK_STREAM, 0, name), first = new_socket(SOCK_STREAM);
    int waiting = socket(AF_UNIX, SOCK_STREAM, 0);
    MUST(connect_name(first, name) == 0);
    MUST(setsockopt(waiting, SOL_SOCKET, SO_SNDTIMEO, &second, sizeof second) == 0);
    double start = now();
    int result = connect_name(waiting, name);
    printf("blocking connect, full backlog: %s", answer(result));
    printf(", %s\n", now() - start > 5e8 ? "after a wait" : "at once");
    close(waiting);
    close(first);
    close(listener);
}

static void full_queue(int type, size_t length) {
    int ends[2];
    long count = 0;
    ssize_t last;
    new_pair(type, ends);
    while ((last = send_length(ends[0], length)) == (ssize_t)length)
        count++;
    const char *end = last < 0 ? answer(last) : "a part";
    printf("%s messages of %zu bytes: %ld, then %s\n", type_name(type), length, count, end);
    close(ends[0]);
    close(ends[1]);
}

static void largest(int type) {
    static const size_t LENGTHS[] = {65536, 212960, 212961, 212992, 212993, MAX_BYTES};
    printf("%s one send:", type_name(type));
    for (size_t k = 0; k < sizeof LENGTHS / sizeof *LENGTHS; k++) {
        int ends[2];
        new_pair(type, ends);
        printf(" %zu %s", LENGTHS[k], answer(send_length(ends[0], LENGTHS[k])));
        printf(k < 5 ? "," : "\n");
        close(ends[0]);
        close(ends[1]);
    }
}

int main(void) {
    static const int BACKLOGS[] = {0, 1, 4, 128, 5000};
    setvbuf(stdout, NULL, _IOLBF, 0);
    set_limit(LIMIT);
    files_in_a_message();
    in_flight(false);
    in_flight(true);
    charge_of_a_user();
    descriptors();
    for (size_t type = 0; type < 2; type++)
        for (size_t k = 0; k < sizeof BACKLOGS / sizeof *BACKLOGS; k++)
            backlog(TYPES[type], BACKLOGS[k]);
    blocking_connect();
    for (size_t type = 0; type < 2; type++) {
        full_queue(TYPES[type], 1);
        full_queue(TYPES[type], 1024);
        largest(TYPES[type]);
    }
    return 0;
}
