/* Files that no process can receive any more, without a cycle: are they freed?
 *
 * One line for each question and type of socket. On Linux 6.18.44 all of these files are freed, and
 * a failed accept(2) leaves the connection in the backlog. On gVisor 0.0~20221219:
 *
 *     4 files, one free descriptor    one is installed, MSG_CTRUNC is missing, two are never freed
 *     accept(2), no free descriptor   the connection is lost, and its client gets EPIPE
 *     receiver closed, sender open    held until the sender is closed
 *     listener closed, client open    held until the client is closed
 *     own end sent to its peer        never freed, with both closed
 *     name of a socket in a queue     in use until the sender is closed */
#include "sockets.h"

static int taken[LIMIT];
static int taken_count;

/* Opens all descriptors below 64 but `left` of them, and sets the limit to 64. */
static void leave_free(int left) {
    set_limit(64);
    while ((taken[taken_count] = dup(0)) >= 0)
        taken_count++;
    for (; left > 0; left--)
        close(taken[--taken_count]);
}

static void free_all(void) {
    while (taken_count > 0)
        close(taken[--taken_count]);
    set_limit(LIMIT);
}

static void truncated(int type) {
    int ends[2], files[4], readers[4];
    new_pair(type, ends);
    for (int k = 0; k < 4; k++)
        files[k] = new_file(&readers[k]);
    MUST(send_text(ends[0], "aaa", files, 4) == 3);
    for (int k = 0; k < 4; k++)
        close(files[k]);
    leave_free(1);
    printf("%s 4 files, one free descriptor: %s;", type_name(type), receive(ends[1], 9, MAX_FD, 0));
    free_all();
    close(ends[0]);
    close(ends[1]);
    printf(" both ends closed:");
    for (int k = 0; k < 4; k++) {
        printf(" %s", fate(readers[k]));
        close(readers[k]);
    }
    printf("\n");
}

static void no_room(int type) {
    int ends[2], reader, file = new_file(&reader);
    new_pair(type, ends);
    MUST(send_text(ends[0], "a", &file, 1) == 1);
    close(file);
    printf("%s a file, no room for it: %s;", type_name(type), receive(ends[1], 9, 0, 0));
    printf(" %s\n", fate(reader));
    close(reader);
    close(ends[0]);
    close(ends[1]);
}

static void failed_accept(int type) {
    char name[40];
    int listener = new_listener(type, 4, name), client = new_socket(type), accepted;
    MUST(connect_name(client, name) == 0 && send_text(client, "hi", NULL, 0) == 2);
    leave_free(0);
    printf("%s accept, no free descriptor: %s;", type_name(type),
        answer(accept(listener, NULL, NULL)));
    free_all();
    accepted = accept(listener, NULL, NULL);
    printf(" with one: %s", accepted < 0 ? answer(-1) : receive(accepted, 9, 0, 0));
    printf("; the client sends: %s\n", answer(send_text(client, "a", NULL, 0)));
    close(accepted);
    close(client);
    close(listener);
}

static void receiver_closed(int type) {
    int ends[2], reader, file = new_file(&reader);
    new_pair(type, ends);
    MUST(send_text(ends[0], "a", &file, 1) == 1);
    close(file);
    close(ends[1]);
    printf("%s receiver closed, sender open: %s;", type_name(type), fate(reader));
    printf(" a send: %s;", answer(send_text(ends[0], "a", NULL, 0)));
    close(ends[0]);
    printf(" sender closed: %s\n", fate(reader));
    close(reader);
}

static void listener_closed(int type) {
    char name[40];
    int reader, file = new_file(&reader);
    int listener = new_listener(type, 4, name), client = new_socket(type);
    MUST(connect_name(client, name) == 0 && send_text(client, "a", &file, 1) == 1);
    close(file);
    close(listener);
    printf("%s listener closed, client open: %s;", type_name(type), fate(reader));
    close(client);
    printf(" client closed: %s\n", fate(reader));
    close(reader);
}

/* No cycle: the sender's end lies in its peer's queue, which is freed with the peer. */
static void own_end(int type) {
    int ends[2], files[2], reader;
    new_pair(type, ends);
    files[0] = ends[0];
    files[1] = new_file(&reader);
    MUST(send_text(ends[0], "a", files, 2) == 1);
    close(files[1]);
    close(ends[0]);
    close(ends[1]);
    printf("%s own end sent to its peer, both closed: %s\n", type_name(type), fate(reader));
    close(reader);
}

static const char *bound(int type, const char *name) {
    int fd = new_socket(type);
    const char *text = bind_name(fd, name) == 0 ? "free" : answer(-1);
    close(fd);
    return text;
}

static void name_in_a_queue(int type) {
    char name[40];
    int ends[2], named = new_listener(type, 1, name);
    new_pair(type, ends);
    MUST(send_text(ends[0], "a", &named, 1) == 1);
    close(named);
    printf("%s name of a socket in a queue: %s;", type_name(type), bound(type, name));
    close(ends[1]);
    printf(" receiver closed: %s;", bound(type, name));
    close(ends[0]);
    printf(" sender closed: %s\n", bound(type, name));
}

int main(void) {
    setvbuf(stdout, NULL, _IOLBF, 0);
    set_limit(LIMIT);
    for (size_t k = 0; k < 2; k++) {
        truncated(TYPES[k]);
        no_room(TYPES[k]);
        failed_accept(TYPES[k]);
        receiver_closed(TYPES[k]);
        listener_closed(TYPES[k]);
        own_end(TYPES[k]);
        name_in_a_queue(TYPES[k]);
    }
    return 0;
}
