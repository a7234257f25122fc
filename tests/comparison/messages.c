/* Bytes, files and borders of messages, peeks, closed peers, and names.
 *
 * One line for each question and type of socket. A message is quoted, +1 says that a file came with
 * it, and '' is the end. Where the two differ:
 *
 *                                           Linux 6.18.44           gVisor 0.0~20221219
 *     aaaa, b with a file, cccc, no room    'aaaab', 'cccc'         'aaaabcccc': no barrier
 *     peek over two messages of a stream    both                    the first
 *     a full stream after a peek            still full              takes 30,000 bytes
 *     a packet without bytes, with a file   comes, with it          nothing comes
 *     65,536 bytes of a stream, a file      36,544, then the rest   all together
 *     packets, peer closed, data unread     ECONNRESET once, data   data, ECONNRESET each time
 *     a stream, peer closed, data unread    data, ECONNRESET once   data, ECONNRESET each time
 *     client whose listener is closed       ECONNRESET once, end    the end
 *     poll(2) where the peer is closed      with hup and rdhup      without
 *     bind to a name of the other type      done                    EADDRINUSE
 *     receive on an unconnected stream      EINVAL                  ENOTCONN */
#include "sockets.h"

static int readers[4];

/* Sends a text with a new file, and keeps no descriptor of it. */
static void send_file(int to, const char *text) {
    int file = new_file(&readers[0]);
    MUST(send_text(to, text, &file, 1) >= 0);
    close(file);
}

static void end(int ends[2]) {
    close(ends[0]);
    close(ends[1]);
}

/* Room for one file takes two: CMSG_SPACE rounds up (cmsg(3)). */
static void truncated(int type) {
    int ends[2], files[4];
    new_pair(type, ends);
    for (int k = 0; k < 4; k++)
        files[k] = new_file(&readers[k]);
    MUST(send_text(ends[0], "aaa", files, 4) == 3);
    for (int k = 0; k < 4; k++)
        close(files[k]);
    printf("%s 2 of 3 bytes, 4 files, room for 1", type_name(type));
    printf(": %s\n", receive(ends[1], 2, 1, 0));
    for (int k = 0; k < 4; k++)
        close(readers[k]);
    end(ends);
}

/* A stream of aaaa, b with a file, and cccc. */
static void barrier(size_t room) {
    int ends[2];
    new_pair(SOCK_STREAM, ends);
    MUST(send_text(ends[0], "aaaa", NULL, 0) == 4);
    send_file(ends[0], "b");
    MUST(send_text(ends[0], "cccc", NULL, 0) == 4);
    printf("stream aaaa, b with a file, cccc, room for %zu", room);
    printf(": %s", receive(ends[1], 20, room, 0));
    printf(", then %s\n", receive(ends[1], 20, room, 0));
    close(readers[0]);
    end(ends);
}

static void long_message(void) {
    static char bytes[65536];
    int ends[2], file = new_file(&readers[0]);
    new_pair(SOCK_STREAM, ends);
    printf("stream 65536 bytes with a file: sent %s",
        answer(send_bytes(ends[0], bytes, sizeof bytes, &file, 1)));
    printf(", received %s", receive(ends[1], MAX_BYTES, 4, 0));
    printf(", then %s\n", receive(ends[1], MAX_BYTES, 4, 0));
    close(file);
    close(readers[0]);
    end(ends);
}

static void without_bytes(int type) {
    int ends[2], file = new_file(&readers[0]);
    new_pair(type, ends);
    printf("%s no bytes, a file: sent %s", type_name(type),
        answer(send_text(ends[0], "", &file, 1)));
    printf(", received %s\n", receive(ends[1], 9, 4, 0));
    close(file);
    close(readers[0]);
    end(ends);
}

static void peeks(int type) {
    int ends[2];
    new_pair(type, ends);
    send_file(ends[0], "aaa");
    printf("%s peek 2 of 3 with a file: %s", type_name(type), receive(ends[1], 2, 4, MSG_PEEK));
    printf("; peek 9: %s", receive(ends[1], 9, 4, MSG_PEEK));
    printf("; receive 2: %s", receive(ends[1], 2, 4, 0));
    printf("; receive 9: %s; the file is %s\n", receive(ends[1], 9, 4, 0), fate(readers[0]));
    close(readers[0]);
    MUST(send_text(ends[0], "aa", NULL, 0) == 2 && send_text(ends[0], "bb", NULL, 0) == 2);
    printf("%s peek 10 over aa and bb: %s\n", type_name(type), receive(ends[1], 10, 0, MSG_PEEK));
    end(ends);
}

static void full_and_peeked(void) {
    int ends[2];
    new_pair(SOCK_STREAM, ends);
    while (send_length(ends[0], 32768) > 0 || send_length(ends[0], 1) > 0)
        continue;
    printf("stream full: %s", answer(send_length(ends[0], 1)));
    receive(ends[1], 1, 0, MSG_PEEK);
    printf("; after a peek of 1 byte, 30000: %s\n", answer(send_length(ends[0], 30000)));
    end(ends);
}

static const struct {
    short bit;
    const char *name;
} EVENTS[] = {{POLLIN, " in"}, {POLLOUT, " out"}, {POLLHUP, " hup"}, {POLLRDHUP, " rdhup"}};

static void peer_closed(int type) {
    int ends[2];
    new_pair(type, ends);
    send_file(ends[0], "aa");
    close(ends[0]);
    printf("%s peer closed: %s", type_name(type), receive(ends[1], 9, 4, 0));
    printf(", %s", receive(ends[1], 9, 4, 0));
    printf(", a send %s", answer(send_text(ends[1], "a", NULL, 0)));
    struct pollfd look = {ends[1], POLLIN | POLLOUT | POLLRDHUP, 0};
    MUST(poll(&look, 1, 100) == 1);
    printf("; poll:");
    for (int k = 0; k < 4; k++)
        printf("%s", look.revents & EVENTS[k].bit ? EVENTS[k].name : "");
    printf("\n");
    close(readers[0]);
    close(ends[1]);
}

static void peer_closed_unread(int type) {
    int ends[2];
    new_pair(type, ends);
    MUST(send_text(ends[1], "uu", NULL, 0) == 2 && send_text(ends[0], "aa", NULL, 0) == 2);
    close(ends[0]);
    printf("%s peer closed with unread data: %s", type_name(type), receive(ends[1], 9, 4, 0));
    printf(", %s", receive(ends[1], 9, 4, 0));
    printf(", %s", receive(ends[1], 9, 4, 0));
    printf(", a send %s\n", answer(send_text(ends[1], "a", NULL, 0)));
    close(ends[1]);
}

static void listener_closed(int type) {
    char name[40];
    int listener = new_listener(type, 4, name), client = new_socket(type);
    MUST(connect_name(client, name) == 0);
    close(listener);
    printf("%s client whose listener is closed: %s", type_name(type), receive(client, 1, 0, 0));
    printf(", %s", receive(client, 1, 0, 0));
    printf(", a send %s\n", answer(send_text(client, "a", NULL, 0)));
    close(client);
}

static void unconnected(int type) {
    int fd = new_socket(type);
    printf("%s unconnected: a send %s", type_name(type), answer(send_text(fd, "a", NULL, 0)));
    printf(", a receive %s", receive(fd, 1, 0, 0));
    printf(", connect to no name %s\n", answer(connect_name(fd, "comparison-nobody")));
    close(fd);
}

/* A name is bound by one type, and then by the other. */
static void names(int type) {
    char name[40];
    int other = type == SOCK_STREAM ? SOCK_SEQPACKET : SOCK_STREAM;
    int listener = new_listener(type, 4, name), client = new_socket(other);
    int second = new_socket(other);
    printf("%s name: connect by the other type %s", type_name(type),
        answer(connect_name(client, name)));
    printf(", bind by it %s", answer(bind_name(second, name)));
    printf(", a second listen %s", answer(listen(listener, 5)));
    close(second);
    close(client);
    close(listener);
    second = new_socket(type);
    printf(", bind after the close %s\n", answer(bind_name(second, name)));
    close(second);
}

int main(void) {
    setvbuf(stdout, NULL, _IOLBF, 0);
    for (size_t k = 0; k < 2; k++) {
        truncated(TYPES[k]);
        without_bytes(TYPES[k]);
        peeks(TYPES[k]);
        peer_closed(TYPES[k]);
        peer_closed_unread(TYPES[k]);
        listener_closed(TYPES[k]);
        unconnected(TYPES[k]);
        names(TYPES[k]);
    }
    barrier(4);
    barrier(0);
    long_message();
    full_and_peeked();
    return 0;
}
