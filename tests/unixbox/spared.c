/* Makes calls that do not concern the layer, which a filter can tell by an argument. unixbox is
 * handed none of them, so it counts fewer than ROUNDS. */
#define _GNU_SOURCE
#include "must.h"
#include <fcntl.h>
#include <netinet/in.h>
#include <sys/ioctl.h>
#include <sys/prctl.h>
#include <sys/resource.h>
#include <sys/socket.h>
#include <sys/wait.h>
#include <unistd.h>

enum { ROUNDS = 1000 };

int main(void) {
    char name[16];
    struct rlimit limit;
    int way[2], none[2], option = 0;
    socklen_t size = sizeof option;
    MUST(pipe(way) == 0);
    for (int i = 0; i < ROUNDS; i++) {
        MUST(fcntl(way[0], F_GETFL) == O_RDONLY && fcntl(way[0], F_SETFL, O_NONBLOCK) == 0);
        MUST(ioctl(way[0], FIONBIO, &option) == 0 && ioctl(way[0], FIOCLEX) == 0);
        MUST(socket(AF_UNSPEC, SOCK_STREAM, 0) < 0);
        MUST(socketpair(AF_INET, SOCK_STREAM, 0, none) < 0);
        MUST(getsockopt(way[0], IPPROTO_IP, 0, &option, &size) < 0);
        MUST(setsockopt(way[0], IPPROTO_IP, 0, none, size) < 0);
        MUST(prctl(PR_GET_NAME, name) == 0 && getrlimit(RLIMIT_STACK, &limit) == 0);
        MUST(waitpid(-1, NULL, WNOHANG) < 0);
    }
    printf("%d rounds\n", ROUNDS);
    return 0;
}
