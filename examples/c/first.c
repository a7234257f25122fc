/* A socket and a file that are lost in a cycle of references, and freed by the collector. */
#include <jaywardrobe.h>
#include <inttypes.h>
#include <stdio.h>
#include <stdlib.h>

/* Ends the program where a call is refused. */
static int64_t must(int64_t answer) {
    if (answer < 0) {
        fprintf(stderr, "%s\n", jw_strerror(answer));
        exit(1);
    }
    return answer;
}

/* Prints which files were freed. */
static void print_freed(const char *when, jw_engine *engine) {
    uint64_t inos[8];
    int64_t count = must(jw_released(engine, inos, 8));
    for (int64_t i = 0; i < count; i++)
        printf("%s: file %" PRIu64 " is freed\n", when, inos[i]);
    must(jw_clear_told(engine));
}

int main(void) {
    jw_engine engine = JW_ENGINE_INIT;
    struct jw_pair pair;
    struct jw_finished finished;
    must(jw_engine_new(&engine));
    must(jw_tell_released(&engine));
    uint32_t pid = (uint32_t)must(jw_spawn(&engine, 1000, 16, false));
    must(jw_pair(&engine, pid, JW_SEQPACKET, &pair));
    uint32_t file = (uint32_t)must(jw_open(&engine, pid));
    /* The second socket gets itself and the file into its own queue. */
    const uint32_t fds[] = {pair.second, file};
    const uint8_t text[] = "hi";
    must(jw_send(&engine, pid, pair.first, text, 2, fds, 2));
    must(jw_exit(&engine, pid));
    print_freed("exit", &engine);
    must(jw_pass(&engine, &finished));
    print_freed("pass", &engine);
    jw_engine_free(&engine);
    return 0;
}
