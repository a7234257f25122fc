/* Steps of the layer and their record, the collector, and what is found. */
#include "unixbox.h"
#include <err.h>
#include <stdarg.h>
#include <sys/param.h>

enum { MOST_PICTURE = 1 << 24, MOST_LEAKS = 64 };

/* How many sockets and plain files of a sender only a cycle kept. */
static struct leak {
    struct status sender;
    uint64_t count[2];
} leaks[MOST_LEAKS];

jw_engine engine = JW_ENGINE_INIT;
struct counts counts;
bool is_collection_due;
static bool is_running;

/* Records a step of a process (0: of none), and returns its answer, or a negative errno. */
long record(uint32_t pid, int64_t answer, const char *line, ...) {
    counts.steps++;
    if (options.script != NULL) {
        va_list arguments;
        va_start(arguments, line);
        if (pid > 0) fprintf(options.script, "%u ", pid);
        vfprintf(options.script, line, arguments);
        fputc('\n', options.script);
        va_end(arguments);
    }
    return answer >= 0 ? answer : -jw_errno(answer);
}

/* Recounts what was done since the last look: the places of each file, and all by the layer. */
static void inspect(void) {
    static uint64_t inspected; /* How many steps there were at the last look. */
    struct jw_checked checked = {0, 0};
    uint64_t ino = 0, refs, inflight;
    struct process *it;
    if (counts.steps == inspected) return;
    if (options.checks) counts.failed_checks += record(0, jw_check(&engine, &checked), "check") < 0;
    inspected = counts.steps;
    if (!options.verifies) return;
    LIST_FOREACH(it, &processes, entries) {
        size_t count = 0;
        for (int64_t fd = 0; (fd = jw_next_fd(&engine, it->pid, (uint32_t)fd, &ino)) >= 0; fd++) {
            file_at(ino)->places++;
            count++;
        }
        counts.wrong_counts += !it->is_over && count != it->fd_count;
    }
    ino = 0;
    while (jw_next_after(&engine, ino, &ino) == 0 && ino != 0) {
        struct file *file = file_at(ino);
        jw_refs(&engine, ino, &refs);
        jw_inflight(&engine, ino, &inflight);
        counts.wrong_counts += refs != file->places + inflight + file->is_embryo;
        file->places = 0;
    }
}

/* Counts a file that the collector frees, by who sent it last. The last row is for all others. */
static void note_leak(const struct file *file) {
    int i = 0;
    while (i < MOST_LEAKS - 1 && leaks[i].count[0] + leaks[i].count[1] > 0 &&
           (leaks[i].sender.user.pid != file->sender.user.pid ||
            strcmp(leaks[i].sender.name, file->sender.name) != 0))
        i++;
    leaks[i].sender = file->sender;
    leaks[i].count[file->kind == JW_PLAIN]++;
}

/* Frees what the last call or the collector freed, touches and wakes what changed, recounts. */
void settle(bool is_collected) {
    static uint64_t inos[JW_MAX_FILES];
    int64_t freed = jw_released(&engine, inos, JW_MAX_FILES);
    for (int64_t i = 0; i < freed; i++) {
        struct file *file = file_at(inos[i]);
        if (file == NULL) continue;
        if (is_collected) note_leak(file);
        drop_queue(file);
        if (is_collected) refresh(file); /* It had no messages, so its peer sees no reset. */
        if (file->kind == JW_DGRAM) wake(EVERYONE); /* Those that send to it. */
        free_file(file);
    }
    int64_t changed = jw_changed(&engine, inos, JW_MAX_FILES);
    for (int64_t i = 0; i < changed; i++) {
        struct file *file = file_at(inos[i]);
        touch(file);
        wake_ends(file);
    }
    if (freed + changed > 0) jw_clear_told(&engine);
    inspect();
}

/* Does one slice or one pass, if one is due. Returns whether more is to do. */
bool collect(void) {
    struct jw_finished over = {0, 0};
    uint64_t in_flight = 0, pass = 0;
    if (!is_running) {
        if (is_collection_due) jw_total(&engine, &in_flight);
        bool is_due = in_flight > 0 && options.collector != COLLECT_NEVER;
        is_collection_due = false;
        if (!is_due) return false;
        if (options.collector == COLLECT_SLICES)
            is_running = record(0, jw_begin(&engine, &pass), "begin") == 0;
    }
    int64_t answer = is_running
        ? record(0, jw_slice(&engine, options.budget, &over), "slice %u", options.budget)
        : record(0, jw_pass(&engine, &over), "pass");
    is_running = answer == 1;
    counts.passes += answer == 0;
    counts.reclaimed += over.reclaimed;
    settle(true);
    return is_running || is_collection_due;
}

static void write_picture(void) {
    static uint8_t picture[MOST_PICTURE];
    size_t length = (size_t)jw_graph(&engine, picture, sizeof picture);
    if (options.graph != NULL) fwrite(picture, 1, MIN(length, MOST_PICTURE), options.graph);
}

/* Closes an output. Returns whether all of it was written, and else says why not. */
static bool close_output(FILE *output, const char *what) {
    if (output == NULL) return true;
    bool is_written = fflush(output) == 0 && !ferror(output);
    if (!is_written) warn("%s is lost", what);
    return fclose(output) == 0 && is_written;
}

static void print_leaks(void) {
    fprintf(stderr, "unixbox: leaked in cycles, by who sent it last (0: nobody)\n"
            "    pid program          sockets  plain files\n");
    for (int i = 0; i < MOST_LEAKS && leaks[i].count[0] + leaks[i].count[1] > 0; i++)
        fprintf(stderr, "%7d %-16s %7lu  %11lu\n", leaks[i].sender.user.pid, leaks[i].sender.name,
                leaks[i].count[0], leaks[i].count[1]);
}

/* Says what was found. */
static void print_counts(void) {
    uint64_t live = 0;
    jw_live(&engine, &live);
    uint64_t wrong = counts.other_numbers + counts.wrong_counts + counts.failed_checks +
                     counts.lost + counts.unknown + live;
    if (options.is_quiet && wrong == 0) return;
    fprintf(stderr, "unixbox: %lu calls, %lu layer calls, %lu passes, %lu sockets reclaimed\n"
            "unixbox: %lu other numbers, %lu wrong counts, %lu failed checks, %lu lost messages, "
            "%lu unknown callers, %lu files left\n", counts.calls, counts.steps, counts.passes,
            counts.reclaimed, counts.other_numbers, counts.wrong_counts, counts.failed_checks,
            counts.lost, counts.unknown, live);
    if (counts.reclaimed > 0) print_leaks();
}

/* Writes the picture, does the last pass, and says what was found. Returns whether all that was
 * asked for is written. */
bool conclude(void) {
    write_picture();
    bool is_drawn = close_output(options.graph, "the picture");
    options.collector = COLLECT_PASSES;
    do is_collection_due = true; while (collect());
    bool is_recorded = close_output(options.script, "the script");
    print_counts();
    jw_engine_free(&engine);
    return is_drawn && is_recorded;
}
