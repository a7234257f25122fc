/* The options of unixbox. */
#include "unixbox.h"
#include <err.h>
#include <getopt.h>

static const char usage[] =
    "usage: unixbox [OPTION ..] PROGRAM [ARGUMENT ..]\n"
    "Runs a program, and all that it forks, with its AF_UNIX sockets on the layer.\n\n"
    "  --gc slice|pass|none  collect by slices (as without this), by whole passes, or at the end\n"
    "  --budget FILES        how many files a slice looks at, 1 to 65536; 4 without this\n"
    "  --graph FILE          write a picture of what is left, for Graphviz\n"
    "  --script FILE         write all steps as a script of scmgc\n"
    "  --verify              after each call recount the references to each file\n"
    "  --check               after each call let the layer check all that it keeps\n"
    "  --quiet               say nothing at the end where nothing is wrong\n"
    "  --oob                 ignore MSG_OOB on streams\n"
    "  --procnet             show sockets in the program's /proc/net/unix\n\n"
    "The status is the program's, or 128 and the number of the signal that ended it. It is 125\n"
    "where unixbox fails, 126 where the program cannot be run, and 127 where there is none.\n";

static const struct option names[] = {
    {"gc", required_argument, NULL, 'g'}, {"budget", required_argument, NULL, 'b'},
    {"script", required_argument, NULL, 's'}, {"graph", required_argument, NULL, 'p'},
    {"verify", no_argument, &options.verifies, 1}, {"check", no_argument, &options.checks, 1},
    {"quiet", no_argument, &options.is_quiet, 1}, {"oob", no_argument, &options.oob, 1},
    {"procnet", no_argument, &options.networks, 1}, {"help", no_argument, NULL, 'h'},
    {NULL, 0, NULL, 0}};

struct options options = {.collector = COLLECT_SLICES, .budget = 4};

static void set_collector(const char *name) {
    static const char *const collectors[] = {"none", "slice", "pass"};
    int found = COLLECT_NEVER;
    while (found <= COLLECT_PASSES && strcmp(name, collectors[found]) != 0) found++;
    options.collector = (unsigned)found;
    if (found > COLLECT_PASSES) errx(FAILED, "--gc %s: it is slice, pass or none", name);
}

static void set_budget(const char *text) {
    char *end;
    unsigned long budget = strtoul(text, &end, 10);
    if (*end != '\0' || budget < 1 || budget > JW_MAX_BUDGET)
        errx(FAILED, "--budget %s: it is a number from 1 to %d", text, JW_MAX_BUDGET);
    options.budget = (uint32_t)budget;
}

static FILE *open_output(const char *path) {
    FILE *output = fopen(path, "we");
    if (output == NULL) err(FAILED, "%s", path);
    return output;
}

/* Reads the options. Returns the place of the program. */
int read_options(int argc, char **argv) {
    for (int option; (option = getopt_long(argc, argv, "+", names, NULL)) != -1;) {
        if (option == 'g') set_collector(optarg);
        if (option == 'b') set_budget(optarg);
        if (option == 's') options.script = open_output(optarg);
        if (option == 'p') options.graph = open_output(optarg);
        if (option == '?') exit(FAILED); /* The reason is said. */
        if (option != 'h') continue;
        fputs(usage, stdout);
        exit(fflush(stdout) == 0 ? 0 : FAILED);
    }
    if (optind == argc) errx(FAILED, "no program is given; --help lists what there is");
    return optind;
}
