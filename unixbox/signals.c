/* Signals to unixbox: they are passed on to the program. Where one asks for the end, to unixbox
 * alone or when the program is over, all that the program has left ends, too. */
#include "unixbox.h"

enum { GRACE = 2000 }; /* Milliseconds from the signal to SIGKILL. */
enum origin { NOWHERE, PROCESS, TERMINAL }; /* A terminal sends to the program as well. */

static const int passed[] = {SIGHUP, SIGINT, SIGQUIT, SIGTERM, SIGUSR1, SIGUSR2};
enum { PASSED = sizeof passed / sizeof *passed, ENDS = 4 }; /* The first ask for the end. */

static volatile sig_atomic_t came[NSIG]; /* Where the last of these came from. */
static int ending;                       /* The signal that ends all, or 0. */
static bool is_late;                     /* It came when the program was over. */

static void note_signal(int number, siginfo_t *info, void *none) {
    (void)none;
    came[number] = info->si_code == SI_KERNEL ? TERMINAL : PROCESS;
}

/* Takes in the signals that are passed on. From now on, they come where this mask is in force.
 * Those that are ignored stay so. */
void take_signals(sigset_t *unblocked) {
    struct sigaction taken = {.sa_sigaction = note_signal, .sa_flags = SA_SIGINFO}, old;
    sigset_t set;
    sigemptyset(&set);
    for (int i = 0; i < PASSED; i++) {
        sigaddset(&set, passed[i]);
        if (sigaction(passed[i], NULL, &old) == 0 && old.sa_handler != SIG_IGN)
            sigaction(passed[i], &taken, NULL);
    }
    sigprocmask(SIG_BLOCK, &set, unblocked);
    signal(SIGPIPE, SIG_IGN); /* A script or a picture that cannot be written is told. */
}

static bool send_to_program(int number) {
    return syscall(SYS_pidfd_send_signal, program, number, NULL, 0) == 0;
}

/* Asks all processes to end, and kills those that do not. */
static void end_programs(void) {
    static uint64_t deadline;
    const struct process *it;
    if (deadline == 0)
        LIST_FOREACH(it, &processes, entries)
            syscall(SYS_pidfd_send_signal, it->pidfd, ending, NULL, 0);
    if (deadline == 0) deadline = now() + GRACE;
    if (now() >= deadline) kill(guard, KILL_ALL);
}

/* Passes on what has come, and ends the programs where that asks for it. */
void pass_signals(void) {
    bool is_over = !send_to_program(0);
    for (int i = 0; i < PASSED; i++) {
        int number = passed[i], origin = came[number];
        came[number] = NOWHERE;
        if (origin == NOWHERE || (origin == TERMINAL && !is_over)) continue;
        if (!is_over) send_to_program(number);
        if (i < ENDS) ending = number;
        if (i < ENDS && is_over) is_late = true;
    }
    if (ending != 0 && is_over) end_programs();
}

/* Returns the status of unixbox by that of the program. */
int status_after_signals(int status) {
    return is_late ? 128 + ending : status;
}
