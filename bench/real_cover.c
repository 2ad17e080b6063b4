/* Writes gcc's counters of a run that a signal ends. */
#include <signal.h>
#include <unistd.h>
void __gcov_dump(void);
static char aside[1 << 16];
static const int signals[] = {SIGSEGV, SIGBUS, SIGFPE, SIGILL, SIGABRT, SIGTERM, SIGSYS};
static void ended(int number)
{
    signal(SIGALRM, SIG_DFL);
    alarm(5);
    __gcov_dump();
    _exit(128 + number);
}
__attribute__((constructor)) static void begin(void)
{
    stack_t stack = {.ss_sp = aside, .ss_size = sizeof aside};
    struct sigaction action = {.sa_handler = ended, .sa_flags = SA_ONSTACK | SA_NODEFER | SA_RESETHAND};
    sigaltstack(&stack, 0);
    for (unsigned place = 0; place < sizeof signals / sizeof *signals; place++)
        sigaction(signals[place], &action, 0);
}
