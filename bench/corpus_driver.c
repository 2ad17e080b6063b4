/* Runs a program's main in a child for each line of its input, which names a file that is read, one that is written, and a folder for coverage. */
#include <fcntl.h>
#include <signal.h>
#include <stdio.h>
#include <stdlib.h>
#include <string.h>
#include <sys/mman.h>
#include <sys/resource.h>
#include <sys/time.h>
#include <sys/wait.h>
#include <unistd.h>
int program_main(void);
int main(int, char **);
void __gcov_dump(void);
void *__libc_malloc(size_t);
void *__libc_calloc(size_t, size_t);
void *__libc_realloc(void *, size_t);
void __libc_free(void *);
static char aside[65536];
/* Numbers of a table: how many counters, where each is from main, how many lines, and of each line its sums (of a number of counters, with factors). */
static long *table;
static unsigned char *marks;
static int is_sure, is_returned;
static char room[1 << 20];
static size_t taken;
static int has_crashed;
/* What a crash needs has a room of its own, since the heap may be broken by then. */
static void *taken_aside(size_t size)
{
    void *found = room + taken;
    taken += (size + 15) / 16 * 16;
    return taken <= sizeof room ? found : NULL;
}
void *malloc(size_t size)
{
    return has_crashed ? taken_aside(size) : __libc_malloc(size);
}
void *calloc(size_t count, size_t size)
{
    return has_crashed ? taken_aside(count * size) : __libc_calloc(count, size);
}
void *realloc(void *old, size_t size)
{
    return has_crashed ? NULL : __libc_realloc(old, size);
}
void free(void *old)
{
    if (!has_crashed)
        __libc_free(old);
}
static void ended(int signal)
{
    has_crashed = 1;
#ifdef COVERED
    __gcov_dump();
#endif
    _exit(128 + signal);
}
/* Whether one of the sums that stand here is above 0; goes on behind them. */
static int is_above(const long **at)
{
    const long *next = *at;
    long sums = *next++, terms, sum;
    int found = 0;
    for (; sums > 0; sums--) {
        for (sum = 0, terms = *next++; terms > 0; terms--, next += 2)
            sum += next[1] * *(long *)((char *)main + table[1 + next[0]]);
        found |= sum > 0;
    }
    *at = next;
    return found;
}
static void mark_lines(void)
{
    const long *at = table + 1 + table[0];
    long lines = *at++, i;
    marks[0] = 1;
    for (i = 1; i <= lines; i++)
        marks[i] = is_above(&at);
}
/* A run that came to its end; main may have been left by exit, too. */
static void finished(int status, void *nothing)
{
    fflush(NULL);
    if (table && is_returned)
        mark_lines();
#ifdef COVERED
    if (!table || !is_returned || is_sure)
        __gcov_dump();
#endif
    _exit(status);
}
static void child(const char *given, const char *out, const char *coverage)
{
    static const int signals[] = { SIGSEGV, SIGBUS, SIGFPE, SIGILL, SIGABRT, SIGVTALRM };
    struct rlimit room = { 1 << 26, 1 << 26 };
    struct itimerval span = { { 0, 0 }, { 0, 50000 } };
    stack_t stack;
    struct sigaction action;
    size_t i;
    int status;
    memset(&stack, 0, sizeof stack);
    stack.ss_sp = aside;
    stack.ss_size = sizeof aside;
    sigaltstack(&stack, NULL);
    memset(&action, 0, sizeof action);
    action.sa_handler = ended;
    action.sa_flags = SA_ONSTACK;
    for (i = 0; i < sizeof signals / sizeof *signals; i++)
        sigaction(signals[i], &action, NULL);
    setrlimit(RLIMIT_FSIZE, &room);
    setenv("GCOV_PREFIX", coverage, 1);
    setenv("GCOV_PREFIX_STRIP", "99", 1);
    if (!freopen(given, "r", stdin) || !freopen(out, "w", stdout) || !freopen("/dev/null", "w", stderr))
        _exit(99);
    on_exit(finished, NULL);
    setitimer(ITIMER_VIRTUAL, &span, NULL);
    status = program_main();
    is_returned = 1;
    exit(status);
}
static void read_table(const char *name)
{
    FILE *file = fopen(name, "r");
    long count, i;
    if (!file || fscanf(file, "%ld", &count) != 1)
        exit(98);
    table = __libc_malloc(count * sizeof *table);
    for (i = 0; i < count; i++)
        if (fscanf(file, "%ld", table + i) != 1)
            exit(98);
    fclose(file);
    marks = mmap(NULL, 1 + table[1 + table[0]], PROT_READ | PROT_WRITE, MAP_SHARED | MAP_ANONYMOUS, -1, 0);
}
/* How a run ended, and where its lines are known a 1 for each that it came to. */
static void tell(int status)
{
    long i;
    printf("%d ", WIFEXITED(status) ? WEXITSTATUS(status) : 128 + WTERMSIG(status));
    if (table && marks[0])
        for (i = 1; i <= table[1 + table[0]]; i++)
            putchar('0' + marks[i]);
    putchar('\n');
}
int main(int count, char **words)
{
    static char line[4096];
    if (count > 1)
        read_table(words[1]);
    while (fgets(line, sizeof line, stdin)) {
        char *given = strtok(line, " \n"), *out = strtok(NULL, " \n"), *coverage = strtok(NULL, " \n");
        int status = 0;
        pid_t pid;
        fflush(stdout);
        is_sure = coverage && strtok(NULL, " \n");
        if (table)
            marks[0] = 0;
        pid = fork();
        if (pid == 0)
            child(given, out, coverage ? coverage : "/nowhere");
        waitpid(pid, &status, 0);
        tell(status);
    }
    return 0;
}
