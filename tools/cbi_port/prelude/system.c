// What POSIX has beside files: signals that never come from outside, one process, one user, one locale.
#include <errno.h>
#include <locale.h>
#include <pwd.h>
#include <signal.h>
#include <stdio.h>
#include <stdlib.h>
#include <string.h>
#include <sys/time.h>
#include <time.h>
#include <unistd.h>
struct __cbi_signal_state { sighandler_t called[65]; int once[65]; };
struct __cbi_signal_state __cbi_signals;
int __cbi_is_signal(int number, int sets) {
    if (number > 0 && number < 65 && !(sets && (number == SIGKILL || number == SIGSTOP))) return 1;
    errno = EINVAL;
    return 0;
}
sighandler_t signal(int number, sighandler_t called) {
    sighandler_t before;
    if (!__cbi_is_signal(number, 1)) return SIG_ERR;
    before = __cbi_signals.called[number];
    __cbi_signals.called[number] = called;
    __cbi_signals.once[number] = 0;
    return before;
}
sighandler_t ssignal(int number, sighandler_t called) { return signal(number, called); }
int sigaction(int number, const struct sigaction *now, struct sigaction *before) {
    if (!__cbi_is_signal(number, now != 0)) return -1;
    if (before) { before->sa_handler = __cbi_signals.called[number]; before->sa_flags = __cbi_signals.once[number] ? (int)SA_RESETHAND : 0; sigemptyset(&before->sa_mask); }
    if (now) { __cbi_signals.called[number] = now->sa_handler; __cbi_signals.once[number] = ((unsigned)now->sa_flags & SA_RESETHAND) != 0; }
    return 0;
}
int raise(int number) {
    sighandler_t called;
    if (!__cbi_is_signal(number, 0)) return -1;
    called = __cbi_signals.called[number];
    if (called == SIG_IGN) return 0;
    if (called == SIG_DFL) {
        if (number == SIGCHLD || number == SIGURG || number == SIGWINCH || number == SIGCONT) return 0;
        abort();
    }
    if (__cbi_signals.once[number]) __cbi_signals.called[number] = SIG_DFL;
    called(number);
    return 0;
}
int gsignal(int number) { return raise(number); }
int kill(int process, int number) { if (process != 1 && process != 0) { errno = ESRCH; return -1; } return number ? raise(number) : 0; }
int sigemptyset(sigset_t *set) { int n; for (n = 0; n < 32; n++) set->words[n] = 0; return 0; }
int sigfillset(sigset_t *set) { int n; for (n = 0; n < 32; n++) set->words[n] = 4294967295u; return 0; }
int sigaddset(sigset_t *set, int number) { if (!__cbi_is_signal(number, 0)) return -1; set->words[(number - 1) / 32] |= 1u << (number - 1) % 32; return 0; }
int sigdelset(sigset_t *set, int number) { if (!__cbi_is_signal(number, 0)) return -1; set->words[(number - 1) / 32] &= ~(1u << (number - 1) % 32); return 0; }
int sigismember(const sigset_t *set, int number) { if (!__cbi_is_signal(number, 0)) return -1; return set->words[(number - 1) / 32] >> (number - 1) % 32 & 1u; }
int sigprocmask(int how, const sigset_t *now, sigset_t *before) { if (before) sigemptyset(before); return 0; }
int siginterrupt(int number, int flag) { return __cbi_is_signal(number, 1) ? 0 : -1; }
unsigned alarm(unsigned seconds) { return 0; }
unsigned sleep(unsigned seconds) { return 0; }
int usleep(unsigned most) { return 0; }
int nanosleep(const struct timespec *now, struct timespec *left) { if (left) { left->tv_sec = 0; left->tv_nsec = 0; } return 0; }
int system(const char *command) { if (!command) return 0; errno = ENOSYS; return -1; }
struct __cbi_FILE *popen(const char *command, const char *mode) { errno = ENOSYS; return 0; }
int __cbi_is_open(int number);
int pclose(struct __cbi_FILE *f) { errno = ECHILD; return -1; }
int getpid(void) { return 1; }
int getppid(void) { return 0; }
unsigned getuid(void) { return 1000; }
unsigned geteuid(void) { return 1000; }
unsigned getgid(void) { return 1000; }
unsigned getegid(void) { return 1000; }
int getpagesize(void) { return 4096; }
int pathconf(const char *name, int what) { if (what == _PC_PATH_MAX || what == _PC_PIPE_BUF) return 4096; if (what == _PC_NAME_MAX) return 255; errno = EINVAL; return -1; }
int ioctl(int number, unsigned what, ...) { errno = __cbi_is_open(number) ? ENOTTY : EBADF; return -1; }
char *getlogin(void) { return "user"; }
struct passwd __cbi_user = { "user", "x", 1000, 1000, "", "/", "/bin/sh" };
struct passwd *getpwuid(unsigned number) { return number == 1000 ? &__cbi_user : 0; }
struct passwd *getpwnam(const char *name) { return strcmp(name, "user") ? 0 : &__cbi_user; }
char *getcwd(char *to, unsigned room) {
    if (to && room < 2) { errno = room ? ERANGE : EINVAL; return 0; }
    if (!to) to = malloc(room < 2 ? 2 : room);
    to[0] = '/'; to[1] = 0;
    return to;
}
int gethostname(char *to, unsigned room) { if (room < 5) { errno = ENAMETOOLONG; return -1; } strcpy(to, "host"); return 0; }
int chdir(const char *to) { errno = ENOENT; return strcmp(to, "/") && strcmp(to, ".") ? -1 : 0; }
unsigned umask(unsigned mode) { return 18; }
char *setlocale(int what, const char *name) { return what < 0 || what > 12 || name && *name && strcmp(name, "C") && strcmp(name, "POSIX") ? 0 : "C"; }
struct lconv __cbi_conventions = { ".", "", "", "", "", "", "", "", "", "", 127, 127, 127, 127, 127, 127, 127, 127 };
struct lconv *localeconv(void) { return &__cbi_conventions; }
char *nl_langinfo(int what) { return what == 14 ? "ANSI_X3.4-1968" : what == 65536 ? "." : ""; }
void __cbi_told(int with, const char *form, va_list more) {
#ifdef __CBI_STDERR__
    int number = errno;
    fputs("prog: ", &__cbi_errors);
    if (form) vfprintf(&__cbi_errors, form, more);
    if (with) fprintf(&__cbi_errors, form ? ": %s" : "%s", strerror(number));
    fputs("\n", &__cbi_errors);
#endif
}
void vwarn(const char *form, va_list more) { __cbi_told(1, form, more); }
void vwarnx(const char *form, va_list more) { __cbi_told(0, form, more); }
void warn(const char *form, ...) { va_list more; va_start(more, form); __cbi_told(1, form, more); }
void warnx(const char *form, ...) { va_list more; va_start(more, form); __cbi_told(0, form, more); }
void verr(int status, const char *form, va_list more) { __cbi_told(1, form, more); exit(status); }
void verrx(int status, const char *form, va_list more) { __cbi_told(0, form, more); exit(status); }
void err(int status, const char *form, ...) { va_list more; va_start(more, form); __cbi_told(1, form, more); exit(status); }
void errx(int status, const char *form, ...) { va_list more; va_start(more, form); __cbi_told(0, form, more); exit(status); }
void error(int status, int number, const char *form, ...) {
#ifdef __CBI_STDERR__
    va_list more;
    va_start(more, form);
    fputs("prog: ", &__cbi_errors);
    vfprintf(&__cbi_errors, form, more);
    if (number) fprintf(&__cbi_errors, ": %s", strerror(number));
    fputs("\n", &__cbi_errors);
#endif
    if (status) exit(status);
}
