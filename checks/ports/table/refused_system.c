#include <dirent.h>
#include <fcntl.h>
#include <locale.h>
#include <pwd.h>
#include <setjmp.h>
#include <signal.h>
#include <stdio.h>
#include <sys/stat.h>
#include <termios.h>
#include <time.h>
#include <unistd.h>
#include <wchar.h>
static int day_of_stop;
static void stop(int n)
{
    day_of_stop = n;
}
static int of_names(int n) { return n == STDIN_FILENO && O_RDONLY == 0 && LC_ALL == 6; }
int main(int argc, char **argv)
{
    struct stat s;
    struct tm day = { 0 };
    char b[10];
    int (*f)(int *) = pipe;
    if (day_of_stop)
        return 1;
    if (fork() == 0)
        execv(argv[0], argv);
    if (stat("x", &s) == 0 && S_ISREG(s.st_mode))
        read(0, b, sizeof b);
    if (0)
        pause();
    while (mkdir(argv[1], 0755))
        puts(environ[0]);
    signal(SIGINT, stop);
    return f(0) + (int)wcstol(L"1", 0, 10) + day.tm_year + of_names(2);
}
/* refused 24 `pipe` */
/* refused 27 `fork` */
/* refused 28 `execv` */
/* refused 33 `mkdir` */
/* refused 34 `environ` */
/* refused 36 `wcstol` */
