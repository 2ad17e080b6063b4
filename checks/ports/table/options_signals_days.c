#define _GNU_SOURCE
#include <getopt.h>
#include <locale.h>
#include <signal.h>
#include <stdio.h>
#include <stdlib.h>
#include <string.h>
#include <time.h>
#include <unistd.h>
#include <err.h>
static int flag, caught;
static void on(int n) { caught += n; }
static void reset(void) { optind = 0; }
int main(int argc, char **argv)
{
    static const struct option longs[] = { { "add", required_argument, NULL, 'a' }, { "verbose", no_argument, &flag, 7 }, { "version", no_argument, NULL, 'V' }, { "colour", optional_argument, 0, 'c' }, { 0, 0, 0, 0 } };
    int c, at, k;
    char **copy = malloc((argc + 1) * sizeof *copy);
    char *text = setlocale(LC_ALL, "C");
    struct tm day, *t;
    time_t then = 951827696, now = time(NULL);
    char line[200];
    sighandler_t was;
    for (k = 0; k <= argc; k++) copy[k] = argv[k];
    opterr = 0;
    while (at = -1, (c = getopt_long(argc, copy, "a:bc::V", longs, &at)) != -1)
        printf("%d %d %s %d %d\n", c, at, optarg ? optarg : "-", optind, optopt);
    printf("flag %d\n", flag);
    for (k = 1; k < argc; k++) printf("%s%c", copy[k], k + 1 < argc ? ' ' : '\n');
    reset();
    while ((c = getopt(argc, argv, "+:a:bc::V")) != -1)
        printf("%c %s %d\n", c, optarg ? optarg : "-", optind);
    printf("%s %d\n", text ? text : "none", now >= 0);
    was = signal(SIGUSR1, SIG_IGN); printf("%d\n", was == SIG_DFL);
    raise(SIGUSR1);
    was = signal(SIGUSR1, on); printf("%d\n", was == SIG_IGN);
    raise(SIGUSR1); raise(SIGUSR1); printf("%d\n", caught);
    t = gmtime(&then); printf("%d-%d-%d %d:%d:%d %d %d\n", t->tm_year, t->tm_mon, t->tm_mday, t->tm_hour, t->tm_min, t->tm_sec, t->tm_wday, t->tm_yday);
    strftime(line, sizeof line, "%a %A %b %B %C %d %D %e %F %g %G %H %I %j %k %l %m %M %p %P %r %R %S %T %u %U %V %w %W %x %X %y %Y %% %c|%-d|%_m|%^a", t); puts(line);
    day = *t; day.tm_mday += 400; day.tm_mon = 14; printf("%d\n", (int)timegm(&day)); printf("%s", asctime(&day));
    then = -1; printf("%s", asctime(gmtime(&then)));
    for (then = -2000000000; then < 2000000000; then += 123456789) { t = gmtime(&then); strftime(line, 100, "%F %T %j %G-%V-%u %U %W", t); puts(line); }
    printf("%d\n", setlocale(LC_ALL, "xx_YY") == NULL);
    printf("%s\n", localeconv()->decimal_point);
    return caught;
}
/* words -b x -a1 --add 2 --verb --ver --vers --colour=red --colour y -cblue -z --add= --none -- -b last */
/* writes
98 -1 - 2 0
97 -1 1 4 0
97 0 2 6 0
0 1 - 7 0
63 -1 - 8 0
86 2 - 9 0
99 3 red 10 0
99 3 - 11 0
99 -1 blue 13 0
63 -1 - 14 122
97 0  15 122
63 -1 - 16 0
flag 7
-b -a1 --add 2 --verb --ver --vers --colour=red --colour -cblue -z --add= --none -- x y -b last
b - 2
C 1
1
1
20
100-1-29 12:34:56 2 59
Tue Tuesday Feb February 20 29 02/29/00 29 2000-02-29 00 2000 12 12 060 12 12 02 34 PM pm 12:34:56 PM 12:34 56 12:34:56 2 09 09 2 09 02/29/00 12:34:56 00 2000 % Tue Feb 29 12:34:56 2000|29| 2|TUE
1020429296
Fri May  3 12:34:56 2002
Wed Dec 31 23:59:59 1969
1906-08-16 20:26:40 228 1906-33-4 32 33
1910-07-15 17:59:49 196 1910-28-5 28 28
1914-06-13 15:32:58 164 1914-24-6 23 23
1918-05-12 13:06:07 132 1918-19-7 19 18
1922-04-10 10:39:16 100 1922-15-1 15 15
1926-03-09 08:12:25 068 1926-10-2 10 10
1930-02-05 05:45:34 036 1930-06-3 05 05
1934-01-04 03:18:43 004 1934-01-4 00 01
1937-12-03 00:51:52 337 1937-48-5 48 48
1941-10-31 22:25:01 304 1941-44-5 43 43
1945-09-29 19:58:10 272 1945-39-6 38 39
1949-08-28 17:31:19 240 1949-34-7 35 34
1953-07-27 15:04:28 208 1953-31-1 30 30
1957-06-25 12:37:37 176 1957-26-2 25 25
1961-05-24 10:10:46 144 1961-21-3 21 21
1965-04-22 07:43:55 112 1965-16-4 16 16
1969-03-21 05:17:04 080 1969-12-5 11 11
1973-02-17 02:50:13 048 1973-07-6 06 07
1977-01-16 00:23:22 016 1977-02-7 03 02
1980-12-14 21:56:31 349 1980-50-7 50 49
1984-11-12 19:29:40 317 1984-46-1 46 46
1988-10-11 17:02:49 285 1988-41-2 41 41
1992-09-09 14:35:58 253 1992-37-3 36 36
1996-08-08 12:09:07 221 1996-32-4 31 32
2000-07-07 09:42:16 189 2000-27-5 27 27
2004-06-05 07:15:25 157 2004-23-6 22 22
2008-05-04 04:48:34 125 2008-18-7 18 17
2012-04-02 02:21:43 093 2012-14-1 14 14
2016-02-29 23:54:52 060 2016-09-1 09 09
2020-01-28 21:28:01 028 2020-05-2 04 04
2023-12-27 19:01:10 361 2023-52-3 52 52
2027-11-25 16:34:19 329 2027-47-4 47 47
2031-10-24 14:07:28 297 2031-43-5 42 42
1
.
status 20 */
