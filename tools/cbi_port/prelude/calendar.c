// <time.h>: the clock stands at 0, the first of January 1970, and the time zone is UTC.
#include <errno.h>
#include <stdio.h>
#include <string.h>
#include <sys/time.h>
#include <time.h>
int time(int *to) { if (to) *to = 0; return 0; }
int gettimeofday(struct timeval *to, void *zone) { to->tv_sec = 0; to->tv_usec = 0; return 0; }
int clock_gettime(int which, struct timespec *to) { to->tv_sec = 0; to->tv_nsec = 0; return 0; }
int clock_getres(int which, struct timespec *to) { if (to) { to->tv_sec = 0; to->tv_nsec = 1; } return 0; }
double difftime(int to, int from) { return (double)to - from; }
void tzset(void) { }
int __cbi_leap(int year) { return year % 4 == 0 && (year % 100 != 0 || year % 400 == 0); }
int __cbi_month_begins(int month, int leap) { int days = 0; int n; for (n = 0; n < month; n++) days += n == 1 ? 28 + leap : 31 - (n == 3 || n == 5 || n == 8 || n == 10); return days; }
int __cbi_floored(int a, int b) { int q = a / b; return a % b < 0 ? q - 1 : q; }
// Days from the first of January 1970 to that of a year.
int __cbi_year_begins(int year) { int y = year - 1; return 365 * (year - 1970) + (__cbi_floored(y, 4) - 492) - (__cbi_floored(y, 100) - 19) + (__cbi_floored(y, 400) - 4); }
struct tm *gmtime_r(const int *at, struct tm *to) {
    int days = __cbi_floored(*at, 86400); int rest = *at - days * 86400; int year = 1970 + __cbi_floored(days, 366); int month = 0; int day;
    while (__cbi_year_begins(year + 1) <= days) year++;
    while (__cbi_year_begins(year) > days) year--;
    day = days - __cbi_year_begins(year);
    while (month < 11 && __cbi_month_begins(month + 1, __cbi_leap(year)) <= day) month++;
    to->tm_sec = rest % 60; to->tm_min = rest / 60 % 60; to->tm_hour = rest / 3600;
    to->tm_mday = day - __cbi_month_begins(month, __cbi_leap(year)) + 1; to->tm_mon = month; to->tm_year = year - 1900;
    to->tm_wday = ((days % 7 + 7) % 7 + 4) % 7; to->tm_yday = day; to->tm_isdst = 0; to->tm_gmtoff = 0; to->tm_zone = "GMT";
    return to;
}
struct __cbi_day_state { struct tm day; char text[40]; };
struct __cbi_day_state __cbi_day;
struct tm *gmtime(const int *at) { return gmtime_r(at, &__cbi_day.day); }
struct tm *localtime_r(const int *at, struct tm *to) { gmtime_r(at, to); to->tm_zone = "UTC"; return to; }
struct tm *localtime(const int *at) { return localtime_r(at, &__cbi_day.day); }
int __cbi_seconds(struct tm *at) {
    int year = at->tm_year + __cbi_floored(at->tm_mon, 12); int month = at->tm_mon - 12 * __cbi_floored(at->tm_mon, 12); int days; int n;
    long long sum;
    year += 1900;
    if (year < 1800 || year > 2200) { errno = EOVERFLOW; return -1; }
    days = __cbi_year_begins(year) + __cbi_month_begins(month, __cbi_leap(year));
    sum = ((long long)days + at->tm_mday - 1) * 86400 + (long long)at->tm_hour * 3600 + (long long)at->tm_min * 60 + at->tm_sec;
    if (sum > 2147483647 || sum < -2147483647 - 1) { errno = EOVERFLOW; return -1; }
    n = (int)sum;
    localtime_r(&n, at);
    return n;
}
int mktime(struct tm *at) { return __cbi_seconds(at); }
int timelocal(struct tm *at) { return __cbi_seconds(at); }
int timegm(struct tm *at) { int n = __cbi_seconds(at); at->tm_zone = "GMT"; return n; }
const char *__cbi_day_name(int n) { return n == 0 ? "Sunday" : n == 1 ? "Monday" : n == 2 ? "Tuesday" : n == 3 ? "Wednesday" : n == 4 ? "Thursday" : n == 5 ? "Friday" : n == 6 ? "Saturday" : "?"; }
const char *__cbi_month_name(int n) {
    return n == 0 ? "January" : n == 1 ? "February" : n == 2 ? "March" : n == 3 ? "April" : n == 4 ? "May" : n == 5 ? "June" : n == 6 ? "July" : n == 7 ? "August"
        : n == 8 ? "September" : n == 9 ? "October" : n == 10 ? "November" : n == 11 ? "December" : "?";
}
char *asctime_r(const struct tm *at, char *to) {
    sprintf(to, "%.3s %.3s%3d %.2d:%.2d:%.2d %d\n", __cbi_day_name(at->tm_wday), __cbi_month_name(at->tm_mon), at->tm_mday, at->tm_hour, at->tm_min, at->tm_sec, 1900 + at->tm_year);
    return to;
}
char *asctime(const struct tm *at) { return asctime_r(at, __cbi_day.text); }
char *ctime_r(const int *at, char *to) { struct tm day; return asctime_r(localtime_r(at, &day), to); }
char *ctime(const int *at) { return asctime(localtime(at)); }
// The week of ISO 8601 in which a day is, and its year.
int __cbi_week(const struct tm *at, int *year) {
    int day = (at->tm_wday + 6) % 7; int week = (at->tm_yday - day + 10) / 7; int last;
    *year = 1900 + at->tm_year;
    if (week < 1) {
        last = at->tm_yday + 365 + __cbi_leap(*year - 1);
        *year = *year - 1;
        return (last - day + 10) / 7;
    }
    if (week == 53 && at->tm_yday - day + 3 >= 365 + __cbi_leap(*year)) { *year = *year + 1; return 1; }
    return week;
}
// A number of a form of strftime: `pad` is '0', '_' or '-'.
int __cbi_day_digits(char *to, int n, int digits, int pad) { return sprintf(to, pad == '_' ? "%*d" : "%0*d", pad == '-' ? 1 : digits, n); }
int __cbi_day_part(char *to, int letter, const struct tm *at, int pad) {
    int year = 1900 + at->tm_year; int of_week; int zero = pad ? pad : '0'; int blank = pad ? pad : '_'; int hour = at->tm_hour % 12 ? at->tm_hour % 12 : 12;
    if (letter == 'a') return sprintf(to, "%.3s", __cbi_day_name(at->tm_wday));
    if (letter == 'A') return sprintf(to, "%s", __cbi_day_name(at->tm_wday));
    if (letter == 'b' || letter == 'h') return sprintf(to, "%.3s", __cbi_month_name(at->tm_mon));
    if (letter == 'B') return sprintf(to, "%s", __cbi_month_name(at->tm_mon));
    if (letter == 'C') return __cbi_day_digits(to, __cbi_floored(year, 100), 2, zero);
    if (letter == 'd') return __cbi_day_digits(to, at->tm_mday, 2, zero);
    if (letter == 'e') return __cbi_day_digits(to, at->tm_mday, 2, blank);
    if (letter == 'H') return __cbi_day_digits(to, at->tm_hour, 2, zero);
    if (letter == 'I') return __cbi_day_digits(to, hour, 2, zero);
    if (letter == 'j') return __cbi_day_digits(to, at->tm_yday + 1, 3, zero);
    if (letter == 'k') return __cbi_day_digits(to, at->tm_hour, 2, blank);
    if (letter == 'l') return __cbi_day_digits(to, hour, 2, blank);
    if (letter == 'm') return __cbi_day_digits(to, at->tm_mon + 1, 2, zero);
    if (letter == 'M') return __cbi_day_digits(to, at->tm_min, 2, zero);
    if (letter == 'p') return sprintf(to, "%s", at->tm_hour >= 12 ? "PM" : "AM");
    if (letter == 'P') return sprintf(to, "%s", at->tm_hour >= 12 ? "pm" : "am");
    if (letter == 'S') return __cbi_day_digits(to, at->tm_sec, 2, zero);
    if (letter == 'u') return sprintf(to, "%d", at->tm_wday ? at->tm_wday : 7);
    if (letter == 'U') return __cbi_day_digits(to, (at->tm_yday - at->tm_wday + 7) / 7, 2, zero);
    if (letter == 'V') return __cbi_day_digits(to, __cbi_week(at, &of_week), 2, zero);
    if (letter == 'g') { __cbi_week(at, &of_week); return __cbi_day_digits(to, (of_week % 100 + 100) % 100, 2, zero); }
    if (letter == 'G') { __cbi_week(at, &of_week); return sprintf(to, "%d", of_week); }
    if (letter == 'w') return sprintf(to, "%d", at->tm_wday);
    if (letter == 'W') return __cbi_day_digits(to, (at->tm_yday - (at->tm_wday + 6) % 7 + 7) / 7, 2, zero);
    if (letter == 'y') return __cbi_day_digits(to, (year % 100 + 100) % 100, 2, zero);
    if (letter == 'Y') return sprintf(to, "%d", year);
    if (letter == 'z') return sprintf(to, "+0000");
    if (letter == 'Z') return sprintf(to, "%s", at->tm_zone ? at->tm_zone : "");
    return -1;
}
const char *__cbi_day_form(int letter) {
    return letter == 'c' ? "%a %b %e %H:%M:%S %Y" : letter == 'D' || letter == 'x' ? "%m/%d/%y" : letter == 'F' ? "%Y-%m-%d" : letter == 'r' ? "%I:%M:%S %p"
        : letter == 'R' ? "%H:%M" : letter == 'T' || letter == 'X' ? "%H:%M:%S" : 0;
}
unsigned strftime(char *to, unsigned room, const char *form, const struct tm *at) {
    unsigned n = 0; char part[40]; int length; int k; int pad; int great; struct tm day;
    while (*form) {
        pad = 0; great = 0; length = 1; part[0] = *form;
        if (*form == '%') {
            form++;
            while (*form == '-' || *form == '_' || *form == '0' || *form == '^' || *form == '#') { if (*form == '^') great = 1; else if (*form != '#') pad = *form; form++; }
            if (*form == 'E' || *form == 'O') form++;
            if (*form == '%') part[0] = '%';
            else if (*form == 'n') part[0] = '\n';
            else if (*form == 't') part[0] = '\t';
            else if (*form == 's') { day = *at; length = sprintf(part, "%d", mktime(&day)); }
            else if (__cbi_day_form(*form)) length = strftime(part, 40, __cbi_day_form(*form), at);
            else length = __cbi_day_part(part, *form, at, pad);
            if (length < 0) { part[0] = '%'; part[1] = *form; length = *form ? 2 : 1; }
        }
        if (n + (unsigned)length >= room) return 0;
        for (k = 0; k < length; k++) { to[n] = great && part[k] >= 'a' && part[k] <= 'z' ? part[k] - 32 : part[k]; n++; }
        if (*form) form++;
    }
    if (n < room) to[n] = 0;
    return n;
}
int daylight;
int timezone;
