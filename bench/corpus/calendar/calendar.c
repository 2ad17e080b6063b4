#include <ctype.h>
#include <stdio.h>
#include <stdlib.h>
#include <string.h>

/* Calculates with days. Commands, with dates as 2024-02-29:
 *
 *   day D         its day of the week and of the year      add D N     the date N days later
 *   between A B   how many days lie between two dates      month D     a sheet of its month
 *   easter Y      Easter of a year                         week D      its week, as ISO 8601 counts
 *   work A B      working days from A to B, both counted   due D N     the date N working days later
 */

enum weekday { MONDAY, TUESDAY, WEDNESDAY, THURSDAY, FRIDAY, SATURDAY, SUNDAY };

typedef struct {
    int year;
    int month;
    int day;
} date;

static const int lengths[12] = { 31, 28, 31, 30, 31, 30, 31, 31, 30, 31, 30, 31 };
static const char *const day_names[7] = { "Monday", "Tuesday", "Wednesday", "Thursday", "Friday", "Saturday", "Sunday" };

static int is_leap(int year)
{
    return (year % 4 == 0 && year % 100 != 0) || year % 400 == 0;
}

static int month_length(int year, int month)
{
    if (month == 2 && is_leap(year))
        return 29;
    return lengths[month - 1];
}

static int is_date(date d)
{
    return d.year >= 1600 && d.year <= 2400 && d.month >= 1 && d.month <= 12 && d.day >= 1 && d.day <= month_length(d.year, d.month);
}

static int day_of_year(date d)
{
    int n = d.day;
    int month;
    for (month = 1; month < d.month; month++)
        n += month_length(d.year, month);
    return n;
}

/* Days since the first of January 1600, a Saturday. */
static int serial(date d)
{
    int years = d.year - 1600;
    int n = years * 365;
    if (years > 0)
        n += (years - 1) / 4 - (years - 1) / 100 + (years - 1) / 400 + 1;
    return n + day_of_year(d) - 1;
}

static date from_serial(int n)
{
    date d;
    int length;
    d.year = 1600 + n / 366;
    d.month = 1;
    d.day = 1;
    while (serial(d) <= n)
        d.year++;
    d.year--;
    n -= serial(d);
    for (length = month_length(d.year, d.month); n >= length; length = month_length(d.year, d.month)) {
        n -= length;
        d.month++;
    }
    d.day = n + 1;
    return d;
}

static int weekday(date d)
{
    return (serial(d) + SATURDAY) % 7;
}

static void write_date(date d)
{
    printf("%04d-%02d-%02d", d.year, d.month, d.day);
}

static void write_month(date d)
{
    int length = month_length(d.year, d.month);
    int column;
    int day;
    date first = d;
    first.day = 1;
    printf("%d/%d\n", d.month, d.year);
    for (column = 0; column < weekday(first); column++)
        printf("   ");
    for (day = 1; day <= length; day++) {
        printf("%2d%c", day, day == d.day ? '*' : ' ');
        if (++column % 7 == 0)
            putchar('\n');
    }
    if (column % 7 != 0)
        putchar('\n');
}

static date easter(int year)
{
    int a = year % 19;
    int b = year / 100;
    int c = year % 100;
    int e = (19 * a + b - b / 4 - (b - (b + 8) / 25 + 1) / 3 + 15) % 30;
    int f = (32 + 2 * (b % 4) + 2 * (c / 4) - e - c % 4) % 7;
    int g = e + f - 7 * ((a + 11 * e + 22 * f) / 451) + 114;
    date d;
    d.year = year;
    d.month = g / 31;
    d.day = g % 31 + 1;
    return d;
}

static int weeks_in(int year)
{
    date first;
    int day;
    first.year = year;
    first.month = 1;
    first.day = 1;
    day = weekday(first);
    return day == THURSDAY || (day == WEDNESDAY && is_leap(year)) ? 53 : 52;
}

static void write_week(date d)
{
    int year = d.year;
    int week = (day_of_year(d) - weekday(d) + 9) / 7;
    if (week < 1) {
        year--;
        week = weeks_in(year);
    } else if (week > weeks_in(year)) {
        week = 1;
        year++;
    }
    printf("%d-W%02d-%d\n", year, week, weekday(d) + 1);
}

static int is_free(date d)
{
    int after;
    if (weekday(d) >= SATURDAY)
        return 1;
    if ((d.month == 12 && (d.day == 25 || d.day == 26)) || (d.month == 1 && d.day == 1) || (d.month == 5 && d.day == 1))
        return 1;
    after = serial(d) - serial(easter(d.year));
    return after == -2 || after == 1 || after == 39 || after == 50;
}

static int working_days(date from, date to)
{
    int n = 0;
    int at;
    for (at = serial(from); at <= serial(to); at++)
        if (!is_free(from_serial(at)))
            n++;
    return n;
}

static date due(date d, int days)
{
    while (days > 0) {
        d = from_serial(serial(d) + 1);
        if (!is_free(d))
            days--;
    }
    return d;
}

static const char *number(const char *at, int *value)
{
    int n = 0;
    int negative = 0;
    while (*at == ' ')
        at++;
    if (*at == '-') {
        negative = 1;
        at++;
    }
    while (isdigit((unsigned char)*at)) {
        if (n < 100000)
            n = 10 * n + (*at - '0');
        at++;
    }
    *value = negative ? -n : n;
    return at;
}

static const char *read_date(const char *at, date *d)
{
    int sign;
    at = number(at, &d->year);
    at = number(at, &sign);
    d->month = -sign;
    at = number(at, &sign);
    d->day = -sign;
    return at;
}

static void command(const char *line)
{
    char word[10];
    int n = 0;
    int amount;
    date a, b;
    while (isalpha((unsigned char)*line) && n < 9)
        word[n++] = *line++;
    word[n] = '\0';
    if (strcmp(word, "easter") == 0) {
        number(line, &amount);
        if (amount < 1600 || amount > 2400)
            puts("a bad year");
        else {
            write_date(easter(amount));
            putchar('\n');
        }
        return;
    }
    line = read_date(line, &a);
    if (!is_date(a)) {
        puts("a bad date");
        return;
    }
    if (strcmp(word, "day") == 0) {
        printf("%s, day %d\n", day_names[weekday(a)], day_of_year(a));
    } else if (strcmp(word, "month") == 0) {
        write_month(a);
    } else if (strcmp(word, "week") == 0) {
        write_week(a);
    } else if (strcmp(word, "between") == 0 || strcmp(word, "work") == 0) {
        read_date(line, &b);
        if (!is_date(b))
            puts("a bad date");
        else if (word[0] == 'b')
            printf("%d days\n", serial(b) - serial(a));
        else
            printf("%d working days\n", serial(b) - serial(a) > 120 ? -1 : working_days(a, b));
    } else if (strcmp(word, "add") == 0 || strcmp(word, "due") == 0) {
        number(line, &amount);
        if (abs(amount) > 60 || a.year < 1601 || a.year > 2399) {
            puts("too far");
            return;
        }
        write_date(word[0] == 'a' ? from_serial(serial(a) + amount) : due(a, amount));
        putchar('\n');
    } else
        puts("unknown");
}

int main(void)
{
    char line[60];
    while (fgets(line, sizeof line, stdin) != NULL)
        if (line[0] != '\n')
            command(line);
    return 0;
}
