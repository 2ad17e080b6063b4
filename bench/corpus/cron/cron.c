#include <ctype.h>
#include <stdio.h>
#include <stdlib.h>
#include <string.h>

#define MAX_JOBS 6
#define MAX_NAME 10
#define MAX_YEARS 8

/* A timetable of jobs, each with five fields as cron has them: minute, hour, day of
 * the month, month, day of the week. A field is `*` or a list of numbers, names and
 * ranges, with /N for each N-th. Commands:
 *
 *   job NAME M H D MON DOW    adds a job, or changes it
 *   at 2024-02-29 23:55       what time it is        next NAME N   its next N times from then on
 *   pass N                    N minutes pass, and jobs start that are due
 *   drop NAME                 takes a job out        list          writes all jobs, in their shortest form
 *   off NAME, on NAME         a job rests for a while
 */

typedef enum { MINUTE, HOUR, DAY, MONTH, WEEKDAY, FIELDS } field_t;

typedef struct {
    int least;
    int most;
    const char *names;
} bounds_t;

typedef struct {
    unsigned bits[2];
    int every;
} set_t;

typedef struct {
    char name[MAX_NAME + 1];
    set_t fields[FIELDS];
    int resting;
    int started;
} job_t;

typedef struct {
    int year;
    int month;
    int day;
    int hour;
    int minute;
} moment_t;

static const bounds_t bounds[FIELDS] = {
    { 0, 59, "" }, { 0, 23, "" }, { 1, 31, "" }, { 1, 12, "janfebmaraprmayjunjulaugsepoctnovdec" }, { 0, 7, "sunmontuewedthufrisat" }
};
static const int lengths[12] = { 31, 28, 31, 30, 31, 30, 31, 31, 30, 31, 30, 31 };

static job_t jobs[MAX_JOBS];
static int count;
static moment_t now = { 2024, 1, 1, 0, 0 };
static int errors;

static void put(set_t *set, int n)
{
    set->bits[n / 32] |= 1u << n % 32;
}

static int has(const set_t *set, int n)
{
    return (set->bits[n / 32] >> n % 32) & 1;
}

static void complain(const char *what, const char *whom)
{
    printf("%s: %s\n", whom, what);
    errors++;
}

static int month_length(const moment_t *m)
{
    int is_leap = (m->year % 4 == 0 && m->year % 100 != 0) || m->year % 400 == 0;
    return m->month == 2 && is_leap ? 29 : lengths[m->month - 1];
}

/* Sunday is 0. */
static int weekday(const moment_t *m)
{
    static const int shift[12] = { 0, 3, 2, 5, 0, 3, 5, 1, 4, 6, 2, 4 };
    int year = m->month < 3 ? m->year - 1 : m->year;
    return (year + year / 4 - year / 100 + year / 400 + shift[m->month - 1] + m->day) % 7;
}

/* The next month, day, hour or minute, from its beginning on. */
static void step(moment_t *m, field_t what)
{
    if (what == MINUTE && ++m->minute < 60)
        return;
    m->minute = 0;
    if (what <= HOUR && ++m->hour < 24)
        return;
    m->hour = 0;
    if (what <= DAY && ++m->day <= month_length(m))
        return;
    m->day = 1;
    if (++m->month > 12) {
        m->month = 1;
        m->year++;
    }
}

static void write_moment(const moment_t *m)
{
    printf("%04d-%02d-%02d %02d:%02d", m->year, m->month, m->day, m->hour, m->minute);
}

/* Reads a number or a name; answers whether there was one. */
static int read_value(const char **at, const bounds_t *b, int *value)
{
    int i;
    if (isdigit((unsigned char)**at)) {
        *value = 0;
        while (isdigit((unsigned char)**at) && *value < 1000)
            *value = 10 * *value + (*(*at)++ - '0');
        return 1;
    }
    for (i = 0; b->names[3 * i]; i++)
        if (strncmp(*at, b->names + 3 * i, 3) == 0) {
            *value = b->least + i;
            *at += 3;
            return 1;
        }
    return 0;
}

/* One part of a list: a value, a range or a star, each with a step or without. */
static int read_part(const char **at, field_t which, set_t *set)
{
    const bounds_t *b = &bounds[which];
    int from = b->least, to = b->most, by = 1;
    int i;
    if (**at == '*') {
        (*at)++;
        set->every = **at == '\0';
    } else {
        if (!read_value(at, b, &from))
            return 0;
        to = from;
        if (**at == '-') {
            (*at)++;
            if (!read_value(at, b, &to))
                return 0;
        } else if (**at == '/') {
            to = b->most;
        }
    }
    if (**at == '/') {
        (*at)++;
        if (!read_value(at, &bounds[MINUTE], &by) || by == 0)
            return 0;
    }
    if (from < b->least || to > b->most || from > to)
        return 0;
    for (i = from; i <= to; i += by)
        put(set, which == WEEKDAY ? i % 7 : i);
    return 1;
}

static int read_field(const char *word, field_t which, set_t *set)
{
    memset(set, 0, sizeof *set);
    for (;;) {
        if (!read_part(&word, which, set))
            return 0;
        if (*word != ',')
            return *word == '\0';
        word++;
    }
}

static char *next_word(char **text)
{
    char *word;
    while (**text == ' ')
        (*text)++;
    word = *text;
    while (**text && **text != ' ' && **text != '\n')
        (*text)++;
    if (**text)
        *(*text)++ = '\0';
    return word;
}

static job_t *find(const char *name)
{
    int i;
    for (i = 0; i < count; i++)
        if (strncmp(jobs[i].name, name, MAX_NAME) == 0)
            return &jobs[i];
    return NULL;
}

static void add_job(char *text)
{
    char *name = next_word(&text);
    job_t *job = find(name);
    job_t fresh;
    int i;
    memset(&fresh, 0, sizeof fresh);
    strncpy(fresh.name, name, MAX_NAME);
    for (i = 0; i < FIELDS; i++)
        if (!read_field(next_word(&text), (field_t)i, &fresh.fields[i])) {
            printf("%s: field %d is bad\n", name, i + 1);
            errors++;
            return;
        }
    if (job == NULL) {
        if (count == MAX_JOBS) {
            complain("too many jobs", name);
            return;
        }
        job = &jobs[count++];
    }
    *job = fresh;
}

/* Where both days are given either will do. */
static int is_day(const job_t *job, const moment_t *m)
{
    const set_t *day = &job->fields[DAY];
    const set_t *week = &job->fields[WEEKDAY];
    if (!day->every && !week->every)
        return has(day, m->day) || has(week, weekday(m));
    return has(day, m->day) && has(week, weekday(m));
}

static int is_due(const job_t *job, const moment_t *m)
{
    return has(&job->fields[MINUTE], m->minute) && has(&job->fields[HOUR], m->hour) && has(&job->fields[MONTH], m->month) && is_day(job, m);
}

/* Goes on to the next time of a job behind a moment; answers whether there is one. */
static int find_next(const job_t *job, moment_t *m)
{
    int last = m->year + MAX_YEARS;
    step(m, MINUTE);
    while (m->year <= last) {
        if (!has(&job->fields[MONTH], m->month))
            step(m, MONTH);
        else if (!is_day(job, m))
            step(m, DAY);
        else if (!has(&job->fields[HOUR], m->hour))
            step(m, HOUR);
        else if (!has(&job->fields[MINUTE], m->minute))
            step(m, MINUTE);
        else
            return 1;
    }
    return 0;
}

static void show_next(const job_t *job, int times)
{
    moment_t m = now;
    printf("%s:", job->name);
    while (times-- > 0) {
        if (!find_next(job, &m)) {
            printf(" never");
            break;
        }
        putchar(' ');
        write_moment(&m);
    }
    putchar('\n');
}

static void pass(int minutes)
{
    int i;
    while (minutes-- > 0) {
        step(&now, MINUTE);
        for (i = 0; i < count; i++)
            if (!jobs[i].resting && is_due(&jobs[i], &now)) {
                jobs[i].started++;
                write_moment(&now);
                printf(" %s\n", jobs[i].name);
            }
    }
}

static void drop_job(job_t *job)
{
    for (; job + 1 < jobs + count; job++)
        *job = job[1];
    count--;
}

/* Numbers that follow each other stand as a range. */
static void write_field(const set_t *set, field_t which)
{
    int most = which == WEEKDAY ? 6 : bounds[which].most;
    int from, to;
    const char *between = "";
    if (set->every) {
        printf(" *");
        return;
    }
    putchar(' ');
    for (from = bounds[which].least; from <= most; from = to + 1) {
        to = from;
        if (!has(set, from))
            continue;
        while (to < most && has(set, to + 1))
            to++;
        if (to == from + 1)
            to = from;
        printf("%s%d", between, from);
        if (to > from)
            printf("-%d", to);
        between = ",";
    }
}

static void list(void)
{
    int i, f;
    for (i = 0; i < count; i++) {
        printf("%s", jobs[i].name);
        for (f = 0; f < FIELDS; f++)
            write_field(&jobs[i].fields[f], (field_t)f);
        printf(" (%d%s)\n", jobs[i].started, jobs[i].resting ? ", rests" : "");
    }
}

/* A number, and the sign behind it. */
static int read_number(const char **at)
{
    int n = atoi(*at);
    while (isdigit((unsigned char)**at))
        (*at)++;
    if (**at)
        (*at)++;
    return n;
}

static void set_now(const char *date, const char *time)
{
    moment_t m;
    m.year = read_number(&date);
    m.month = read_number(&date);
    m.day = read_number(&date);
    m.hour = read_number(&time);
    m.minute = read_number(&time);
    if (m.year < 1970 || m.year > 2100 || m.month < 1 || m.month > 12 || m.day < 1 || m.day > month_length(&m) || m.hour > 23 || m.minute > 59)
        complain("no such time", "at");
    else
        now = m;
}

static void command(char *text)
{
    char *word = next_word(&text);
    char *name;
    job_t *job;
    if (strcmp(word, "job") == 0) {
        add_job(text);
        return;
    }
    if (strcmp(word, "list") == 0) {
        list();
        return;
    }
    name = next_word(&text);
    if (strcmp(word, "at") == 0) {
        set_now(name, next_word(&text));
        return;
    }
    if (strcmp(word, "pass") == 0) {
        pass(atoi(name));
        return;
    }
    job = find(name);
    if (job == NULL)
        complain("no such job", name);
    else if (strcmp(word, "next") == 0)
        show_next(job, atoi(next_word(&text)));
    else if (strcmp(word, "drop") == 0)
        drop_job(job);
    else if (strcmp(word, "off") == 0 || strcmp(word, "on") == 0)
        job->resting = word[1] == 'f';
    else
        complain("unknown", word);
}

int main(void)
{
    char text[100];
    while (fgets(text, sizeof text, stdin) != NULL)
        if (text[0] != '\n')
            command(text);
    list();
    write_moment(&now);
    printf(", %d jobs, %d errors\n", count, errors);
    return 0;
}
