#include <stdio.h>
#include <stdlib.h>

/* Keeps a stock, as stock.c does. The first line of the input has how few of a thing are few: these are marked. */
#define MOST 50
#define LENGTH 12
#define ROOM 64

#define ACTION_IN 0
#define ACTION_OUT 1
#define ACTION_SHOW 2
#define ACTION_SUM 3
#define ACTION_NONE 4

struct item {
    char name[ROOM];
    unsigned count;
};

struct stock {
    struct item items[MOST];
    int used;
};

struct stock held;
int next;

/* What scanf did: a byte ahead, words without blanks, numbers. */

int is_blank(int c)
{
    return c == ' ' || c == '\t' || c == '\n' || c == '\r';
}

void skip_blanks(void)
{
    while (is_blank(next))
        next = getchar();
}

/* The next word, cut at ROOM - 1 bytes; 0 at the end of the input. */
int read_word(char *word)
{
    int n = 0;
    skip_blanks();
    while (next != EOF && !is_blank(next) && n < ROOM - 1) {
        word[n] = next;
        n++;
        next = getchar();
    }
    word[n] = '\0';
    return n > 0;
}

int read_number(unsigned *number)
{
    int digits = 0;
    *number = 0;
    skip_blanks();
    while (next >= '0' && next <= '9') {
        *number = 10 * *number + (next - '0');
        digits = 1;
        next = getchar();
    }
    return digits;
}

/* What the library did with strings. */

int equal(char *a, char *b)
{
    while (*a && *a == *b) {
        a++;
        b++;
    }
    return *a == *b;
}

void copy(char *to, char *from)
{
    while (*from) {
        *to = *from;
        to++;
        from++;
    }
    *to = '\0';
}

int length(char *s)
{
    int n = 0;
    while (s[n])
        n++;
    return n;
}

/* What the widths of printf did. */

int digits_of(unsigned n)
{
    int digits = 1;
    while (n > 9) {
        n /= 10;
        digits++;
    }
    return digits;
}

void blanks(int count)
{
    while (count > 0) {
        putchar(' ');
        count--;
    }
}

int action_of(char *word)
{
    if (equal(word, "in"))
        return ACTION_IN;
    if (equal(word, "out"))
        return ACTION_OUT;
    if (equal(word, "show"))
        return ACTION_SHOW;
    if (equal(word, "sum"))
        return ACTION_SUM;
    return ACTION_NONE;
}

/* The thing of that name, or NULL. */
struct item *find(struct stock *s, char *name)
{
    int i;
    for (i = 0; i < s->used; i++)
        if (equal(s->items[i].name, name))
            return &s->items[i];
    return NULL;
}

int put_in(struct stock *s, char *name, unsigned count)
{
    struct item *it = find(s, name);
    if (it) {
        it->count += count;
        return 1;
    }
    if (s->used == MOST)
        return 0;
    it = &s->items[s->used];
    s->used++;
    copy(it->name, name);
    it->count = count;
    return 1;
}

int take_out(struct stock *s, char *name, unsigned count)
{
    struct item *it = find(s, name);
    if (!it || it->count < count)
        return 0;
    it->count -= count;
    return 1;
}

void show(struct stock *s, unsigned few)
{
    int i;
    for (i = 0; i < s->used; i++) {
        struct item *it = &s->items[i];
        printf("%s", it->name);
        blanks(12 - length(it->name));
        putchar(' ');
        blanks(5 - digits_of(it->count));
        printf("%u%s\n", it->count, it->count < few ? " *" : "");
    }
}

/* The mean in hundredths, rounded as printf rounds: to the nearest, and to the even one of two. */
unsigned mean(struct stock *s)
{
    unsigned sum = 0;
    unsigned whole;
    unsigned rest;
    int i;
    if (!s->used)
        return 0;
    for (i = 0; i < s->used; i++)
        sum += s->items[i].count;
    whole = 100 * sum / s->used;
    rest = 100 * sum % s->used;
    if (2 * rest > s->used || (2 * rest == s->used && whole % 2))
        whole++;
    return whole;
}

int good_name(char *name)
{
    if (length(name) > LENGTH)
        return 0;
    for (; *name; name++)
        if (!(*name >= 'a' && *name <= 'z' || *name >= 'A' && *name <= 'Z'))
            return 0;
    return 1;
}

/* A command of a thing; 0 where it is no good one. */
int change(int action, char *word)
{
    char name[ROOM];
    unsigned count;
    int done;
    if (!read_word(name) || !read_number(&count) || !good_name(name))
        return 0;
    if (action == ACTION_IN)
        done = put_in(&held, name, count);
    else
        done = take_out(&held, name, count);
    if (!done)
        printf("can't %s %u of %s\n", word, count, name);
    return 1;
}

/* Any command; 0 where it is no good one. */
int obey(char *word, unsigned few)
{
    int action = action_of(word);
    unsigned hundredths;
    if (action == ACTION_NONE)
        return 0;
    if (action == ACTION_SHOW) {
        show(&held, few);
    } else if (action == ACTION_SUM) {
        hundredths = mean(&held);
        printf("%d things, mean %u.%u%u\n", held.used, hundredths / 100, hundredths / 10 % 10, hundredths % 10);
    } else {
        return change(action, word);
    }
    return 1;
}

int main(void)
{
    char word[ROOM];
    unsigned few;
    next = getchar();
    if (!read_number(&few))
        few = 5;
    while (read_word(word))
        if (!obey(word, few))
            return 1;
    return 0;
}
