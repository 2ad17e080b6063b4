#include <stdio.h>
#include <stdlib.h>
#include <string.h>
#include <ctype.h>
#include <stdbool.h>

/* Keeps a stock. Commands, a line each:
 *
 *   in NAME COUNT     out NAME COUNT     show     sum
 *
 * The one argument is how few of a thing are few: these are marked.
 */
#define MOST 50
#define LENGTH 12
#define UNKNOWN (-1)

typedef unsigned long amount;

enum action { ACTION_IN, ACTION_OUT, ACTION_SHOW, ACTION_SUM, ACTION_NONE };

typedef struct {
    char name[LENGTH + 1];
    amount count;
} item;

typedef struct {
    item items[MOST];
    int used;
} stock;

static stock held;
static const char *const actions[] = { "in", "out", "show", "sum" };

static enum action action_of(const char *word)
{
    int i;
    for (i = 0; i < ACTION_NONE; i++)
        if (strcmp(word, actions[i]) == 0)
            return (enum action)i;
    return ACTION_NONE;
}

static int find(const stock *s, const char *name)
{
    int i;
    for (i = 0; i < s->used; i++)
        if (!strcmp(s->items[i].name, name))
            return i;
    return UNKNOWN;
}

static item make_item(const char *name, amount count)
{
    item it = { "", 0 };
    strncpy(it.name, name, LENGTH);
    it.count = count;
    return it;
}

static bool put_in(stock *s, const char *name, amount count)
{
    int place = find(s, name);
    if (place != UNKNOWN) {
        s->items[place].count += count;
        return true;
    }
    if (s->used == MOST)
        return false;
    s->items[s->used++] = make_item(name, count);
    return true;
}

static bool take_out(stock *s, const char *name, amount count)
{
    int place = find(s, name);
    if (place == UNKNOWN || s->items[place].count < count)
        return false;
    s->items[place].count -= count;
    return true;
}

static void show(const stock *s, amount few)
{
    int i;
    for (i = 0; i < s->used; i++) {
        item it = s->items[i];
        printf("%-12s %5lu%s\n", it.name, it.count, it.count < few ? " *" : "");
    }
}

/* In hundredths, rounded as printf rounds: to the nearest, and to the even one of two. */
static amount mean(const stock *s)
{
    amount sum = 0, whole, rest;
    int i;
    if (!s->used)
        return 0;
    for (i = 0; i < s->used; i++)
        sum += s->items[i].count;
    whole = 100 * sum / s->used;
    rest = 100 * sum % s->used;
    return whole + (2 * rest > s->used || (2 * rest == s->used && whole % 2));
}

static bool good_name(const char *name)
{
    if (strlen(name) > LENGTH)
        return false;
    for (; *name; name++)
        if (!isalpha((unsigned char)*name))
            return false;
    return true;
}

int main(int argc, char *argv[])
{
    char word[64], name[64];
    amount count;
    amount few = argc > 1 ? strtoul(argv[1], NULL, 10) : 5;
    bool done;
    while (scanf("%63s", word) == 1) {
        switch (action_of(word)) {
        case ACTION_IN:
        case ACTION_OUT:
            if (scanf("%63s %lu", name, &count) != 2 || !good_name(name))
                goto wrong;
            done = action_of(word) == ACTION_IN ? put_in(&held, name, count) : take_out(&held, name, count);
            if (!done)
                printf("can't %s %lu of %s\n", word, count, name);
            break;
        case ACTION_SHOW:
            show(&held, few);
            break;
        case ACTION_SUM:
            printf("%d things, mean %lu.%02lu\n", held.used, mean(&held) / 100, mean(&held) % 100);
            break;
        default:
            goto wrong;
        }
    }
    return EXIT_SUCCESS;

wrong:
    fprintf(stderr, "stock: bad command\n");
    return EXIT_FAILURE;
}
