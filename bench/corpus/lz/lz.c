#include <stdio.h>
#include <stdlib.h>
#define MOST 400
#define WINDOW 32
#define LEAST 3
#define GREATEST 18
#define ROOM 1300
#define LETTER 0
#define PAIR 1
#define RUN 2

/* Packs each line of its input, and unpacks it again. A packed line is made of
 * tokens: a letter for itself, or a pair of how far back and how long, where
 * the pair saves room. Runs of one letter are tokens of their own. What is
 * written for each line is its tokens, its size before and after, and whether
 * it came back. */

char line[MOST];
int length;
int token[ROOM];
int tokens;
char unpacked[MOST];
int unpacked_length;
int whole;
int saved;

int read_line(void)
{
    int c = getchar();
    length = 0;
    if (c == EOF)
        return 0;
    while (c != '\n' && c != EOF) {
        if (length < MOST - 1) {
            line[length] = c;
            length++;
        }
        c = getchar();
    }
    line[length] = '\0';
    return 1;
}

void put(int kind, int first, int second)
{
    token[tokens] = kind;
    token[tokens + 1] = first;
    token[tokens + 2] = second;
    tokens += 3;
}

/* How many letters from two places on are the same; the second place is later,
 * and what is found may reach into it. */
int common(int early, int late)
{
    int n = 0;
    while (n < GREATEST && late + n < length && line[early + n] == line[late + n])
        n++;
    return n;
}

/* The best place in the window to copy from; the nearest of equals. */
int best(int at, int *long_as)
{
    int place;
    int first = at > WINDOW ? at - WINDOW : 0;
    int found = -1;
    int n;
    *long_as = 0;
    for (place = at - 1; place >= first; place--) {
        n = common(place, at);
        if (n > *long_as) {
            *long_as = n;
            found = place;
        }
    }
    return found;
}

int run_at(int at)
{
    int n = 1;
    while (at + n < length && line[at + n] == line[at])
        n++;
    return n;
}

/* Packs with a look ahead: a pair is put off where the next letter has a longer one. */
void pack(void)
{
    int at = 0;
    int from;
    int size;
    int later;
    int run;
    tokens = 0;
    while (at < length) {
        run = run_at(at);
        from = best(at, &size);
        if (run > LEAST && run >= size) {
            put(RUN, line[at], run);
            at += run;
            continue;
        }
        if (size >= LEAST && at + 1 < length) {
            best(at + 1, &later);
            if (later > size + 1) {
                put(LETTER, line[at], 0);
                at++;
                continue;
            }
        }
        if (size >= LEAST) {
            put(PAIR, at - from, size);
            at += size;
        } else {
            put(LETTER, line[at], 0);
            at++;
        }
    }
}

void unpack(void)
{
    int i;
    int n;
    unpacked_length = 0;
    for (i = 0; i < tokens; i += 3) {
        if (token[i] == LETTER) {
            unpacked[unpacked_length] = token[i + 1];
            unpacked_length++;
        } else if (token[i] == RUN) {
            for (n = 0; n < token[i + 2]; n++) {
                unpacked[unpacked_length] = token[i + 1];
                unpacked_length++;
            }
        } else {
            for (n = 0; n < token[i + 2]; n++) {
                unpacked[unpacked_length] = unpacked[unpacked_length - token[i + 1]];
                unpacked_length++;
            }
        }
    }
    unpacked[unpacked_length] = '\0';
}

int same(void)
{
    int i;
    if (unpacked_length != length)
        return 0;
    for (i = 0; i < length; i++)
        if (unpacked[i] != line[i])
            return 0;
    return 1;
}

/* The size of the tokens: a letter takes 9 bits, a pair 11, a run 14. */
int bits(void)
{
    int i;
    int total = 0;
    for (i = 0; i < tokens; i += 3) {
        if (token[i] == LETTER)
            total += 9;
        else if (token[i] == PAIR)
            total += 11;
        else
            total += 14 + (token[i + 2] > 255 ? 8 : 0);
    }
    return total;
}

void show(void)
{
    int i;
    for (i = 0; i < tokens; i += 3) {
        if (token[i] == LETTER)
            putchar(token[i + 1]);
        else if (token[i] == PAIR)
            printf("<%d,%d>", token[i + 1], token[i + 2]);
        else
            printf("%d(%c)", token[i + 2], token[i + 1]);
    }
    putchar('\n');
}

int main(void)
{
    int after;
    int lines = 0;
    while (read_line()) {
        lines++;
        pack();
        unpack();
        show();
        after = (bits() + 7) / 8;
        printf("%d to %d, %s\n", length, after, same() ? "whole" : "DAMAGED");
        if (same())
            whole++;
        if (after < length)
            saved += length - after;
    }
    printf("%d of %d whole, %d saved\n", whole, lines, saved);
    return 0;
}
