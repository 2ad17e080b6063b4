#include <stdio.h>
#include <stdlib.h>
#define LINES 20
#define WIDE 20
#define TABLE 441
#define CONTEXT 2

/* Compares two texts. The first line of the input has options, then the old
 * text stands, a line with `=`, and the new one. Options are
 *
 *   b   blanks at the end count for nothing, and several as one
 *   i   small and capital letters are the same      e   empty lines are left out
 *   u   the unified form, with two lines around each change, in place of the plain one
 *
 * What is told at the end is how much changed, and whether the changes make the
 * new text of the old one. */

struct line {
    char text[WIDE];
};

struct change {
    int from;
    int to;
    int fresh_from;
    int fresh_to;
};

struct line old[LINES];
struct line fresh[LINES];
int olds;
int freshes;
int common[TABLE];
int old_kept[LINES];
int fresh_kept[LINES];
struct change changes[LINES];
int count;
int next;
int blanks_alike;
int letters_alike;
int no_empty;
int unified;
int cut;

void advance(void)
{
    next = getchar();
}

int is_blank(int c)
{
    return c == ' ' || c == '\t';
}

/* Reads a line; what is longer than its room is cut. */
void read_line(char *line)
{
    int n = 0;
    while (next != '\n' && next != EOF) {
        if (n < WIDE - 1) {
            line[n] = next;
            n++;
        } else if (n == WIDE - 1) {
            cut++;
            n++;
        }
        advance();
    }
    line[n < WIDE ? n : WIDE - 1] = '\0';
    advance();
}

void read_options(void)
{
    while (next != '\n' && next != EOF) {
        if (next == 'b')
            blanks_alike = 1;
        else if (next == 'i')
            letters_alike = 1;
        else if (next == 'e')
            no_empty = 1;
        else if (next == 'u')
            unified = 1;
        else if (next != ' ')
            printf("no option %c\n", next);
        advance();
    }
    advance();
}

int is_empty(char *line)
{
    while (is_blank(*line))
        line++;
    return *line == '\0';
}

int is_rule(char *line)
{
    return line[0] == '=' && line[1] == '\0';
}

/* Reads lines up to a rule or to the end; answers how many are kept. */
int read_text(struct line *text, int is_last)
{
    int lines = 0;
    char line[WIDE];
    int i;
    while (next != EOF) {
        read_line(line);
        if (!is_last && is_rule(line))
            break;
        if (no_empty && is_empty(line))
            continue;
        if (lines == LINES) {
            cut++;
            continue;
        }
        for (i = 0; line[i]; i++)
            text[lines].text[i] = line[i];
        text[lines].text[i] = '\0';
        lines++;
    }
    return lines;
}

int small(int c)
{
    return letters_alike && c >= 'A' && c <= 'Z' ? c + ('a' - 'A') : c;
}

char *behind_blanks(char *at)
{
    while (is_blank(*at))
        at++;
    return at;
}

int same(char *a, char *b)
{
    while (*a || *b) {
        if (blanks_alike && (is_blank(*a) || is_blank(*b))) {
            int a_blank = is_blank(*a);
            int b_blank = is_blank(*b);
            a = behind_blanks(a);
            b = behind_blanks(b);
            if (a_blank != b_blank && (*a || *b))
                return 0;
            continue;
        }
        if (small(*a) != small(*b))
            return 0;
        a++;
        b++;
    }
    return 1;
}

int place(int i, int j)
{
    return i * (LINES + 1) + j;
}

/* The table of how many lines two rests have in common at most. */
void measure(int first, int last, int fresh_last)
{
    int i;
    int j;
    int down;
    int right;
    for (i = last; i >= first; i--)
        for (j = fresh_last; j >= first; j--) {
            if (i == last || j == fresh_last)
                common[place(i, j)] = 0;
            else if (same(old[i].text, fresh[j].text))
                common[place(i, j)] = common[place(i + 1, j + 1)] + 1;
            else {
                down = common[place(i + 1, j)];
                right = common[place(i, j + 1)];
                common[place(i, j)] = down > right ? down : right;
            }
        }
}

void keep(int i, int j)
{
    old_kept[i] = 1;
    fresh_kept[j] = 1;
}

/* Marks the lines that stay: those at both ends at once, the others by the table. */
void mark(void)
{
    int first = 0;
    int last = olds;
    int fresh_last = freshes;
    int i;
    int j;
    while (first < last && first < fresh_last && same(old[first].text, fresh[first].text)) {
        keep(first, first);
        first++;
    }
    while (last > first && fresh_last > first && same(old[last - 1].text, fresh[fresh_last - 1].text)) {
        last--;
        fresh_last--;
        keep(last, fresh_last);
    }
    measure(first, last, fresh_last);
    i = first;
    j = first;
    while (i < last && j < fresh_last) {
        if (same(old[i].text, fresh[j].text)) {
            keep(i, j);
            i++;
            j++;
        } else if (common[place(i + 1, j)] >= common[place(i, j + 1)]) {
            i++;
        } else {
            j++;
        }
    }
}

/* A change goes on over all lines that don't stay. */
void extend(struct change *change)
{
    while (change->to < olds && !old_kept[change->to])
        change->to++;
    while (change->fresh_to < freshes && !fresh_kept[change->fresh_to])
        change->fresh_to++;
}

/* What is added alone stands as far down as it may: where the line behind it is the same as its first one. */
void slide(struct change *change)
{
    int from = change->fresh_from;
    int to = change->fresh_to;
    if (change->from != change->to)
        return;
    while (change->to < olds && to < freshes && old_kept[change->to] && fresh_kept[to] && same(fresh[from].text, fresh[to].text)) {
        fresh_kept[from] = 1;
        fresh_kept[to] = 0;
        from++;
        to++;
        change->to++;
    }
    change->from = change->to;
    change->fresh_from = from;
    change->fresh_to = to;
}

void collect(void)
{
    int i = 0;
    int j = 0;
    while (i < olds || j < freshes) {
        if (i < olds && j < freshes && old_kept[i] && fresh_kept[j]) {
            i++;
            j++;
        } else {
            changes[count].from = i;
            changes[count].fresh_from = j;
            changes[count].to = i;
            changes[count].fresh_to = j;
            extend(&changes[count]);
            slide(&changes[count]);
            i = changes[count].to;
            j = changes[count].fresh_to;
            count++;
        }
    }
}

/* Lines from one place up to another, counted from 1; where there are none, the one before. */
void write_range(int from, int to)
{
    if (to - from > 1)
        printf("%d,%d", from + 1, to);
    else
        printf("%d", to);
}

void write_lines(struct line *text, int from, int to, int sign)
{
    for (; from < to; from++)
        printf("%c%s\n", sign, text[from].text);
}

void write_plain(struct change *change)
{
    int letter = change->from == change->to ? 'a' : change->fresh_from == change->fresh_to ? 'd' : 'c';
    write_range(change->from, change->to);
    putchar(letter);
    write_range(change->fresh_from, change->fresh_to);
    putchar('\n');
    write_lines(old, change->from, change->to, '<');
    if (letter == 'c')
        puts("---");
    write_lines(fresh, change->fresh_from, change->fresh_to, '>');
}

/* Changes whose surroundings meet stand together; answers how many these are. */
int write_unified(int first)
{
    int last = first;
    int from = changes[first].from - CONTEXT;
    int fresh_from = changes[first].fresh_from - CONTEXT;
    int to;
    int fresh_to;
    int at;
    int i;
    while (last + 1 < count && changes[last + 1].from - changes[last].to <= 2 * CONTEXT)
        last++;
    if (from < 0) {
        fresh_from -= from;
        from = 0;
    }
    if (fresh_from < 0)
        fresh_from = 0;
    to = changes[last].to + CONTEXT < olds ? changes[last].to + CONTEXT : olds;
    fresh_to = changes[last].fresh_to + (to - changes[last].to);
    printf("@@ -%d,%d", to > from ? from + 1 : from, to - from);
    printf(" +%d,%d @@\n", fresh_to > fresh_from ? fresh_from + 1 : fresh_from, fresh_to - fresh_from);
    at = from;
    for (i = first; i <= last; i++) {
        write_lines(old, at, changes[i].from, ' ');
        write_lines(old, changes[i].from, changes[i].to, '-');
        write_lines(fresh, changes[i].fresh_from, changes[i].fresh_to, '+');
        at = changes[i].to;
    }
    write_lines(old, at, to, ' ');
    return last - first + 1;
}

/* Whether the old text with its changes is the new one. */
int is_whole(void)
{
    int at = 0;
    int made = 0;
    int i;
    int j;
    for (i = 0; i <= count; i++) {
        for (; at < (i < count ? changes[i].from : olds); at++) {
            if (made >= freshes || !same(old[at].text, fresh[made].text))
                return 0;
            made++;
        }
        if (i < count) {
            for (j = changes[i].fresh_from; j < changes[i].fresh_to; j++) {
                if (j != made)
                    return 0;
                made++;
            }
            at = changes[i].to;
        }
    }
    return made == freshes;
}

void report(void)
{
    int gone = 0;
    int added = 0;
    int i;
    for (i = 0; i < count; i++) {
        gone += changes[i].to - changes[i].from;
        added += changes[i].fresh_to - changes[i].fresh_from;
    }
    printf("%d changes, %d gone, %d added, %d stay", count, gone, added, olds - gone);
    if (olds + freshes > 0)
        printf(", %d per cent alike", 200 * (olds - gone) / (olds + freshes));
    printf(", %s\n", is_whole() ? "whole" : "DAMAGED");
    if (cut > 0)
        printf("%d cut\n", cut);
}

int main(void)
{
    int i;
    advance();
    read_options();
    olds = read_text(old, 0);
    freshes = read_text(fresh, 1);
    mark();
    collect();
    i = 0;
    while (i < count) {
        if (unified) {
            i += write_unified(i);
        } else {
            write_plain(&changes[i]);
            i++;
        }
    }
    report();
    return count > 0;
}
