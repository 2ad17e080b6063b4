#include <stdio.h>
#include <stdlib.h>
#define LINES 20
#define WIDTH 24

/* A line editor. Its commands stand between `;`, or on lines of their own:
 *
 *   aTEXT      appends a line            iN,TEXT    inserts one before line N
 *   dM,N       deletes lines M to N      kM,N,T     copies lines M to N behind line T
 *   rN,XY      puts Y for each X in N    cN         makes line N upper case
 *   jN         joins N and the next      vM,N       writes lines M to N from the last one on
 *   pM,N       writes lines M to N       n          writes how many lines and letters there are
 *
 * What is written stands between `;` too. A command that can't be done is answered by `?`.
 */
char text[LINES][WIDTH];
int count;
int next;
int refusals;

/* Input: a byte ahead. */

void advance(void)
{
    next = getchar();
}

int at_end_of_command(void)
{
    return next == ';' || next == '\n' || next == EOF;
}

void skip_command(void)
{
    while (!at_end_of_command())
        advance();
}

int is_digit(int c)
{
    return c >= '0' && c <= '9';
}

/* A number, or 0 where none stands. */
int number(void)
{
    int value = 0;
    while (is_digit(next)) {
        if (value < 1000)
            value = 10 * value + (next - '0');
        advance();
    }
    return value;
}

void skip_comma(void)
{
    if (next == ',')
        advance();
}

/* Lines. */

int length(char *line)
{
    int n = 0;
    while (line[n])
        n++;
    return n;
}

void copy(char *to, char *from)
{
    int i = 0;
    while (from[i]) {
        to[i] = from[i];
        i++;
    }
    to[i] = '\0';
}

/* Reads the rest of a command; what is too long is cut. */
void read_line(char *line)
{
    int n = 0;
    while (!at_end_of_command()) {
        if (n < WIDTH - 1) {
            line[n] = next;
            n++;
        }
        advance();
    }
    line[n] = '\0';
}

int is_line(int n)
{
    return n >= 1 && n <= count;
}

void refuse(void)
{
    refusals++;
    printf("?;");
    skip_command();
}

/* Makes room for so many lines behind a line. */
void open_gap(int behind, int lines)
{
    int i;
    for (i = count; i > behind; i--)
        copy(text[i - 1 + lines], text[i - 1]);
    count += lines;
}

/* Commands. */

void append(void)
{
    if (count == LINES) {
        refuse();
        return;
    }
    read_line(text[count]);
    count++;
}

void insert(void)
{
    int before = number();
    skip_comma();
    if (!is_line(before) || count == LINES) {
        refuse();
        return;
    }
    open_gap(before - 1, 1);
    read_line(text[before - 1]);
}

void delete(void)
{
    int first;
    int last;
    int i;
    first = number();
    skip_comma();
    last = number();
    if (!is_line(first) || !is_line(last)) {
        refuse();
        return;
    }
    for (i = last; i < count; i++)
        copy(text[i - (last - first + 1)], text[i]);
    count -= last - first + 1;
}

void copy_lines(void)
{
    char held[LINES][WIDTH];
    int from;
    int end;
    int behind;
    int i;
    from = number();
    skip_comma();
    end = number();
    skip_comma();
    behind = number();
    if (!is_line(from) || !is_line(end) || end < from || behind > count || count + (end - from + 1) > LINES) {
        refuse();
        return;
    }
    for (i = from; i <= end; i++)
        copy(held[i - from], text[i - 1]);
    open_gap(behind, end - from + 1);
    for (i = from; i <= end; i++)
        copy(text[behind + (i - from)], held[i - from]);
}

void replace(void)
{
    int line = number();
    int old;
    int new;
    char *p;
    skip_comma();
    old = next;
    if (!is_line(line) || at_end_of_command()) {
        refuse();
        return;
    }
    advance();
    new = next;
    if (at_end_of_command()) {
        refuse();
        return;
    }
    advance();
    for (p = text[line - 1]; *p; p++)
        if (*p == old)
            *p = new;
}

void capitals(void)
{
    int line = number();
    char *p;
    if (!is_line(line)) {
        refuse();
        return;
    }
    for (p = text[line - 1]; *p; p++)
        if (*p >= 'a' && *p <= 'z')
            *p += 'A' - 'a';
}

void join(void)
{
    int line = number();
    int taken;
    int i;
    if (!is_line(line) || !is_line(line + 1)) {
        refuse();
        return;
    }
    taken = length(text[line - 1]);
    for (i = 0; text[line][i] && taken < WIDTH - 1; i++) {
        text[line - 1][taken] = text[line][i];
        taken++;
    }
    text[line - 1][taken] = '\0';
    for (i = line + 1; i < count; i++)
        copy(text[i - 1], text[i]);
    count--;
}

void print(int backwards)
{
    int low = number();
    int high;
    int i;
    skip_comma();
    high = number();
    if (!is_line(low) || !is_line(high) || high < low) {
        refuse();
        return;
    }
    for (i = low; i <= high; i++)
        printf("%s;", text[(backwards ? low + high - i : i) - 1]);
}

void numbers(void)
{
    int letters = 0;
    int i;
    for (i = 0; i < count; i++)
        letters += length(text[i]);
    printf("%d %d;", count, letters);
}

/* Does the command that its letter names. */
void command(int letter)
{
    if (letter == 'a')
        append();
    else if (letter == 'i')
        insert();
    else if (letter == 'd')
        delete();
    else if (letter == 'k')
        copy_lines();
    else if (letter == 'r')
        replace();
    else if (letter == 'c')
        capitals();
    else if (letter == 'j')
        join();
    else if (letter == 'p')
        print(0);
    else if (letter == 'v')
        print(1);
    else if (letter == 'n')
        numbers();
    else
        refuse();
}

int main(void)
{
    int letter;
    advance();
    while (next != EOF) {
        if (at_end_of_command()) {
            advance();
        } else {
            letter = next;
            advance();
            command(letter);
        }
    }
    printf("%d refused\n", refusals);
    return 0;
}
