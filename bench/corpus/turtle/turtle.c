#include <stdio.h>
#include <stdlib.h>
#define WIDE 24
#define HIGH 12
#define CODE 200
#define DEEPEST 6
#define PROCEDURES 5
#define NORTH 0
#define EAST 1
#define SOUTH 2
#define WEST 3

/* A turtle draws in a field of letters. Its words are
 *
 *   fN      N steps forward, bN backward      r l     a turn to the right, to the left
 *   u d     the pen up, down                  cX      draws with X from here on
 *   N[..]   does it N times                   =X..;   means X, a letter from A to E
 *   X       does what X means                 h       goes home
 *
 * Where it would leave the field it comes in at the other side, and turns its pen up.
 */

char field[HIGH][WIDE];
char code[CODE];
int begin[PROCEDURES];
int length;
int x;
int y;
int way;
int down;
int colour;
int steps;
int drawn;
int wraps;
char *wrong;

void fail(char *what)
{
    if (wrong == NULL)
        wrong = what;
}

void read_code(void)
{
    int c = getchar();
    while (c != EOF && length < CODE - 1) {
        if (c != ' ' && c != '\n') {
            code[length] = c;
            length++;
        }
        c = getchar();
    }
    code[length] = '\0';
    if (c != EOF)
        fail("too long");
}

void clear(void)
{
    int i;
    int j;
    for (i = 0; i < HIGH; i++)
        for (j = 0; j < WIDE; j++)
            field[i][j] = '.';
    for (i = 0; i < PROCEDURES; i++)
        begin[i] = -1;
    x = WIDE / 2;
    y = HIGH / 2;
    way = NORTH;
    down = 1;
    colour = '*';
}

void mark(void)
{
    if (!down)
        return;
    if (field[y][x] == '.')
        drawn++;
    field[y][x] = colour;
}

int wrapped(int n, int bound)
{
    if (n >= 0 && n < bound)
        return n;
    wraps++;
    down = 0;
    return n < 0 ? n + bound : n - bound;
}

void step(int direction)
{
    steps++;
    mark();
    if (direction == NORTH)
        y = wrapped(y - 1, HIGH);
    else if (direction == SOUTH)
        y = wrapped(y + 1, HIGH);
    else if (direction == EAST)
        x = wrapped(x + 1, WIDE);
    else
        x = wrapped(x - 1, WIDE);
}

void forward(int n)
{
    for (; n > 0; n--)
        step(way);
}

void backward(int n)
{
    for (; n > 0; n--)
        step((way + 2) % 4);
}

int is_digit(int c)
{
    return c >= '0' && c <= '9';
}

/* The number at a place, and 1 where none stands; `end` is told what is behind it. */
int number(int at, int *end)
{
    int n = 0;
    if (!is_digit(code[at])) {
        *end = at;
        return 1;
    }
    while (is_digit(code[at])) {
        if (n < 100)
            n = 10 * n + (code[at] - '0');
        at++;
    }
    *end = at;
    return n;
}

/* The place of the bracket that closes one. */
int closing(int at)
{
    int open = 0;
    while (code[at]) {
        if (code[at] == '[')
            open++;
        if (code[at] == ']') {
            open--;
            if (open == 0)
                return at;
        }
        at++;
    }
    fail("no ]");
    return at;
}

int end_of_meaning(int at)
{
    while (code[at] && code[at] != ';')
        at++;
    if (!code[at])
        fail("no ;");
    return at;
}

void run(int from, int to, int depth);

void call(int letter, int depth)
{
    int start = begin[letter - 'A'];
    if (start < 0) {
        fail("no meaning");
        return;
    }
    run(start, end_of_meaning(start), depth + 1);
}

int repeat(int at, int depth)
{
    int start;
    int end;
    int times = number(at, &start);
    if (code[start] != '[') {
        fail("no [");
        return start;
    }
    end = closing(start);
    for (; times > 0 && wrong == NULL; times--)
        run(start + 1, end, depth + 1);
    return end + 1;
}

int define(int at)
{
    int letter = code[at];
    if (letter < 'A' || letter >= 'A' + PROCEDURES) {
        fail("no name");
        return at;
    }
    begin[letter - 'A'] = at + 1;
    return end_of_meaning(at + 1) + 1;
}

void run(int from, int to, int depth)
{
    int at = from;
    int c;
    int n;
    if (depth > DEEPEST) {
        fail("too deep");
        return;
    }
    while (at < to && wrong == NULL) {
        c = code[at];
        if (is_digit(c)) {
            at = repeat(at, depth);
            continue;
        }
        at++;
        if (c == 'f' || c == 'b') {
            n = number(at, &at);
            if (c == 'f')
                forward(n);
            else
                backward(n);
        } else if (c == 'r') {
            way = (way + 1) % 4;
        } else if (c == 'l') {
            way = (way + 3) % 4;
        } else if (c == 'u' || c == 'd') {
            down = c == 'd';
        } else if (c == 'c' && at < to) {
            colour = code[at];
            at++;
        } else if (c == 'h') {
            x = WIDE / 2;
            y = HIGH / 2;
            way = NORTH;
        } else if (c == '=') {
            at = define(at);
        } else if (c >= 'A' && c < 'A' + PROCEDURES) {
            call(c, depth);
        } else {
            fail("unknown");
        }
        if (steps > 2000)
            fail("too far");
    }
}

int main(void)
{
    int i;
    int j;
    clear();
    read_code();
    run(0, length, 0);
    mark();
    for (i = 0; i < HIGH; i++) {
        for (j = 0; j < WIDE; j++)
            putchar(field[i][j]);
        putchar('\n');
    }
    printf("at %d %d, %d steps, %d drawn, %d wraps\n", x, y, steps, drawn, wraps);
    if (wrong != NULL)
        printf("%s\n", wrong);
    return wrong != NULL;
}
